% The least-cost ways of a book, as documents 01 and 02 say them. The book is facts: players(P), fee(C), move(A,B,T,C), entry(J,A,B,S,F):
% entry J begins on instrument A and ends on B.

% Staying on an instrument takes and costs nothing where no line says what it does.
line(A,A) :- move(A,A,_,_).
link(A,B,T,C) :- move(A,B,T,C).
link(A,A,0,0) :- entry(_,A,_,_,_), not line(A,A).

% Entry J may follow entry I, at cost C: from where I ends to where J begins.
join(I,J,C) :- entry(I,_,B,_,F), entry(J,A,_,S,_), link(B,A,T,C), I != J, F + T <= S.

% Each entry has a predecessor that it may follow, or 0; no entry is the predecessor of two; at most P open.
{ way(J,0); way(J,I) : join(I,J,_) } = 1 :- entry(J,_,_,_,_).
:- entry(I,_,_,_,_), 2 { way(J,I) : join(I,J,_) }.
:- players(P), P + 1 { way(J,0) : entry(J,_,_,_,_) }.

#minimize { C,J : way(J,0), fee(C); C,J : way(J,I), join(I,J,C) }.
#show way/2.
