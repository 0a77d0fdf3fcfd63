"""A reader of books for the tests, written from the text of 01 and 02 alone and with Python's regular expressions: what each call has to answer."""
import re

NUMBER = rb"(?:0|[1-9][0-9]{0,6})"
MOVE = rb"\(move A A A A\)\n".replace(b"A", NUMBER)
ENTRY = rb"\(entry \(name [a-z0-9]{1,16}\)(?: A){3,4}\)\n".replace(b"A", NUMBER)
FORM = re.compile(
    rb"\(book\n\(players (?P<players>A)\)\n\(fee (?P<fee>A)\)\n".replace(b"A", NUMBER)
    + rb"(?P<moves>(?:" + MOVE + rb")*)(?P<entries>(?:" + ENTRY + rb")*)\)\n")
MILLION = 1000000
LONGEST = 16384


class Book:
    """P, the fee, the moves (A, B, T, C), the entries (A, B, S, F), where A is B in the short form, and where each name begins and ends."""

    def __init__(self, form):
        self.players, self.fee = int(form["players"]), int(form["fee"])
        self.moves = [tuple(int(w) for w in line[6:-1].split(b" ")) for line in form["moves"].split(b"\n")[:-1]]
        self.entries, self.names, at = [], [], form.start("entries")
        for line in form["entries"].split(b"\n")[:-1]:
            words = line[:-1].split(b" ")
            *instruments, start, finish = (int(w) for w in words[3:])
            self.entries.append((instruments[0], instruments[-1], start, finish))
            self.names.append((at + 13, at + 13 + len(words[2]) - 1))
            at += len(line) + 1


def read(text):
    """The book that the bytes hold, or None."""
    form = FORM.fullmatch(text)
    return Book(form) if form else None


def failing(book):
    """For 13, 14 and 15 the numbers of all lines that fail."""
    bad = {13: [], 14: [], 15: []}
    if not 1 <= book.players <= 8: bad[13].append(2)
    if book.fee > MILLION: bad[13].append(3)
    seen = set()
    for k, (a, b, t, c) in enumerate(book.moves, 4):
        if not (1 <= a <= 16 and 1 <= b <= 16 and t <= MILLION and c <= MILLION and (a, b) not in seen): bad[14].append(k)
        seen.add((a, b))
    for k, (a, b, s, f) in enumerate(book.entries, 4 + len(book.moves)):
        if not (1 <= a <= 16 and 1 <= b <= 16 and s < f <= MILLION): bad[15].append(k)
    return bad


def refusal(text):
    """The number of the first question that fails, or 0; the line that is told with it, the lowest of 02's request 3, or 0; and the book, if it is accepted."""
    if len(text) > LONGEST: return 11, 0, None
    book = read(text)
    if book is None: return 12, 0, None
    for question, lines in failing(book).items():
        if lines: return question, min(lines), None
    if len(book.entries) > 28: return 16, 0, None
    return 0, 0, book


def name(text, entry):
    """The refusal of a name call, and the span of the name."""
    code, _, book = refusal(text)
    if code: return code, (0, 0)
    if not 1 <= entry <= len(book.entries): return 19, (0, 0)
    return 0, book.names[entry - 1]
