"""The book's questions by desk_count and desk_first, and the names by desk_name and desk_name_refusal, beside the reader in book_reader.py. Deterministic."""
import itertools
import random
import unittest

import book_reader as reader
import way_library
from desk_library import MORE, NONE, OK
from way_books import EXAMPLE, bad_lines, made, played, sized

LENT = b"\x55" * 112                   # room for 28 entries
BOTH = b"(book\n(players 2)\n(fee 6)\n(move 2 1 24 3)\n(entry (name tour) 1 2 0 96)\n(entry (name bells) 1 120 200)\n(entry (name back) 2 1 240 300)\n)\n"


class Run:
    """`seen` has the refusals told, 0 for none."""

    def __init__(self, desk):
        self.desk, self.calls, self.wrong, self.seen, self.turn = desk, 0, 0, {}, 0

    def expect(self, what, got, wanted):
        self.calls += 1
        if got != wanted:
            self.wrong += 1
            if self.wrong <= 10: print("%s: %r, and not %r" % (what, got, wanted))

    def asked(self, text, both):
        """Code, line and the codes that are no refusal, by the count and by the first way, or by the two in turn."""
        self.turn += 1
        if both or self.turn % 2: yield self.desk.count(text, 0)[0], self.desk.line, (OK, MORE)
        if both or self.turn % 2 == 0: yield self.desk.first(text, LENT)[0][0], self.desk.line, (OK, NONE)

    def check(self, text, code=None, line=None):
        """The library's answer is the reader's, and that of the case where it states one."""
        wanted, lowest, _ = reader.refusal(text)
        for got, told, accepted in self.asked(text, code is not None):
            if got in accepted: got = 0
            self.seen[got] = self.seen.get(got, 0) + 1
            self.expect("refusal of %r" % text[:200], got, wanted)
            self.expect("line told of %r" % text[:200], told, lowest)
            if code is not None: self.expect("stated refusal of %r" % text[:200], got, code)
            if line is not None: self.expect("stated line of %r" % text[:200], told, line)

    def names(self, text, entries):
        for j in entries:
            code, (start, end) = reader.name(text, j)
            self.expect("name %d of %r" % (j, text[:200]), self.desk.name(text, j), (start, end - start))
            self.expect("refusal of name %d of %r" % (j, text[:200]), self.desk.name_refusal(text, j), code)


def near_misses(run):
    lines = EXAMPLE.split(b"\n")[:-1]
    run.check(EXAMPLE, 0)
    run.check(b"", 12)
    # a space missing, doubled, or a tab, CR, NUL, 127, 128 or 255 for it; the same for every byte 10
    for i, b in enumerate(EXAMPLE):
        if b in b" \n":
            for other in (b"", b"  ", b"\n\n", b"\t", b"\r", b"\r\n", b"\0", b"\x7f", b"\x80", b"\xff"):
                run.check(EXAMPLE[:i] + other + EXAMPLE[i + 1:], 12)
    # text after each `)`, before each line, upper case
    for k, line in enumerate(lines):
        for other in (line + b" ", line + b"x", line + b")", b" " + line, line.upper() if line != b")" else b"]"):
            run.check(b"\n".join(lines[:k] + [other] + lines[k + 1:]) + b"\n", 12)
    # cut at every byte, and at every byte of each head, and more after the end
    for n in range(len(EXAMPLE)): run.check(EXAMPLE[:n], 12)
    for head in (b"(book", b"(players ", b"(fee ", b"(move ", b"(entry (name "):
        for n in range(len(head)):
            run.check(EXAMPLE.replace(head, head[:n] + head[n + 1:], 1), 12)
    for more in (b"\n", b" ", b"x", b")", b")\n", EXAMPLE): run.check(EXAMPLE + more, 12)
    # forms left out, doubled, and out of order
    for k in range(3): run.check(b"\n".join(lines[:k] + lines[k + 1:]) + b"\n", 12)
    for k in range(3): run.check(b"\n".join(lines[:k] + [lines[k]] + lines[k:]) + b"\n", 12)
    for i in range(len(lines)):
        for j in range(i):
            swapped = list(lines)
            swapped[i], swapped[j] = swapped[j], swapped[i]
            run.check(b"\n".join(swapped) + b"\n")
    run.check(b"(book\n(players 2)\n(fee 6)\n(entry (name a) 1 0 1)\n(move 1 2 0 0)\n)\n", 12)
    # words of 0, 1, 16 and 17, and each byte in a word
    for n, code in ((0, 12), (1, 0), (16, 0), (17, 12)): run.check(made(entries=[(b"z" * n, 1, 0, 1)]), code)
    for b in range(256): run.check(made(entries=[(bytes([b]), 1, 0, 1)]), 0 if chr(b) in "abcdefghijklmnopqrstuvwxyz0123456789" else 12)
    # numbers of 0, 1, 7 and 8 digits, 00, 01, signs and other bytes, at every place where a number stands
    spots = [b"(players 2)", b"(fee 6)", b"24 3)\n(move 2", b"1 0 96)", b"1 2 24 3)"]
    for spot in spots:
        for digits, form in ((b"", 12), (b"0", None), (b"7", None), (b"9999999", None), (b"00000000", 12), (b"10000000", 12), (b"00", 12), (b"01", 12), (b"-1", 12), (b"+1", 12), (b"1.", 12), (b"1e3", 12), (b" 1", 12), (b"1 ", 12), (b"\xb2", 12)):
            at = EXAMPLE.index(spot) + next(i for i, b in enumerate(spot) if chr(b).isdigit())
            end = at
            while chr(EXAMPLE[end]).isdigit(): end += 1
            run.check(EXAMPLE[:at] + digits + EXAMPLE[end:], form)
    for digits in (b"1000000", b"1000001", b"9999999"): run.check(EXAMPLE.replace(b"(fee 6)", b"(fee %s)" % digits), 0 if digits == b"1000000" else 13)


def forms(run):
    """The two forms of an entry, and what is neither."""
    run.check(BOTH, 0)
    head, end = BOTH[:BOTH.index(b"(entry")], b")\n"
    first, second, third = BOTH[len(head):-2].splitlines(True)
    for order in itertools.permutations((first, second, third)): run.check(head + b"".join(order) + end, 0)
    for count in range(4):
        for lines in itertools.product((first, second), repeat=count): run.check(head + b"".join(lines) + end, 0)
    # three or four numbers behind the name, alone and between other entries
    put = lambda line: (head + line + end, head + first + line + second + end)
    for numbers, code in ((b"", 12), (b" ", 12), (b" 1", 12), (b" 1 2", 12), (b" 1 2 3", 0), (b" 1 2 3 4", 0), (b" 1 2 3 4 5", 12), (b" 1 2 3 4 5 6", 12), (b" 1 2 3 4 5 6 7 8", 12)):
        for text in put(b"(entry (name x)%s)\n" % numbers): run.check(text, code)
    # a byte more or another byte at each place between two items, in both forms: before each number and before `)`
    for numbers in (b" 3 7 9", b" 3 4 7 9"):
        line = b"(entry (name x)%s)\n" % numbers
        places = [i for i in range(len(b"(entry (name x)"), len(line) - 1) if line[i] in b" )"]
        for i in places:
            for more in (b" ", b"\t", b"\n", b",", b"(", b")", b"x", b"-", b"\0", b" )\n", b")\n"):
                for text in put(line[:i] + more + line[i:]): run.check(text, 12)
            for other in (b"  ", b"\t", b"\n", b"\r", b",", b"x", b"\0", b"\xa0"):
                for text in put(line[:i] + other + line[i + 1:]): run.check(text, 12)
        for other in (line[:-2] + b"\n", line[:-1], line[:-2], line[:-1] + b" \n", line[:-1] + b")\n", line[:-1] + b"\r\n", line[:-1] + b" " + line, line[:-1] + line, line + b"\n", b" " + line):
            for text in put(other): run.check(text, 12)
    # a space missing: a long form may then be a short one, and a short one is none
    for line, code in ((b"(name x)3 7 9", 12), (b"(name x) 37 9", 12), (b"(name x) 3 79", 12), (b"(name x)3 4 7 9", 12), (b"(name x) 34 7 9", 15), (b"(name x) 3 47 9", 15), (b"(name x) 3 47 90", 0),
                       (b"(name x) 3 4 79", 0), (b"(namex) 3 4 7 9", 12), (b"(name x 3 4 7 9", 12)):
        for text, place in zip(put(b"(entry %s)\n" % line), (5, 6)): run.check(text, code, place if code == 15 else 0)
    # each number of both forms
    for numbers in ([b"3", b"7", b"9"], [b"3", b"4", b"7", b"9"]):
        for k in range(len(numbers)):
            tick = len(numbers) - k                                # 2 is S and 1 is F
            for other, code in ((b"0", 0 if tick == 2 else 15), (b"8", 0), (b"16", 15 if tick == 2 else 0), (b"17", 0 if tick == 1 else 15), (b"1000000", 0 if tick == 1 else 15), (b"1000001", 15), (b"9999999", 15),
                                (b"", 12), (b"00", 12), (b"0" + numbers[k], 12), (b"00000000", 12), (b"10000000", 12), (b"12345678", 12), (b"a", 12), (b"3a", 12), (b"a3", 12), (b"-3", 12), (b"+3", 12), (b"3.", 12),
                                (b"1e1", 12), (b"(3)", 12), (b"\xb2", 12)):
                for text, place in zip(put(b"(entry (name x) %s)\n" % b" ".join(numbers[:k] + [other] + numbers[k + 1:])), (5, 6)): run.check(text, code, place if code == 15 else 0)
    # a long form before the moves, between them, before the head's lines and after the end
    lines = BOTH.splitlines(True)
    move, rest = lines[3], lines[4:]
    for text in (b"".join(lines[:3] + [first, move] + rest), b"".join(lines[:3] + [move.replace(b"2 1", b"1 2"), first, move] + rest), b"".join(lines[:3] + [first, move, end]),
                 *(b"".join(lines[:k] + [first] + lines[k:]) for k in range(3)), BOTH + first, BOTH[:-2] + first): run.check(text, 12)
    # each byte between two items is another or is more, and the book is cut at every byte
    for i, b in enumerate(BOTH):
        if b in b" \n":
            for other in (b"  ", b"\n\n", b"\t", b"\r", b"\r\n", b"\0", b"\x7f", b"\x80", b"\xff", b" \n", b"\n "): run.check(BOTH[:i] + other + BOTH[i + 1:], 12)
        run.check(BOTH[:i], 12)
    # where the names are
    for text in (BOTH, BOTH.replace(b"tour) 1 2 0 96", b"tour) 16 16 999999 1000000"), BOTH.replace(b"(name tour)", b"(name 0123456789abcdef)")):
        words = [row.split(b")")[0] for row in text.split(b"(name ")[1:]]
        for j, word in enumerate(words, 1): run.expect("name %d of %r" % (j, text), run.desk.name(text, j), (text.index(b"(name %s)" % word) + 6, len(word)))
        run.expect("the names", [text[start:start + length] for start, length in (run.desk.name(text, j) for j in (1, 2, 3))], [words[0], b"bells", b"back"])
        run.names(text, (0, 1, 2, 3, 4, 4294967295))


def sizes(run):
    for size, code in ((16384, 14), (16385, 11), (16386, 11), (20000, 11)):
        text = sized(size)
        assert len(text) == size, (len(text), size)
        run.check(text, code)
    run.check(b"x" * 16384, 12)
    run.check(b"x" * 16385, 11)
    for count, code in ((0, 0), (1, 0), (27, 0), (28, 0), (29, 16), (30, 16), (500, 16)):
        for text in (made(entries=[(b"e%d" % j, 1, j, j + 1) for j in range(count)]), made(entries=[(b"e%d" % j, 1, 16, j, j + 1) for j in range(count)])):
            run.check(text, code)
            run.names(text, range(0, count + 3))


def orders(run):
    """Every refusal against every other: the lowest decides, and its line is the lowest that fails that question."""
    faults = {13: "players", 14: "moves", 15: "entries", 16: "count"}
    for mask in range(16):
        on = [q for k, q in enumerate(faults) if mask >> k & 1]
        for broken in (False, True):
            for long in (False, True):
                moves = [(3, 3, 0, 0), (3, 3, 0, 0) if 14 in on else (2, 1, 0, 0)]
                entries = [(b"a", 1, 0, 1), (b"b", 1, 5, 5 if 15 in on else 6)] + [(b"c", 1, 0, 1)] * (27 if 16 in on else 0)
                text = made(9 if 13 in on else 8, 6, moves, entries)
                if broken: text = text[:-1]
                if long: text += b" " * 16384
                run.check(text, 11 if long else 12 if broken else on[0] if on else 0)
                run.names(text, (0, 1, 2, 29, 30))
    # the header
    for p in (0, 1, 8, 9, 9999999): run.check(made(players=p), 0 if 1 <= p <= 8 else 13, 0 if 1 <= p <= 8 else 2)
    for c in (0, 1000000, 1000001): run.check(made(fee=c), 0 if c <= 1000000 else 13, 0 if c <= 1000000 else 3)
    # each part of a move and of an entry, at each of three lines
    fair = [(1, 2, 0, 0), (2, 1, 5, 5), (16, 15, 1000000, 1000000)]
    for k in range(3):
        for bad in ((0, 2, 0, 0), (17, 2, 0, 0), (1, 0, 0, 0), (1, 17, 0, 0), (0, 0, 0, 0), (17, 17, 0, 0), (1, 3, 1000001, 0), (1, 3, 0, 1000001), (7, 7, 1000001, 0), (7, 7, 0, 1000001), (9999999, 1, 0, 0)):
            moves = list(fair)
            moves[k] = bad
            run.check(made(moves=moves), 14, 4 + k)
    run.check(made(moves=fair), 0)
    run.check(made(moves=fair + [(2, 1, 9, 9)]), 14, 7)
    run.check(made(moves=[(1, 2, 0, 0), (2, 1, 0, 0), (1, 2, 0, 0)]), 14, 6)
    run.check(made(moves=[(1, 2, 9999999, 0), (1, 2, 0, 0)]), 14)
    # a move from an instrument to itself, at each line; a second one of that instrument fails, also where the first takes and costs nothing
    for k in range(4): run.check(made(moves=fair[:k] + [(7, 7, 1000000, 1000000)] + fair[k:]), 0)
    for first in ((3, 3, 0, 0), (3, 3, 5, 5), (3, 3, 1000000, 1000000)):
        run.check(made(moves=[(1, 1, 0, 0), first, (2, 2, 0, 0)]), 0)
        run.check(made(moves=[(1, 1, 0, 0), first, (1, 3, 0, 0), (3, 3, 5, 5), (3, 1, 0, 0)]), 14, 7)
    every = [(a, b, a, b) for a in range(1, 17) for b in range(1, 17)]
    run.check(made(moves=every), 0)
    for again in ((3, 4, 0, 0), (1, 1, 0, 0), (16, 16, 0, 0)): run.check(made(moves=every + [again]), 14, 4 + 256)
    for k in range(3):
        for bad in ((b"x", 0, 0, 1), (b"x", 17, 0, 1), (b"x", 1, 1, 1), (b"x", 1, 2, 1), (b"x", 1, 0, 1000001), (b"x", 1, 9999999, 9999999),
                    (b"x", 0, 1, 0, 1), (b"x", 17, 1, 0, 1), (b"x", 1, 0, 0, 1), (b"x", 1, 17, 0, 1), (b"x", 0, 0, 0, 1), (b"x", 17, 17, 0, 1), (b"x", 9999999, 1, 0, 1), (b"x", 1, 9999999, 0, 1),
                    (b"x", 1, 2, 1, 1), (b"x", 1, 2, 2, 1), (b"x", 1, 2, 0, 1000001), (b"x", 1, 2, 1000000, 1000000), (b"x", 1, 2, 9999999, 9999999)):
            for entries in ([(b"a", 1, 0, 1), (b"a", 16, 999999, 1000000), (b"c", 2, 7, 8)], [(b"a", 1, 16, 0, 1), (b"a", 16, 1, 999999, 1000000), (b"c", 16, 16, 7, 8)]):
                run.check(made(moves=fair, entries=entries), 0)
                entries[k] = bad
                run.check(made(moves=fair, entries=entries), 15, 7 + k)
    # an entry needs no move between its instruments, and moves no entry on theirs
    for a, b in itertools.product((1, 2, 15, 16), repeat=2):
        for moves in ([], [(a, b, 1000000, 1000000)], [(b, a, 0, 0)]): run.check(made(moves=moves, entries=[(b"x", a, b, 0, 1)]), 0)
    # two entries of one name: each call gives its own part
    twice = made(entries=[(b"drum", 1, 0, 1), (b"drum", 2, 3, 4)])
    run.check(twice, 0)
    run.names(twice, (0, 1, 2, 3, 4294967295))


def several(run):
    """Several lines fail a question, in every order: the lowest is told."""
    for question, line, text in bad_lines(): run.check(text, question, line)
    # one set of lines in every order: which moves fail depends on the order
    for moves in itertools.permutations([(1, 2, 0, 0), (1, 2, 5, 5), (3, 3, 0, 0), (3, 3, 0, 0), (17, 2, 0, 0), (17, 2, 1, 1)]): run.check(made(moves=moves))
    entries = [(b"a", 1, 0, 1), (b"b", 1, 1, 1), (b"c", 2, 3, 7, 8), (b"d", 17, 0, 1), (b"e", 1, 0, 1000001), (b"f", 1, 17, 0, 1)]
    for some in itertools.permutations(entries): run.check(made(moves=[(1, 2, 0, 0)], entries=some), 15, 5 + min(some.index(entries[k]) for k in (1, 3, 4, 5)))
    # beyond the 28th entry, and with 16 as well
    for k in (28, 29, 300):
        for good, bad in (((b"a", 1, 0, 1), (b"b", 1, 1, 1)), ((b"a", 1, 0, 1), (b"b", 1, 17, 0, 1)), ((b"a", 1, 16, 0, 1), (b"b", 1, 2, 1, 1)), ((b"a", 1, 16, 0, 1), (b"b", 0, 0, 1))):
            run.check(made(entries=[good] * k + [bad] * 3), 15, 4 + k)


def random_book(rng):
    number = lambda most: rng.choice([rng.randint(0, most), rng.randint(0, 20), most])
    word = lambda: bytes(rng.choice(b"abcdefghijklmnopqrstuvwxyz0123456789") for _ in range(rng.randint(1, 16)))
    pairs = [(a, b) for a in range(1, 17) for b in range(1, 17)]
    moves = [(a, b, number(1000000), number(1000000)) for a, b in rng.sample(pairs, rng.randint(0, 6))]
    entries, long = [], rng.choice((0.0, 0.5, 1.0))
    for _ in range(rng.choice([0, 1, 2, 3, 5, 28])):
        s = number(999999)
        entries.append((word(), *played(rng, range(1, 17), long), min(s, 999999), rng.randint(min(s, 999999) + 1, 1000000)))
    if rng.random() < 0.2 and moves: moves.insert(rng.randint(0, len(moves)), rng.choice(moves))
    if rng.random() < 0.1 and entries: entries[rng.randrange(len(entries))] = (b"x", *played(rng, range(18), long), rng.randint(0, 3), rng.randint(0, 3))
    return made(rng.choice([1, 2, 8, 8, 0, 9] if rng.random() < 0.2 else [1, 2, 8]), number(1000000), moves, entries)


def damaged(run):
    rng = random.Random(4)
    full = [made(entries=[(b"e%d" % j, 1, j, j + 1) for j in range(n)]) for n in (28, 29)]
    books = [EXAMPLE, BOTH] + full + [random_book(rng) for _ in range(3000)]
    for k, text in enumerate(books):
        run.check(text)
        if k % 10 == 0: run.names(text, (0, 1, 2, 3, 28, 29))
    for text in books[:40]:
        for i in range(len(text)):
            run.check(text[:i] + text[i + 1:])
            run.check(text[:i] + text[i:i + 1] + text[i:])
            for b in rng.sample(range(256), 2) + [rng.choice(b"0123456789 ()\nabz")]: run.check(text[:i] + bytes([b]) + text[i + 1:])
    for text in books[40:]:
        for _ in range(10):
            i = rng.randrange(len(text))
            other = rng.choice([text[:i] + text[i + 1:], text[:i] + text[i:i + 1] + text[i:], text[:i] + bytes([rng.randrange(256)]) + text[i + 1:], text[:i] + bytes([rng.choice(b"0123456789")]) + text[i + 1:]])
            run.check(other)
            if rng.random() < 0.05: run.names(other, (1, 2))


class Books(unittest.TestCase):
    @classmethod
    def setUpClass(cls):
        cls.desk = way_library.load()

    def compare(self, part, calls, answers):
        """No call differs; and as many were made, with these answers, as when the test was written."""
        run = Run(self.desk)
        part(run)
        self.assertEqual((run.wrong, run.calls, sorted(run.seen)), (0, calls, answers))

    def test_near_misses(self):
        self.compare(near_misses, 5568, [0, 12, 13, 14, 15])

    def test_forms(self):
        self.compare(forms, 8114, [0, 12, 15])

    def test_sizes(self):
        self.compare(sizes, 2664, [0, 11, 12, 14, 16])

    def test_orders(self):
        self.compare(orders, 3376, [0, 11, 12, 13, 14, 15, 16])

    def test_several(self):
        self.compare(several, 121984, [0, 13, 14, 15])

    def test_damaged(self):
        self.compare(damaged, 223320, [0, 12, 13, 14, 15, 16])


if __name__ == "__main__":
    unittest.main()
