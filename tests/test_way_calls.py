"""The book entries of the C surface beside the reader of way_trial.py: document 01's books, the stored examples, thousands of small books, the limits. Calls for
sheets and for spares stand between the others. Deterministic."""
import itertools
import random
import re
import struct
import unittest

import book_reader
import network_library
import trial
import way_library
import way_trial
from desk_library import END, MORE, NONE, NO_MOVE, OK, ROOT, numbers
from test_network_calls import CAP, Session, caps
from test_way_trial import PARTS, cost_of, counted, doubled, examples, old_list, old_listing, shortened, without_parts
from way_books import EXAMPLE, HALVES, LONGEST, MOST, THOUSAND, bad_lines, damaged, large, layered_ways, made, named, paired, refused, sized, small

ONE = EXAMPLE.replace(b"(players 2)", b"(players 1)")
LATE = (b"1 0 96)", b"1 0 97)")
DOCUMENT = [                           # name, book, cost, ways
    ("the book", EXAMPLE, 12, [(0, 0, 1), (0, 1, 2)]),
    ("one player", ONE, 12, [(0, 1, 2)]),
    ("one player, snare to 97", ONE.replace(*LATE), 0, []),
    ("two players, snare to 97", EXAMPLE.replace(*LATE), 12, [(0, 0, 1)]),
    ("no entries", made(), 0, [()]),
]
STAYING = [                            # request 1 of 02: name, book, cost, ways
    (name, made(players, 20, [(1, 1, ticks, cost)], named([(1, 0, 96), (instrument, start, 240), (1, 288, 384)])), least, ways)
    for name, players, ticks, cost, instrument, start, least, ways in (
        ("a change of mallets, no time", 1, 48, 2, 1, 143, 0, []),
        ("no time, a second player", 2, 48, 2, 1, 143, 42, [(0, 0, 1), (0, 0, 2)]),
        ("to the tick", 1, 48, 2, 1, 144, 24, [(0, 1, 2)]),
        ("to the tick, a second player", 2, 48, 2, 1, 144, 24, [(0, 1, 2)]),
        ("as dear as a player", 2, 48, 20, 1, 144, 60, [(0, 0, 1), (0, 0, 2), (0, 1, 0), (0, 1, 2)]),
        ("dearer than a player", 2, 48, 25, 1, 144, 65, [(0, 0, 1), (0, 0, 2), (0, 1, 0)]),
        ("dearer, one player", 1, 48, 25, 1, 144, 70, [(0, 1, 2)]),
        ("ticks without a cost", 1, 48, 0, 1, 144, 20, [(0, 1, 2)]),
        ("a cost without ticks", 1, 0, 7, 1, 96, 34, [(0, 1, 2)]),
        ("neither", 1, 0, 0, 1, 96, 20, [(0, 1, 2)]),
        ("longer than the book", 2, 1000000, 0, 1, 144, 0, []),
        ("another instrument in between", 2, 48, 2, 2, 143, 42, [(0, 0, 1)]),
    )] + [
    ("of instrument 1, played on 2", made(1, 20, [(1, 1, 48, 2)], named([(2, 0, 96), (2, 96, 240)])), 20, [(0, 1)]),
    ("of instrument 2, played on 1", made(1, 20, [(2, 2, 48, 2)], named([(1, 0, 96), (1, 96, 240)])), 20, [(0, 1)]),
    ("of 1 and of 16", made(2, 20, [(16, 16, 0, 3), (1, 1, 24, 2)], named([(1, 0, 96), (16, 0, 96), (16, 96, 192), (1, 120, 192)])), 45, [(0, 0, 2, 1)]),
    ("one entry needs no move of its own", made(1, 20, [(1, 1, 1000000, 1000000)], named([(1, 0, 96)])), 20, [(0,)]),
]
TOUR, BACK, OVER = (1, 2, 0, 96), (2, 1, 24, 3), (1, 2, 24, 3)     # from the bells (1) to the cymbal (2) in one entry; the moves back and over
ELSEWHERE = [                          # request 5 of 02: name, book, cost, ways
    (name, made(players, 6, moves, named(entries)), least, ways)
    for name, players, moves, entries, least, ways in (
        ("to the bells again, to the tick", 1, [BACK], [TOUR, (1, 120, 200)], 9, [(0, 1)]),
        ("to the tick, a second player", 2, [BACK], [TOUR, (1, 120, 200)], 9, [(0, 1)]),
        ("a tick short", 1, [BACK], [TOUR, (1, 119, 200)], 0, []),
        ("a tick short, a second player", 2, [BACK], [TOUR, (1, 119, 200)], 12, [(0, 0)]),
        ("no move", 1, [], [TOUR, (1, 120, 200)], 0, []),
        ("no move, a second player", 2, [], [TOUR, (1, 120, 200)], 12, [(0, 0)]),
        ("a move over is no help", 1, [OVER], [TOUR, (1, 120, 200)], 0, []),
        ("a move over is no help, a second player", 2, [OVER], [TOUR, (1, 120, 200)], 12, [(0, 0)]),
        ("a move back beside one over", 1, [(1, 2, 0, 0), BACK], [TOUR, (1, 120, 200)], 9, [(0, 1)]),
        ("as dear as a player", 2, [(2, 1, 24, 6)], [TOUR, (1, 120, 200)], 12, [(0, 0), (0, 1)]),
        ("dearer than a player", 2, [(2, 1, 24, 7)], [TOUR, (1, 120, 200)], 12, [(0, 0)]),
        ("dearer, one player", 1, [(2, 1, 24, 7)], [TOUR, (1, 120, 200)], 13, [(0, 1)]),
        ("the cymbal at once", 1, [], [TOUR, (2, 96, 200)], 6, [(0, 1)]),
        ("the cymbal at once, whatever the moves", 2, [(1, 2, 1000000, 1000000), (2, 1, 1000000, 1000000)], [TOUR, (2, 96, 200)], 6, [(0, 1)]),
        ("the cymbal, a tick too early", 1, [], [TOUR, (2, 95, 200)], 0, []),
        ("sticks to change on the cymbal", 1, [(2, 2, 24, 2)], [TOUR, (2, 120, 200)], 8, [(0, 1)]),
        ("sticks to change, a tick short", 1, [(2, 2, 24, 2)], [TOUR, (2, 119, 200)], 0, []),
        ("sticks to change, a tick short, a second player", 2, [(2, 2, 24, 2)], [TOUR, (2, 119, 200)], 12, [(0, 0)]),
        ("sticks to change on the bells", 1, [(1, 1, 1000000, 1000000)], [TOUR, (2, 96, 200)], 6, [(0, 1)]),
        ("sticks to change on both, and back", 1, [(1, 1, 1000000, 0), (2, 2, 1000000, 0), BACK], [TOUR, (1, 120, 200)], 9, [(0, 1)]),
        ("twice the same: neither both beginnings join nor both ends", 1, [], [TOUR, (1, 2, 96, 200)], 0, []),
        ("twice the same, a second player", 2, [OVER], [TOUR, (1, 2, 96, 200)], 12, [(0, 0)]),
        ("twice the same, and back", 1, [BACK], [TOUR, (1, 2, 120, 200)], 9, [(0, 1)]),
        ("over and back in the entries", 1, [], [TOUR, (2, 1, 96, 192), (1, 2, 192, 288), (2, 288, 300)], 6, [(0, 1, 2, 3)]),
        ("to the one who ends there", 2, [], [(1, 2, 0, 96), (2, 1, 0, 96), (1, 96, 200), (2, 96, 200)], 12, [(0, 0, 2, 1)]),
        ("either of two who end there", 2, [], [(1, 2, 0, 96), (3, 2, 0, 96), (2, 96, 192)], 12, [(0, 0, 1), (0, 0, 2)]),
        ("not in the order of time", 1, [BACK], [(1, 120, 200), TOUR], 9, [(2, 0)]),
        ("the rule's book, its first entry to the xylo", 2, [OVER, BACK], [TOUR, (2, 120, 200), (1, 240, 300)], 9, [(0, 1, 2)]),
        ("no move of its own", 1, [], [TOUR], 6, [(0,)]),
        ("no move of its own, where there is one", 1, [(1, 2, 1000000, 1000000)], [TOUR], 6, [(0,)]),
        ("alone with its move back", 1, [BACK], [TOUR], 6, [(0,)]),
        ("one instrument twice", 1, [], [(1, 1, 0, 96), (1, 1, 96, 200), (1, 200, 300)], 6, [(0, 1, 2)]),
        ("one instrument twice, sticks to change", 1, [(1, 1, 24, 2)], [(1, 0, 96), (1, 1, 120, 200), (1, 224, 300)], 10, [(0, 1, 2)]),
    )] + [
    ("the later one ends on %d" % b, made(1, 6, [(1, b, 1000000, 1000000)] if b > 1 else [], named([(1, 0, 96), (1, b, 96, 200)])), 6, [(0, 1)]) for b in (1, 2, 16)] + [
    ("the earlier one begins on %d" % a, made(1, 6, [(a, 1, 1000000, 1000000)] if a > 1 else [], named([(a, 1, 0, 96), (1, 96, 200)])), 6, [(0, 1)]) for a in (1, 2, 16)] + [
    ("from %d to %d, and on from there" % (a, b), made(1, 6, [], named([(a, b, 0, 96), (b, a, 96, 200)])), 6, [(0, 1)]) for a in (1, 16) for b in (1, 16)] + [
    ("from %d to %d, and from %d" % (a, b, a), made(1, 6, [(b, a, 24, 3)], named([(a, b, 0, 96), (a, 120, 200)])), 9, [(0, 1)]) for a, b in ((1, 16), (16, 1), (7, 8))] + [
    (name + ", in long forms", doubled(book), cost, ways) for name, book, cost, ways in DOCUMENT + STAYING]
REFUSED = list(refused())


class WaySession(Session):
    """A run of calls on one book, each answered by the library and by the reader."""

    def __init__(self, test, desk, rng, book):
        super().__init__(test, desk, rng, book, way_trial.Reader(book))

    def shown(self):
        return self.net.decode()

    def either_first(self):
        self.first()

    def sheets(self):
        """The room for the sheets of any item, and the sheets in a list of about that length; or calls for them that are refused. The finger stays."""
        given = self.any_given()
        got, wanted = self.desk.sheets_room(self.net, given), self.reader.sheets_room(given)
        if got != wanted: self.test.fail("room for the sheets of %r of %s: %r, and not %r" % (given, self.shown(), got, wanted))
        text = self.rng.randbytes(max(0, (wanted[1] or 79 * self.reader.m) + self.rng.choice((0, 0, 5, -1))))
        self.alike("sheets of %r" % given, self.desk.sheets(self.net, given, text), self.reader.sheets(given, text))

    def spare(self):
        """The spare of any two entries, or a call for it that is refused. The finger stays."""
        pair = [self.rng.randint(0, self.reader.m + 1) for _ in range(2)]
        got, wanted = self.desk.spare(self.net, *pair), way_trial.spare_answer(self.reader.book, *pair)
        if got != wanted: self.test.fail("spare of %r of %s: %r, and not %r" % (pair, self.shown(), got, wanted))
        self.calls[wanted[0]] = self.calls.get(wanted[0], 0) + 1

    def aside(self):
        """Sometimes a call for sheets or for a spare."""
        if self.rng.random() < 0.2: self.sheets()
        if self.rng.random() < 0.2: self.spare()

    def refused(self):
        """A call that fails a question, of this book or of another. The finger stays."""
        e, kind = self.reader.m, self.rng.randrange(6)
        if kind == 0: self.first(self.short(e))
        elif kind == 1: self.next(self.wrong())
        elif kind == 2: self.next(self.wrong(), self.short(e))
        elif kind == 3 and self.written is not None: self.next(None, self.short(e))
        else:
            question, book = self.rng.choice(REFUSED)
            lent = self.lent(e)
            got = self.desk.first(book, lent) if kind == 4 else self.desk.next(book, self.written or b"", lent)
            if got != ((question, 0), [lent]): self.test.fail("a book that fails %d: %r" % (question, got))
            self.calls[question] = self.calls.get(question, 0) + 1


class WayCalls(unittest.TestCase):
    @classmethod
    def setUpClass(cls):
        cls.desk = way_library.load()

    def session(self, book, seed):
        return WaySession(self, self.desk, random.Random(seed), book)

    def walked(self, book, length):
        """Every line of the list, by first and next, with the cost; at most so many."""
        lent = b"\x5c" * 120
        (code, cost), (after,) = self.desk.first(book, lent)
        lines = []
        while code == OK and len(lines) < length:
            e = len(book_reader.read(book).entries)
            lines.append(struct.unpack(f"<{e}i", after[:4 * e]))
            self.assertEqual(after[4 * e:], lent[4 * e:])
            (code, value), (after,) = self.desk.next(book, after[:4 * e], lent)
            self.assertEqual(value, cost if code == OK else 0)
        return code, cost, lines

    def listed(self, book, listing):
        """The listing, as `ways` prints it, into lists that are shorter, as long and longer; without a way, and refused, nothing is written."""
        size, line = len(listing), book_reader.refusal(book)[1]
        if listing == b"(none)\n": answer, listing = (NONE, 0), b""
        elif listing.startswith(b"(refused "): answer, listing = (int(listing[9:-2]), 0), b""
        else: answer = (OK, size)
        for room in sorted({0, 1, size // 2, size - 1, size, size + 1, size + 30}):
            text = bytes((7 * k + 1) % 256 for k in range(room))
            self.assertEqual(self.desk.listing(book, text), (answer, [listing + text[len(listing):] if room >= size else text]))
            self.assertEqual(self.desk.line, line)

    def test_documents(self):
        """The books of 01, staying on one instrument, and entries that end elsewhere."""
        for name, book, cost, ways in DOCUMENT + STAYING + ELSEWHERE:
            with self.subTest(name):
                e = book.count(b"(entry")
                for more in (0, 4, 40):
                    lent = bytes(range(100, 100 + 4 * e + more))
                    for given, line in zip([None, *ways], [*ways, None]):
                        wanted = lent if line is None else numbers(line) + lent[4 * e:]
                        if given is not None: self.assertEqual(self.desk.next(book, numbers(given), lent), ((END, 0) if line is None else (OK, cost), [wanted]))
                        else: self.assertEqual(self.desk.first(book, lent), ((NONE, 0) if line is None else (OK, cost), [wanted]))
                if not ways: self.assertEqual(self.desk.next(book, numbers([0] * e), lent), ((18, 0), [lent]))
                for cap in caps(len(ways)): self.assertEqual(self.desk.count(book, cap), (OK, len(ways)) if len(ways) <= cap else (MORE, 0))
                text = "".join("(way (parts %d)%s)\n" % (w.count(0), "".join(" %d" % i for i in w)) for w in ways)
                self.listed(book, ("(cost %d)\n%s(end %d)\n" % (cost, text, len(ways)) if ways else "(none)\n").encode())
                run = self.session(book, name)
                run.walk(0.4)
                run.counts()

    def test_examples(self):
        """Every stored listing: as desk_listing writes it, and as first, next and count give it."""
        for name, book, listing in examples():
            with self.subTest(name):
                self.listed(book, listing)
                rows = listing.decode().split("\n")
                if rows[0].startswith("(refused"):
                    self.assertEqual(self.desk.count(book, 1), (int(rows[0][9:-1]), 0))
                    continue
                code, cost, lines = self.walked(book, 1000)
                self.assertEqual(["(way (parts %d)%s)" % (w.count(0), "".join(" %d" % i for i in w)) for w in lines], rows[1:-2])
                if rows[0] == "(none)": self.assertEqual((code, cost, self.desk.count(book, 0)), (NONE, 0, (OK, 0)))
                else:
                    self.assertEqual(rows[0], "(cost %d)" % cost)
                    more = rows[-2] == "(more 1000)"
                    self.assertEqual((code, self.desk.count(book, 1000)), (OK, (MORE, 0)) if more else (END, (OK, len(lines))))

    def test_small(self):
        rng, seen, calls = random.Random(20261115), {}, {}
        for k in range(4000):
            book = small(rng)
            run = self.session(book, k)
            run.walk(0.15, 0.02 if k % 4 == 0 else 0.0, most=100)
            run.counts()
            self.assertEqual(run.reader.refused, 0)
            text = run.rng.randbytes(max(0, len(run.reader.text) + run.rng.randint(-1, 5)))
            self.assertEqual(self.desk.listing(book, text), run.reader.listing(text), book)
            length = len(run.reader.lines)
            seen[min(length, 20)] = seen.get(min(length, 20), 0) + 1
            for code, times in run.calls.items(): calls[code] = calls.get(code, 0) + times
        # the books are of all kinds, without a line, with one, few and many; and so are the calls
        self.assertTrue(all(seen[length] > 100 for length in (0, 1, 2, 3, 4, 20)), seen)
        self.assertTrue(all(calls[code] > 100 for code in (OK, NONE, END, NO_MOVE, *range(11, 20), 21)), calls)

    def test_each_number(self):
        """A book with one number changed, beside the trial. Each kind of number changes listings, those of accepted books."""
        rng, changed = random.Random(15), {}
        for _ in range(6000):
            while (book := small(rng, 5)).count(b"(move") < 2: pass
            places = {}
            for number in re.finditer(rb"(?<= )\d+(?=[ )])", book):
                line = book[book.rindex(b"\n", 0, number.start()) + 1:number.start()]
                left = book[number.start():book.index(b")", number.start())].count(b" ") + 1        # numbers from this one on
                places.setdefault((line[1:line.index(b" ")].decode(), line.count(b" "), left), []).append(number)
            kind = rng.choice(sorted(places))
            number = rng.choice(places[kind])
            other = book[:number.start()] + b"%d" % max(0, int(number[0]) + rng.choice((-24, -3, -2, -1, 1, 2, 3, 24))) + book[number.end():]
            listing = way_trial.listing(other)
            self.assertEqual(self.desk.listed(other), listing, other)
            if not listing.startswith(b"(refused") and listing != way_trial.listing(book): changed[kind] = changed.get(kind, 0) + 1
        kinds = [("players", 1, 1), ("fee", 1, 1), *(("move", k, 5 - k) for k in (1, 2, 3, 4)), *(("entry", k, 6 - k) for k in (3, 4, 5)), *(("entry", k, 7 - k) for k in (3, 4, 5, 6))]
        self.assertTrue(set(changed) == set(kinds) and min(changed.values()) > 10, changed)

    def test_any_line_given(self):
        """Next gives the line after any line, whatever was written last."""
        rng = random.Random(7)
        for k in range(400):
            run = self.session(small(rng), k)
            for _ in range(min(5, len(run.reader.lines))):
                run.reader.finger = rng.randrange(len(run.reader.lines))
                run.next(run.reader.lines[run.reader.finger])

    def test_all_lists_given(self):
        """Of all lists of E numbers from 0 to E just the least-cost ways are accepted."""
        rng = random.Random(11)
        for k in range(60):
            run = self.session(small(rng, 3), k)
            e = run.reader.m
            for place in range((e + 1) ** e):
                given = numbers([place // (e + 1) ** k % (e + 1) for k in range(e)])
                self.assertEqual(self.desk.next(run.net, given, numbers([7] * e))[0][0] == 18, given not in run.reader.place)

    def test_many_refused(self):
        """Runs in which most calls are refused."""
        rng = random.Random(8)
        for k in range(200):
            run = self.session(small(rng), k)
            run.walk(0.8, 0.1, most=12)

    def refused_book(self, book, question=None):
        """Every entry refuses with the question, whatever is lent and given, tells the lowest line that fails it, and changes nothing."""
        wanted, line, _ = book_reader.refusal(book)
        if question is not None: self.assertEqual(wanted, question)
        full = bytes(range(120))
        for lent in (full, b"", b"\x33"):
            for got in (self.desk.first(book, lent), self.desk.next(book, numbers([0] * 3), lent), self.desk.next(book, b"\x33" * 5, lent), self.desk.next(book, b"", lent)):
                self.assertEqual(got, ((wanted, 0), [lent]), book)
                self.assertEqual(self.desk.line, line, book)
        for cap in (0, 1, CAP):
            self.assertEqual(self.desk.count(book, cap), (wanted, 0), book)
            self.assertEqual(self.desk.line, line, book)
        self.listed(book, b"(refused %d)\n" % wanted)
        for given in (b"", numbers([0] * 3), b"\x33" * 5):
            self.assertEqual(self.desk.sheets(book, given, full), ((wanted, 0), [full]), book)
            self.assertEqual(self.desk.line, line, book)
            self.assertEqual(self.desk.sheets_room(book, given), (wanted, 0), book)
            self.assertEqual(self.desk.line, line, book)
        for earlier, later in ((1, 2), (1, 1), (0, 1), (1, 29), (2**32 - 1, 0)):
            self.assertEqual(self.desk.spare(book, earlier, later), (wanted, 0), book)
            self.assertEqual(self.desk.line, line, book)
        for entry in (0, 1, 29, 2**32 - 1):
            self.assertEqual((self.desk.name(book, entry), self.desk.name_refusal(book, entry)), ((0, 0), wanted), book)

    def test_refused_books(self):
        for question, book in REFUSED:
            with self.subTest(question=question, book=book[:60]): self.refused_book(book, question)

    def test_bad_lines(self):
        """Several lines fail: every entry tells the lowest."""
        for question, line, book in itertools.islice(bad_lines(), 0, None, 23):
            self.assertEqual(book_reader.refusal(book)[:2], (question, line))
            if question: self.refused_book(book, question)

    def test_damaged_books(self):
        """Damaged books: refused as the reader refuses, listed as the trial lists."""
        rng, seen = random.Random(9), {}
        for _ in range(1500):
            book = damaged(rng)
            question = book_reader.refusal(book)[0]
            seen[question] = seen.get(question, 0) + 1
            if question: self.refused_book(book)
            else: self.assertEqual(self.desk.listed(book), way_trial.listing(book), book)
        self.assertTrue(all(seen[q] > 20 for q in (0, 12, 13, 14, 15)), seen)

    def test_order_of_questions(self):
        """Each fault with each other: the lowest decides."""
        for mask in range(16):
            on = [q for k, q in enumerate((13, 14, 15, 16)) if mask >> k & 1]
            moves = [(3, 3, 0, 0), (3, 3, 0, 0) if 14 in on else (2, 1, 0, 0)]
            entries = [(b"a", 1, 0, 1)] * (27 if 16 in on else 1) + [(b"b", 1, 5, 5 if 15 in on else 6), (b"c", 1, 0, 1)]
            for broken in (False, True):
                for long in (False, True):
                    book = made(9 if 13 in on else 3, 6, moves, entries)
                    if broken: book = book[:-1]
                    if long: book += b" " * 16384
                    question = 11 if long else 12 if broken else on[0] if on else 0
                    if question: self.refused_book(book, question)
                    else: self.assertEqual(self.desk.count(book, CAP), (OK, len(way_trial.full_list(book_reader.read(book))[0])))

    def test_instruments(self):
        """Both instruments of an entry are 1 to 16: at each line and in each place 1 and 16 are taken, and 0 and 17 are refused with 15 and that line."""
        for k, place in itertools.product(range(3), range(2)):
            for number in (0, 1, 16, 17):
                entries = [[b"a", 3, 4, 0, 96], [b"b", 4, 5, 96, 192], [b"c", 5, 3, 192, 288]]
                entries[k][1 + place] = number
                book = made(3, 6, [(1, 2, 0, 0)], entries)
                self.assertEqual(book_reader.refusal(book)[:2], (0, 0) if number in (1, 16) else (15, 5 + k))
                if number not in (1, 16): self.refused_book(book, 15)
                else: self.assertEqual(self.walked(book, 9), (END, 6, [(0, 1, 2)]) if (k, place) in ((0, 0), (2, 1)) else (END, 12, [(0, 0, 2)]) if (k, place) in ((0, 1), (1, 0)) else (END, 12, [(0, 1, 0)]))

    def test_before_the_search(self):
        """A book without a way: a short list is 17, a list given is 18, and 17 comes first."""
        book = made(1, 0, [], [(b"a", 1, 0, 2), (b"b", 1, 1, 3)])
        lent = b"\x55" * 8
        for bad in (b"", lent[:4], lent[:7], b"\x55" * 9, b"\x55" * 10, b"\x55" * 11):
            self.assertEqual(self.desk.first(book, bad), ((17, 0), [bad]))
            for given in (b"", lent, numbers([0, 0]), numbers([0, 1])): self.assertEqual(self.desk.next(book, given, bad), ((17, 0), [bad]))
        self.assertEqual(self.desk.first(book, lent), ((NONE, 0), [lent]))
        for given in (b"", lent, numbers([0, 0]), numbers([0, 1]), numbers([0]), numbers([0, 0, 0]), b"\0"): self.assertEqual(self.desk.next(book, given, lent), ((18, 0), [lent]))
        self.assertEqual([self.desk.count(book, cap) for cap in (0, CAP)], [(OK, 0)] * 2)
        self.listed(book, b"(none)\n")

    def test_no_entries(self):
        """Empty lists are (NULL, 0)."""
        book = made(8, 1000000, [(1, 2, 0, 0)])
        self.assertEqual(self.desk.first(book, b""), ((OK, 0), [b""]))
        self.assertEqual(self.desk.next(book, b"", b""), ((END, 0), [b""]))
        for lent in (b"\x55", b"\x55" * 2, b"\x55" * 3, b"\x55" * 5):
            self.assertEqual(self.desk.first(book, lent), ((17, 0), [lent]))
            self.assertEqual(self.desk.next(book, b"", lent), ((17, 0), [lent]))
        self.assertEqual(self.desk.first(book, b"\x55" * 8), ((OK, 0), [b"\x55" * 8]))
        for given in (b"\0", b"\0" * 4): self.assertEqual(self.desk.next(book, given, b"\x55" * 4), ((18, 0), [b"\x55" * 4]))
        self.assertEqual([self.desk.count(book, cap) for cap in (0, 1, CAP)], [(MORE, 0), (OK, 1), (OK, 1)])
        self.assertEqual((self.desk.name(book, 0), self.desk.name_refusal(book, 0), self.desk.name_refusal(book, 1)), ((0, 0), 19, 19))

    def names(self, book, entries):
        for entry in entries:
            question, (start, end) = book_reader.name(book, entry)
            self.assertEqual(self.desk.name(book, entry), (start, end - start), book)
            self.assertEqual(self.desk.name_refusal(book, entry), question, book)

    def test_names(self):
        self.assertEqual([self.desk.name(EXAMPLE, j) for j in (1, 2, 3)], [(EXAMPLE.index(w), len(w) - 1) for w in (b"snare)", b"xylo)", b"snare2)")])
        self.assertEqual([self.desk.name_refusal(EXAMPLE, j) for j in (0, 1, 2, 3, 4)], [19, 0, 0, 0, 19])
        twice = made(entries=[(b"drum", 1, 0, 1), (b"drum", 2, 3, 4), (b"a", 1, 0, 1), (b"0123456789abcdef", 1, 0, 1)])
        self.assertNotEqual(self.desk.name(twice, 1), self.desk.name(twice, 2))
        rng = random.Random(12)
        both = made(entries=[(b"drum", 1, 2, 0, 1), (b"bell", 2, 3, 4), (b"a", 16, 16, 1000, 1000000), (b"drum", 1, 0, 1)])
        self.assertEqual([self.desk.name(both, j) for j in (1, 2, 3, 4)], [(both.index(b"drum) 1 2"), 4), (both.index(b"bell"), 4), (both.index(b"a) 16"), 1), (both.index(b"drum) 1 0"), 4)])
        for book in [EXAMPLE, twice, both, made(), *(small(rng) for _ in range(300)), *(large(rng) for _ in range(10))]:
            self.names(book, (0, 1, 2, 3, 4, 5, 7, 8, 27, 28, 29, 256, 257, 2**16 + 1, 2**31, 2**31 + 1, 2**32 - 1))

    def test_limits(self):
        """28 and 29 entries, 16,384 and 16,385 bytes, 1 to 8 players, 1 to 16 instruments, the largest numbers."""
        row = lambda count: [(b"e%d" % j, 1, j, j + 1) for j in range(count)]
        for players in range(1, 9):
            book = made(players, 1000000, [], row(28))
            self.assertEqual(self.walked(book, 9), (END, 1000000, [tuple(range(28))]))
            self.assertEqual(self.desk.count(book, 1), (OK, 1))
            self.refused_book(made(players, 1000000, [], row(29)), 16)
        for size, question in ((16384, 14), (16385, 11)):
            book = sized(size)
            self.assertEqual(len(book), size)
            self.refused_book(book, question)
        entry = b"(entry (name a) 1 0 1)\n"
        few = made()[:-2]
        pad = (16384 - len(few) - 2) % len(entry)
        longest = few + entry * ((16384 - len(few) - 2) // len(entry) - 1) + entry.replace(b"(name a) 1 0 1", b"(name a" + b"b" * min(pad, 15) + b") 1 0 1" + b"0" * max(0, pad - 15)) + b")\n"
        self.assertEqual(len(longest), 16384)
        self.refused_book(longest, 16)
        # eight at once, and a ninth
        crowd = [(b"c%d" % j, 1 + j, 0, 1) for j in range(9)]
        self.assertEqual(self.walked(made(8, 1000000, [], crowd[:8]), 9), (END, 8000000, [(0,) * 8]))
        self.assertEqual(self.walked(made(8, 1000000, [], crowd), 9), (NONE, 0, []))
        # the dearest: 28 entries, 27 joins at 1,000,000 each
        dear = made(1, 1000000, [(1, 16, 0, 1000000), (16, 1, 0, 1000000)], [(b"d", 16 if j % 2 else 1, j, j + 1) for j in range(28)])
        self.assertEqual(self.walked(dear, 9), (END, 28000000, [tuple(range(28))]))
        stays = made(1, 1000000, [(16, 16, 0, 1000000)], [(b"d", 16, j, j + 1) for j in range(28)])
        self.assertEqual(self.walked(stays, 9), (END, 28000000, [tuple(range(28))]))
        tours = made(1, 1000000, [(16, 1, 0, 1000000)], [(b"d", 1, 16, j, j + 1) for j in range(28)])
        self.assertEqual(self.walked(tours, 9), (END, 28000000, [tuple(range(28))]))
        self.assertEqual(self.walked(made(1, 1000000, [], [(b"d", *((16, 1) if j % 2 else (1, 16)), j, j + 1) for j in range(28)]), 9), (END, 1000000, [tuple(range(28))]))
        # ticks to the limit, to another instrument and on one
        for b in (1, 2):
            for ticks, ways in ((999998, [(0, 1)]), (999999, [])):
                self.assertEqual(self.walked(made(1, 0, [(1, b, ticks, 0)], [(b"a", 1, 0, 1), (b"b", b, 999999, 1000000)]), 9), (END if ways else NONE, 0, ways))
            far = made(2, 1, [(1, b, 1000000, 0)], [(b"a", 1, 0, 1000000), (b"b", b, 999999, 1000000)])
            self.assertEqual(self.walked(far, 9), (END, 2, [(0, 0)]))
        # all 256 moves
        every = [(a, b, 0, a) for a in range(1, 17) for b in range(1, 17)]
        self.assertEqual(self.walked(made(1, 0, every, [(b"x", 16, 5, 6), (b"y", 3, 4, 5), (b"z", 9, 6, 7)]), 9), (END, 19, [(2, 0, 1)]))
        self.assertEqual(self.walked(made(1, 0, every, [(b"x", 16, 5, 6), (b"y", 16, 4, 5), (b"z", 9, 6, 7)]), 9), (END, 32, [(2, 0, 1)]))

    def test_short_forms(self):
        """A book of short forms lists what it listed before there were long ones."""
        rng, lengths = random.Random(17), {}
        for _ in range(400):
            book = shortened(small(rng, 6))
            lines, cost = old_list(book)
            self.assertEqual(self.walked(book, len(lines) + 1), (END if lines else NONE, cost, lines), book)
            self.assertEqual(self.desk.count(book, CAP), (OK, len(lines)), book)
            self.assertEqual(self.desk.listed(book), way_trial.shown(lines, cost) if lines else b"(none)\n", book)
            lengths[min(len(lines), 4)] = lengths.get(min(len(lines), 4), 0) + 1
        self.assertTrue(all(lengths[length] > 10 for length in range(5)), lengths)

    def answers(self, book, ways, lent):
        """What every call on a book answers, with the line told; of the names, how long they are."""
        e, found = book.count(b"(entry"), []
        def told(answer): found.append((answer, self.desk.line))
        for size in (len(lent), 4 * e, max(0, 4 * e - 4)):
            told(self.desk.first(book, lent[:size]))
            for given in ways: told(self.desk.next(book, given, lent[:size]))
        for cap in (0, 1, len(ways), CAP): told(self.desk.count(book, cap))
        for size in (0, 40, len(lent)): told(self.desk.listing(book, lent[:size]))
        for earlier, later in itertools.product(range(min(e, 7) + 2), repeat=2): told(self.desk.spare(book, earlier, later))
        for given in ways:
            _, room = answer = self.desk.sheets_room(book, given)
            told(answer)
            for size in (room, max(0, room - 1), 79 * e): told(self.desk.sheets(book, given, lent[:size]))
        return found + [(self.desk.name(book, j)[1], self.desk.name_refusal(book, j)) for j in range(e + 2)]

    def test_long_forms(self):
        """With each short form I S F written as I I S F every call answers the same; a name begins as many bytes later as the lines before its own are longer."""
        rng, seen = random.Random(16), {}
        books = [small(rng) for _ in range(300)] + [large(rng) for _ in range(5)] + [book for _, book in REFUSED if len(doubled(book)) <= 16384]
        books += [book for _, _, book in itertools.islice(bad_lines(), 0, None, 211)] + [damaged(rng) for _ in range(200)]
        for book in books:
            e, other, lent = book.count(b"(entry"), doubled(book), rng.randbytes(79 * 28)
            way = self.desk.first(book, bytes(4 * e))[1][0]
            ways = [numbers(range(e)), numbers([0] * e), b"\0", way]
            while len(ways) < 9 and self.desk.next(book, ways[-1], bytes(4 * e))[0][0] == OK: ways.append(self.desk.next(book, ways[-1], bytes(4 * e))[1][0])
            self.assertEqual(self.answers(other, ways, lent), self.answers(book, ways, lent), book)
            code, more = self.desk.first(book, lent[:112])[0][0], 0
            for j, (line, longer) in enumerate(zip(*([row for row in text.split(b"\n") if row.startswith(b"(entry ")] for text in (book, other))), 1):
                if code in (OK, NONE): self.assertEqual(self.desk.name(other, j)[0] - self.desk.name(book, j)[0], more, book)
                more += len(longer) - len(line)
            if other != book: seen[code] = seen.get(code, 0) + 1
        self.assertTrue(all(seen[code] > 5 for code in (OK, NONE, 12, 13, 14, 15)) and seen[16], seen)

    def test_thousand(self):
        """999, 1,000 and 1,001 ways, and how the listing ends."""
        for length, book in THOUSAND.items():
            lines, cost = way_trial.full_list(book_reader.read(book))
            self.assertEqual(len(lines), length)
            listing = way_trial.listing(book)
            self.assertEqual(listing.split(b"\n")[-2], b"(more 1000)" if length > 1000 else b"(end %d)" % length)
            self.listed(book, listing)
            self.assertEqual(self.walked(book, 2000), (END, cost, lines))
            self.assertEqual([self.desk.count(book, cap) for cap in (length - 1, length)], [(MORE, 0), (OK, length)])

    def test_told(self):
        """The numbers of parts of request 6, each listing word by word."""
        for name, book, listing in PARTS:
            with self.subTest(name): self.listed(book, listing)

    def test_parts(self):
        """A way line tells the zeros on it, which are the sheets of that way: from 1 to P where there are entries. Without these words the listing is as it was."""
        rng, told = random.Random(18), {}
        for text in [book for _, book, _ in (*examples(), *PARTS)] + [small(rng) for _ in range(600)] + [kind(rng) for kind in (large, paired) for _ in range(10)]:
            listing, (code, cost, lines) = self.desk.listed(text), self.walked(text, 1001)
            self.assertEqual(without_parts(listing), old_listing(lines, cost) if lines or code == NONE else b"(refused %d)\n" % code, text)
            for parts, way in counted(listing):
                (code, length), (sheets,) = self.desk.sheets(text, numbers(way), bytes(79 * len(way)))
                self.assertEqual((code, way.count(0), sheets[:length].count(b"(part ")), (OK, parts, parts), text)
                self.assertTrue(1 <= parts <= book_reader.read(text).players or not way, text)
                told[parts] = told.get(parts, 0) + 1
        self.assertTrue(all(told[parts] > 20 for parts in range(9)), told)

    def test_longest(self):
        """A line of a way has at most 91 bytes, that of the cost 16 and the last 12. A listing with 1,000 such lines is written to a list of 91,028 bytes, and to
        no shorter one."""
        book, listing = book_reader.read(LONGEST), self.desk.listed(LONGEST)
        first, *rows, last = listing.splitlines(True)
        self.assertEqual((first, len(rows), {len(row) for row in rows}, last), (b"(cost 28000000)\n", 1000, {91}, b"(more 1000)\n"))
        ways = [way for _, way in counted(listing)]
        self.assertEqual({(parts, cost_of(book, way)) for parts, way in counted(listing)}, {(3, 28000000)})
        self.assertTrue(all(a < b for a, b in zip(ways, ways[1:])))
        self.assertTrue(ways == list(itertools.islice(layered_ways(9), 1000)))
        self.assertEqual(re.findall(r"^#define DESK_LISTING_ROOM (\d+)$", (ROOT / "include/desk.h").read_text(), re.M), [str(len(listing))])
        for room in (0, 90031, 91027, 91028, 91029, 98304):
            lent = bytes(k % 251 for k in range(room))
            answer, (text,) = self.desk.listing(LONGEST, lent)
            self.assertEqual(answer, (OK, 16 + 1000 * 91 + 12))
            self.assertEqual(text, listing + lent[91028:] if room >= 91028 else lent)

    def test_counts(self):
        """Two players are both needed at the start, and each later entry may go to either: twice as many ways for each."""
        pair = lambda more: made(2, 5, [], [(b"a", 1, 0, 1), (b"b", 1, 0, 1)] + [(b"c", 1, j, j + 1) for j in range(1, more + 1)])
        for more in (0, 1, 9, 10, 15):
            self.assertEqual([self.desk.count(pair(more), cap) for cap in (2**more - 1, 2**more, CAP)], [(MORE, 0), (OK, 2**more), (OK, 2**more)])
        for more in (16, 17, 26): self.assertEqual([self.desk.count(pair(more), cap) for cap in (0, 1, 1000, CAP)], [(MORE, 0)] * 4)
        for length, (moves, entries) in HALVES.items(): self.assertEqual(len(way_trial.full_list(book_reader.read(made(4, 1000, moves, named(entries))))[0]), length)
        self.assertEqual([self.desk.count(MOST, cap) for cap in (CAP - 1, CAP)], [(MORE, 0), (OK, CAP)])

    def test_paired(self):
        """Up to 28 entries, all lines."""
        rng, lengths = random.Random(14), {}
        for k in range(60):
            run = self.session(paired(rng), k)
            run.walk(0.05, most=300)
            run.counts()
            lengths[len(run.reader.lines)] = lengths.get(len(run.reader.lines), 0) + 1
            self.assertEqual(self.desk.listed(run.net), way_trial.listing(run.net))
        self.assertTrue(lengths[0] > 2 and lengths[1] > 2 and sum(n for length, n in lengths.items() if length > 10) > 10, lengths)

    def test_large(self):
        """28 entries: the first way is that of the first flow, and so line by line."""
        rng, flows, found = random.Random(13), network_library.load(), set()
        for k in range(40):
            text = large(rng)
            book = book_reader.read(text)
            balances, arcs = way_trial.network_of(book)
            net, lent = network_library.network(balances, arcs), b"\x11" * (4 * len(arcs))
            code, cost, lines = self.walked(text, 50)
            (answer, value), (flow,) = flows.first(net, lent)
            self.assertEqual((answer, value), (OK if lines else NONE, cost))
            if lines and k < 8: self.assertTrue(trial.is_first(balances, arcs, way_trial.flow_of(book, arcs, lines[0])))
            for way in lines:
                self.assertEqual(flow, numbers(way_trial.flow_of(book, arcs, way)))
                (answer, value), (following,) = flows.next(net, flow, lent)
                flow = following
            if lines and code == END: self.assertEqual(answer, END)
            self.assertEqual(self.desk.count(text, 2000), flows.count(net, 2000))
            found.add(code if lines else NONE)
        self.assertEqual(found, {OK, END, NONE})


if __name__ == "__main__":
    unittest.main()
