"""The spare of a join, request 7: document 01's book, joins of every kind, all pairs of entries of the stored books and of thousands of small ones beside the trial,
the extremes, the order of the questions, and the joins of ways, which are those with a spare of 0 or more. Deterministic."""
import itertools
import random
import re
import unittest

import book_reader
import way_library
import way_trial
from desk_library import END, MORE, NONE, NO_MOVE, OK, Fenced, ReadOnly, numbers
from test_way_trial import EXAMPLES, counted, doubled, examples
from way_books import EXAMPLE, THOUSAND, bad_lines, damaged, large, made, named, paired, refused, small

NOTHING = (NO_MOVE, 0)
OUTSIDE = (29, 2**31 - 1, 2**31, 2**31 + 1, 2**32 - 1)         # entries that no book has
OVER, BACK, STAY = (1, 2, 24, 3), (2, 1, 36, 5), (1, 1, 48, 2)
TOUR = (1, 2, 0, 96)                   # from instrument 1 to 2 in one entry
JOINS = [                              # name, moves, the earlier entry, the later one, and its spare; None where there is no move
    ("one instrument", [], (1, 0, 96), (1, 144, 200), 48),
    ("one instrument, touching", [], (1, 0, 96), (1, 96, 200), 0),
    ("one instrument, a tick too early", [], (1, 0, 96), (1, 95, 200), -1),
    ("one instrument, at once", [], (1, 0, 96), (1, 0, 96), -96),
    ("one instrument, the wrong way round", [], (1, 144, 200), (1, 0, 96), -200),
    ("one instrument, moves between others", [OVER, BACK, (2, 2, 7, 7)], (1, 0, 96), (1, 144, 200), 48),
    ("sticks to change", [STAY], (1, 0, 96), (1, 200, 300), 56),
    ("sticks to change, to the tick", [STAY], (1, 0, 96), (1, 144, 200), 0),
    ("sticks to change, a tick too early", [STAY], (1, 0, 96), (1, 143, 200), -1),
    ("sticks to change, touching", [STAY], (1, 0, 96), (1, 96, 200), -48),
    ("sticks to change on another instrument", [STAY], (2, 0, 96), (2, 96, 200), 0),
    ("sticks to change in no ticks", [(1, 1, 0, 9)], (1, 0, 96), (1, 96, 200), 0),
    ("a move", [OVER], (1, 0, 96), (2, 200, 300), 80),
    ("a move, to the tick", [OVER], (1, 0, 96), (2, 120, 200), 0),
    ("a move, a tick too early", [OVER], (1, 0, 96), (2, 119, 200), -1),
    ("a move, touching", [OVER], (1, 0, 96), (2, 96, 200), -24),
    ("a move of no ticks", [(1, 2, 0, 9)], (1, 0, 96), (2, 96, 200), 0),
    ("a move back, which takes longer", [OVER, BACK], (2, 0, 96), (1, 200, 300), 68),
    ("the line of that pair, of many", [(16, 2, 1, 0), (1, 16, 2, 0), STAY, (2, 2, 3, 0), OVER, BACK], (1, 0, 96), (2, 200, 300), 80),
    ("no move", [], (1, 0, 96), (2, 1000, 1100), None),
    ("no move, touching", [], (1, 0, 96), (2, 96, 200), None),
    ("no move, the wrong way round", [], (1, 144, 200), (2, 0, 96), None),
    ("a move back is none over", [BACK], (1, 0, 96), (2, 1000, 1100), None),
    ("staying on both is no move", [STAY, (2, 2, 0, 0)], (1, 0, 96), (2, 1000, 1100), None),
    ("by a third instrument is no move", [(1, 3, 0, 0), (3, 2, 0, 0)], (1, 0, 96), (2, 1000, 1100), None),
    ("it ended elsewhere, and goes on there", [], TOUR, (2, 96, 200), 0),
    ("it ended elsewhere, and goes back", [BACK], TOUR, (1, 200, 300), 68),
    ("it ended elsewhere, and a move over is no move back", [OVER], TOUR, (1, 200, 300), None),
    ("it ended elsewhere, sticks to change there", [(2, 2, 30, 1)], TOUR, (2, 200, 300), 74),
    ("it ended elsewhere, sticks to change where it began", [STAY], TOUR, (2, 200, 300), 104),
    ("the later one ends elsewhere", [OVER, STAY], (1, 0, 96), (1, 2, 200, 300), 56),
    ("the later one begins elsewhere", [OVER], (1, 0, 96), (2, 1, 200, 300), 80),
    ("both end elsewhere", [BACK], TOUR, (1, 2, 200, 300), 68),
    ("over and back in two entries", [OVER, BACK], TOUR, (2, 1, 200, 300), 104),
    ("instruments 1 and 16", [(1, 16, 5, 0), (16, 1, 7, 0)], (1, 0, 96), (16, 200, 300), 99),
    ("instruments 16 and 1", [(1, 16, 5, 0), (16, 1, 7, 0)], (16, 0, 96), (1, 200, 300), 97),
]
EXTREMES = [
    ("the least", [(1, 2, 10**6, 0)], (1, 0, 10**6), (2, 0, 1), -2 * 10**6),
    ("the least on one instrument", [(1, 1, 10**6, 0)], (1, 0, 10**6), (1, 0, 1), -2 * 10**6),
    ("the least, of long forms", [(16, 15, 10**6, 0)], (1, 16, 999999, 10**6), (15, 2, 0, 10**6), -2 * 10**6),
    ("one more, by the start", [(1, 2, 10**6, 0)], (1, 0, 10**6), (2, 1, 2), 1 - 2 * 10**6),
    ("one more, by the finish", [(1, 2, 10**6, 0)], (1, 0, 999999), (2, 0, 1), 1 - 2 * 10**6),
    ("one more, by the ticks", [(1, 2, 999999, 0)], (1, 0, 10**6), (2, 0, 1), 1 - 2 * 10**6),
    ("the least without ticks", [], (1, 0, 10**6), (1, 0, 1), -10**6),
    ("the greatest", [], (1, 0, 1), (1, 999999, 10**6), 999998),
    ("the greatest, with a move", [(1, 2, 0, 0)], (1, 0, 1), (2, 999999, 10**6), 999998),
    ("the greatest, with a line for staying", [(1, 1, 0, 0)], (1, 0, 1), (1, 999999, 10**6), 999998),
    ("one less, by the ticks", [(1, 2, 1, 0)], (1, 0, 1), (2, 999999, 10**6), 999997),
    ("the longest move that leaves time", [(1, 2, 999998, 0)], (1, 0, 1), (2, 999999, 10**6), 0),
    ("a tick longer", [(1, 2, 999999, 0)], (1, 0, 1), (2, 999999, 10**6), -1),
    ("the longest move", [(1, 2, 10**6, 0)], (1, 0, 1), (2, 999999, 10**6), -2),
]


def free(text):
    """The book with eight players whom nothing is paid: every way costs 0, so that all ways are least-cost."""
    text = re.sub(rb"\(players \d+\)\n\(fee \d+\)", b"(players 8)\n(fee 0)", text)
    return re.sub(rb"(?<=\(move)( \d+ \d+ \d+) \d+", rb"\1 0", text)


class Spares(unittest.TestCase):
    @classmethod
    def setUpClass(cls):
        cls.desk = way_library.load()

    def told(self, text, earlier, later):
        """What the library answers, which is what the trial does, with the line told."""
        answer = self.desk.spare(text, earlier, later)
        self.assertEqual((answer, self.desk.line), way_trial.told_spare(text, earlier, later), (text, earlier, later))
        return answer

    def all_told(self, text):
        """The answers to all pairs of entries of an accepted book, each the trial's; an entry outside 1 to E on either side is refused with 19."""
        book = book_reader.read(text)
        entries, answers = range(1, len(book.entries) + 1), {}
        for i, j in itertools.product(entries, repeat=2):
            answers[i, j] = self.desk.spare(text, i, j)
            self.assertEqual((answers[i, j], self.desk.line), (way_trial.spare_answer(book, i, j), 0), (text, i, j))
        for outside in (0, len(entries) + 1):
            for pair in ((outside, outside), *((k, outside) for k in entries), *((outside, k) for k in entries)): self.assertEqual(self.desk.spare(text, *pair), (19, 0), (text, pair))
        return answers

    def followers(self, text):
        """The pairs of entries of which the later may follow the earlier, by the library's spares."""
        e = len(book_reader.read(text).entries)
        found = {(i, j): self.desk.spare(text, i, j) for i, j in itertools.product(range(1, e + 1), repeat=2)}
        return {pair for pair, (code, ticks) in found.items() if code == OK and ticks >= 0}

    def walked(self, text):
        """All ways, by first and next."""
        e = len(book_reader.read(text).entries)
        (code, _), (way,) = self.desk.first(text, bytes(4 * e))
        found = []
        while code == OK:
            found.append(tuple(int.from_bytes(way[k:k + 4], "little") for k in range(0, 4 * e, 4)))
            (code, _), (way,) = self.desk.next(text, way, bytes(4 * e))
        self.assertEqual(code, END if found else NONE)
        return found

    def test_document(self):
        """All pairs of the document's book, and with the snare to tick 97."""
        spares = {(1, 2): 0, (1, 3): 144, (2, 3): 16, (2, 1): -224, (3, 1): -300, (3, 2): -204}
        late = {(1, 2): -1, (1, 3): 143, (2, 3): 16, (2, 1): -224, (3, 1): -300, (3, 2): -204}
        for book, wanted in ((EXAMPLE, spares), (EXAMPLE.replace(b"1 0 96)", b"1 0 97)"), late)):
            self.assertEqual(self.all_told(book), {pair: (OK, wanted[pair]) if pair in wanted else NOTHING for pair in itertools.product((1, 2, 3), repeat=2)})

    def test_joins(self):
        """Joins of every kind, and the extremes: both entries in either place of the book, in short forms and in long ones, others before and after them."""
        for name, moves, earlier, later, ticks in JOINS + EXTREMES:
            with self.subTest(name):
                wanted = NOTHING if ticks is None else (OK, ticks)
                other = (9, 500, 600)
                for entries, i, j in (((earlier, later), 1, 2), ((later, earlier), 2, 1), ((other, earlier, other, later, other), 2, 4), ((later, other, other, earlier), 4, 1)):
                    text = made(8, 6, moves, named(entries))
                    for book in (text, doubled(text), free(text)): self.assertEqual((self.told(book, i, j), self.desk.line), (wanted, 0))

    def test_extremes(self):
        """No spare is beyond -2,000,000 and 999,998, which are met; all of the largest numbers at once."""
        self.assertEqual((min(ticks for *_, ticks in EXTREMES), max(ticks for *_, ticks in EXTREMES)), (-2000000, 999998))
        edges = [(0, 1), (0, 10**6), (999999, 10**6)]
        found = set()
        for ticks, earlier, later, instrument in itertools.product((0, 1, 999999, 10**6), edges, edges, (1, 16)):
            found.add(self.told(made(8, 10**6, [(1, instrument, ticks, 10**6)], named([(1, *earlier), (instrument, *later)])), 1, 2)[1])
        self.assertEqual((min(found), max(found)), (-2000000, 999998))

    def test_itself(self):
        """An entry against itself is no move: of either form, also where a line says what staying takes, or leads from where it ends to where it begins. An entry with
        the same numbers is another one."""
        for entry, moves in itertools.product(((1, 0, 96), (1, 1, 0, 96), (1, 2, 0, 96), (1, 0, 10**6), (16, 16, 999999, 10**6)),
                                              ([], [(1, 1, 0, 0)], [STAY], [(1, 1, 10**6, 10**6)], [(2, 1, 0, 0)], [OVER, BACK], [(a, b, 0, 0) for a in range(1, 17) for b in range(1, 17)])):
            for e, k in ((1, 1), (3, 1), (3, 2), (3, 3), (28, 1), (28, 28)):
                book = made(8, 6, moves, named([entry] * e))
                self.assertEqual(self.told(book, k, k), NOTHING)
                if e > 1 and entry == (1, 0, 96): self.assertEqual(self.told(book, k, k % e + 1), (OK, -96 - sum(t for a, b, t, _ in moves if (a, b) == (1, 1))))

    def test_examples(self):
        """All pairs of entries of the stored books: some that may follow, some that start too early, and some without a move."""
        kinds = {}
        for name, text, listing in examples():
            with self.subTest(name):
                question, line, book = book_reader.refusal(text)
                if question:
                    for pair in itertools.product((0, 1, 2, 29), repeat=2): self.assertEqual((self.desk.spare(text, *pair), self.desk.line), ((question, 0), line))
                    continue
                for (i, j), (code, ticks) in self.all_told(text).items():
                    kind = "itself" if i == j else "no move" if code == NO_MOVE else "early" if ticks < 0 else "to the tick" if ticks == 0 else "spare"
                    kinds[kind] = kinds.get(kind, 0) + 1
                joined = {(i, j) for _, way in counted(listing) for j, i in enumerate(way, 1) if i} if listing.startswith(b"(cost") else set()
                self.assertLessEqual(joined, self.followers(text))
        self.assertTrue(len(kinds) == 5 and min(kinds.values()) > 20, kinds)

    def test_opera(self):
        """Entries that touch: on one instrument the spare is 0 and they join; across a change it is below 0 by the ticks of the change, and they never do. If no change
        took ticks, it would be 0."""
        text = (EXAMPLES / "opera.book").read_bytes()
        book, hasty = book_reader.read(text), re.sub(rb"(move \d+ \d+) \d+", rb"\1 0", text)
        touching = {(i, j): self.told(text, i, j) for i, (_, _, _, finish) in enumerate(book.entries, 1) for j, (_, _, start, _) in enumerate(book.entries, 1) if finish == start}
        self.assertEqual(touching, {(1, 2): (OK, -240), (1, 3): (OK, 0), (5, 6): (OK, -240)})
        self.assertEqual({pair: self.told(hasty, *pair) for pair in touching}, dict.fromkeys(touching, (OK, 0)))
        joined = lambda book: {(i, j) for way in self.walked(book) for j, i in enumerate(way, 1)} & set(touching)
        self.assertEqual(joined(text), {(1, 3)})
        self.assertTrue(joined(hasty) - {(1, 3)})

    def test_touching(self):
        """The stored book with spares of 0 by no line and by a line of no ticks, of -1, and without a move."""
        text = (EXAMPLES / "touching.book").read_bytes()
        self.assertEqual([self.told(text, i, j) for i, j in ((1, 2), (2, 3), (3, 4), (2, 4), (1, 4), (4, 3))], [(OK, 0), (OK, 0), (OK, -1), NOTHING, NOTHING, NOTHING])

    def test_small(self):
        """All pairs of entries of small books, of both forms, with lines for staying and without moves."""
        rng, kinds = random.Random(71), {}
        for _ in range(4000):
            text = small(rng)
            book = book_reader.read(text)
            lines = {(a, b) for a, b, _, _ in book.moves}
            for (i, j), (code, ticks) in self.all_told(text).items():
                pair = book.entries[i - 1][1], book.entries[j - 1][0]
                join = "itself" if i == j else "staying" if pair[0] == pair[1] else "going"
                answer = "no move" if code == NO_MOVE else "early" if ticks < 0 else "to the tick" if ticks == 0 else "spare"
                for kind in ((join, pair in lines, answer), ("ends elsewhere", book.entries[i - 1][0] != pair[0], answer)): kinds[kind] = kinds.get(kind, 0) + 1
        wanted = {("itself", line, "no move") for line in (False, True)} | {("going", False, "no move")}
        wanted |= {(*join, answer) for join in (("staying", False), ("staying", True), ("going", True)) for answer in ("early", "to the tick", "spare")}
        self.assertEqual({kind for kind in kinds if kind[0] != "ends elsewhere"}, wanted)
        self.assertTrue(len(kinds) == len(wanted) + 8 and min(kinds.values()) > 300, kinds)

    def test_large(self):
        """28 entries and fewer, all pairs."""
        rng = random.Random(72)
        for text in [*(large(rng) for _ in range(8)), *(paired(rng) for _ in range(8)), *THOUSAND.values()]: self.all_told(text)

    def test_to_the_tick(self):
        """A spare of 0 or more is a join that is listed, one of -1 is none: on one instrument, with a line for it, across a move, and after an entry that ends elsewhere.
        Joining costs less than a second player."""
        for moves, first, second, ticks in (([], (1,), (1,), 0), ([STAY], (1,), (1,), 48), ([OVER], (1,), (2,), 24), ([BACK], (1, 2), (1, 2), 36), ([(16, 16, 1, 0)], (1, 16), (16, 1), 1)):
            for spare in (-2, -1, 0, 1, 1000):
                start = 96 + ticks + spare
                for entries, i, j, join in (((*first, 0, 96), (*second, start, 5000)), 1, 2, (0, 1)), (((*second, start, 5000), (*first, 0, 96)), 2, 1, (2, 0)):
                    book = made(2, 6, moves, named(entries))
                    self.assertEqual(self.told(book, i, j), (OK, spare))
                    ways = self.walked(book)
                    self.assertEqual(ways, [join if spare >= 0 else (0, 0)], book)
                    self.assertEqual(self.desk.count(book, 0), (MORE, 0))
                    self.assertEqual([way for _, way in counted(self.desk.listed(book))], ways)
                    self.assertEqual(self.desk.first(book.replace(b"(players 2)", b"(players 1)"), bytes(8))[0][0], OK if spare >= 0 else NONE)

    def test_no_move_is_no_join(self):
        """The value beside "no move" is 0, which is no spare of 0: the entries are not joined, however far apart."""
        for start in (96, 97, 1000, 999999):
            book = made(2, 6, [BACK, STAY, (2, 2, 0, 0)], named([(1, 0, 96), (2, start, 10**6)]))
            self.assertEqual(self.told(book, 1, 2), NOTHING)
            self.assertEqual(self.walked(book), [(0, 0)])
            self.assertEqual(self.desk.first(book.replace(b"(players 2)", b"(players 1)"), bytes(8))[0], (NONE, 0))

    def test_permitted(self):
        """The joins of all permitted ways are those with a spare of 0 or more: in the listing, by first and next, and by the trial."""
        rng, joins, others = random.Random(73), 0, 0
        for k in range(1000):
            text = free(small(rng))
            followers, listing = self.followers(text), self.desk.listed(text)
            self.assertTrue(listing.startswith(b"(cost 0)\n") and b"(end " in listing, text)
            listed = [way for _, way in counted(listing)]
            self.assertEqual({(i, j) for way in listed for j, i in enumerate(way, 1) if i}, followers, text)
            if k % 5 == 0: self.assertEqual(self.walked(text), listed, text)
            book = book_reader.read(text)
            self.assertEqual({(i, j) for _, way in way_trial.ways(book) for j, i in enumerate(way, 1) if i}, followers, text)
            joins, others = joins + len(followers), others + len(book.entries) ** 2 - len(followers)
        self.assertTrue(joins > 2000 and others > 2000, (joins, others))

    def test_given(self):
        """Of all lists of E numbers from 0 to E just those are taken as ways that join entries with a spare of 0 or more, each at most once."""
        rng, taken = random.Random(74), 0
        for _ in range(400):
            text = free(small(rng, 3))
            followers, e = self.followers(text), len(book_reader.read(text).entries)
            for way in itertools.product(range(e + 1), repeat=e):
                joins = [(i, j) for j, i in enumerate(way, 1) if i]
                permitted = followers.issuperset(joins) and len({i for i, _ in joins}) == len(joins)
                self.assertEqual(self.desk.next(text, numbers(way), bytes(4 * e))[0][0] != 18, permitted, (text, way))
                taken += permitted and bool(joins)
        self.assertGreater(taken, 200)

    def test_each_number(self):
        """A tick more at the start of the later entry is a tick more to spare; at the finish of the earlier one, and of the move, a tick less. No other number of the book
        bears on it, nor does the order of the moves."""
        rng, met = random.Random(75), 0
        for _ in range(600):
            entries = [(rng.choice((1, 2)), rng.choice((1, 2)), start, start + rng.randint(1, 500)) for start in (rng.randrange(900) for _ in range(rng.randint(2, 6)))]
            moves = [(a, b, rng.randrange(300), rng.randrange(9)) for a in (1, 2) for b in (1, 2) if rng.random() < 0.7]
            i, j = rng.sample(range(len(entries)), 2)
            pair = entries[i][1], entries[j][0]
            code, spare = self.told(made(2, 6, moves, named(entries)), i + 1, j + 1)
            if code == NO_MOVE: continue
            for more in (1, 7, 100000):
                for k, place, by, ticks in ((j, 2, more, spare + more), (i, 3, more, spare - more), (i, 0, 5, spare), (j, 1, 5, spare)):
                    rows = [list(row) for row in entries]
                    rows[k][place] += by
                    rows[k][3] = max(rows[k][3], rows[k][2] + 1)
                    self.assertEqual(self.told(made(2, 6, moves, named(rows)), i + 1, j + 1), (OK, ticks))
                longer = [(a, b, t + more * ((a, b) == pair), c) for a, b, t, c in moves]
                self.assertEqual(self.told(made(2, 6, longer, named(entries)), i + 1, j + 1), (OK, spare - more * (longer != moves)))
                others = [(a, b, t + more * ((a, b) != pair), c + more) for a, b, t, c in reversed(moves)]
                self.assertEqual(self.told(made(8, 999, others, [(b"drum", *row) for row in entries]), i + 1, j + 1), (OK, spare))
            met += 1
        self.assertGreater(met, 300)

    def test_order_of_questions(self):
        """A book that fails 11 to 16 fails it with any two entries, and tells its line; then 19, for the first entry, for the second, and for both."""
        pairs = [*itertools.product((0, 1, 2, 28, *OUTSIDE), repeat=2)]
        for question, book in refused():
            for pair in pairs:
                self.assertEqual(self.desk.spare(book, *pair), (question, 0), (book, pair))
                self.assertEqual(self.desk.line, book_reader.refusal(book)[1])
        for question, line, book in itertools.islice(bad_lines(), 0, None, 41):
            if question:
                for pair in ((1, 2), (0, 1), (1, 5)): self.assertEqual((self.desk.spare(book, *pair), self.desk.line), ((question, 0), line), book)
        for e in (0, 1, 2, 28):
            book = made(8, 6, [STAY], [(b"a", 1, j, j + 1) for j in range(e)])
            for outside in (0, e + 1, *OUTSIDE):
                for pair in ((outside, outside), *((k, outside) for k in {1, e}), *((outside, k) for k in {1, e}), (outside, 0), (0, outside)):
                    self.assertEqual((self.desk.spare(book, *pair), self.desk.line), ((19, 0), 0), (e, pair))
            if e > 1: self.assertEqual((self.told(book, 1, e), self.told(book, e, 1), self.told(book, e, e)), ((OK, e - 50), (OK, -e - 48), NOTHING))

    def test_no_way(self):
        """A book without a way has spares as any other."""
        book = made(1, 0, [OVER], named([(1, 0, 2), (1, 1, 3), (2, 100, 200)]))
        self.assertEqual(self.desk.first(book, bytes(12))[0], (NONE, 0))
        self.assertEqual([self.told(book, *pair) for pair in ((1, 2), (2, 1), (1, 3), (2, 3), (3, 1))], [(OK, -1), (OK, -3), (OK, 74), (OK, 73), NOTHING])

    def test_damaged(self):
        """Damaged books: refused as the reader refuses, and told as the trial tells."""
        rng, codes = random.Random(76), {}
        for _ in range(4000):
            text = damaged(rng)
            code = self.told(text, rng.randint(0, 5), rng.randint(0, 5))[0]
            codes[code] = codes.get(code, 0) + 1
        self.assertTrue(all(codes[code] > 20 for code in (OK, NO_MOVE, 12, 13, 14, 15, 19)), codes)

    def test_nothing_written(self):
        """No list is lent, and the book may be where nothing can be written; the same call again gives the same answer, whatever was called in between."""
        for text in (EXAMPLE, made(), *(book for _, book in refused())):
            for pair in ((1, 2), (2, 1), (1, 1), (0, 1), (1, 2**32 - 1)):
                wanted = way_trial.told_spare(text, *pair)
                for book in (ReadOnly(text), text, Fenced(text), Fenced(text, False)):
                    self.assertEqual((self.desk.spare(book, *pair), self.desk.line), wanted, (text, pair))
                    self.desk.first(EXAMPLE, bytes(12))
                    self.desk.spare(EXAMPLE, 3, 2)


if __name__ == "__main__":
    unittest.main()
