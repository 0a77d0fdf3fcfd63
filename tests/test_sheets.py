"""The part sheets and their room: the stored ones, the numbers of requests 2, 7 and 8, and each least-cost way of many books beside the writer in sheet_writer.py.
Deterministic."""
import itertools
import random
import re
import unittest

import book_reader
import sheet_writer
import trial
import way_library
import way_trial
from desk_library import NONE, OK, ROOT, numbers
from test_way_trial import EXAMPLES, counted, examples
from way_books import EXAMPLE, MOST, THOUSAND, large, made, named, paired, refused, small

SHEET = re.compile(rb"\(part (\d+)\n((?:\(play .*\)\n\(gap .*\)\n)*\(play .*\)\n)\)\n")
PLAY, GAP = re.compile(rb"\(play \(name ([a-z0-9]{1,16})\) (\d+) (\d+)\)"), re.compile(rb"\(gap (\d+) (\d+)\)")
NO_WAY = made(1, 0, [], [(b"a", 1, 0, 2), (b"b", 1, 1, 3)])
SHEETS_ROOM = 79 * 28                  # DESK_SHEETS_ROOM
FILL = bytes((7 * k + 1) % 256 for k in range(SHEETS_ROOM + 100))      # what a lent list holds before a call


def stored():
    """Each stored text of sheets: its name, the book, the way and the text. NAME-N.sheets is of way N of NAME.listing."""
    for path in sorted(EXAMPLES.glob("*.sheets")):
        name, _, place = path.stem.rpartition("-")
        _, way = counted((EXAMPLES / (name + ".listing")).read_bytes())[int(place) - 1]
        yield path.stem, (EXAMPLES / (name + ".book")).read_bytes(), way, path.read_bytes()


def read_back(text):
    """The parts that sheets tell, from their text alone: name, start and finish of each entry. The parts are numbered from 1, and the gaps are those between the entries."""
    parts, at = [], 0
    while at < len(text):
        sheet = SHEET.match(text, at)
        assert sheet and int(sheet[1]) == len(parts) + 1, text
        lines = sheet[2].split(b"\n")[:-1]
        plays = [(name, int(start), int(finish)) for name, start, finish in (PLAY.fullmatch(line).groups() for line in lines[::2])]
        assert [int(GAP.fullmatch(line)[1]) for line in lines[1::2]] == [b[1] - a[2] for a, b in zip(plays, plays[1:])], text
        parts.append(plays)
        at = sheet.end()
    return parts


def gaps_told(text):
    """G and R of each gap, from the text alone."""
    return [(int(gap), int(spare)) for gap, spare in GAP.findall(text)]


def by_hand(parts, entries, gaps):
    """The bytes of so many parts with these entries (name, start, finish) and gaps (G, R), each line by itself: 10 for the two lines of a part, 17 for that of an entry
    and 8 for that of a gap, beside names and digits."""
    return 10 * parts + sum(17 + len(name) + len(str(start)) + len(str(finish)) for name, start, finish in entries) + sum(8 + len(str(gap)) + len(str(spare)) for gap, spare in gaps)


def chains(players, *rows):
    """A book whose cheapest way is a part for each row of starts and finishes: each row has an instrument of its own, and no move leads to another. The names have 16 bytes."""
    return made(players, 1, [], [(b"%016d" % start, k, start, finish) for k, row in enumerate(rows, 1) for start, finish in row])


def far(gaps, start=100000):
    """Entries of one tick with these gaps, the last one to tick 1,000,000."""
    starts = list(itertools.accumulate(gaps, lambda at, gap: at + 1 + gap, initial=start))
    return [(s, s + 1) for s in starts[:-1]] + [(starts[-1], 1000000)]


class Sheets(unittest.TestCase):
    @classmethod
    def setUpClass(cls):
        cls.desk = way_library.load()

    def written(self, book, way):
        """The sheets of a way, as the library writes them: into a list of exactly the room that it tells, into longer ones, and into none that is a byte shorter."""
        given, texts = numbers(way), set()
        code, room = self.desk.sheets_room(book, given)
        self.assertEqual(code, OK, book)
        for size in (room, room + 1, room + 9, SHEETS_ROOM):
            (code, length), (after,) = self.desk.sheets(book, given, FILL[:size])
            self.assertEqual((code, length, after[length:]), (OK, room, FILL[room:size]), book)
            texts.add(after[:length])
        if room: self.refused(book, given, FILL[:room - 1], 21)
        self.assertEqual(len(texts), 1, book)
        return texts.pop()

    def same(self, text, way):
        """The library's sheets are the writer's, and their room is the length of these; every entry stands on exactly one, the ticks played sum to those of the book,
        and with each gap stands the spare of that join, by desk_spare and by the trial. Gives the parts."""
        book, written = book_reader.read(text), self.written(text, way)
        self.assertEqual(written, sheet_writer.sheets(text, book, way), text)
        self.assertLessEqual(len(written), sheet_writer.MOST * len(way))
        parts = read_back(written)
        told = [(text[begin:end], start, finish) for (begin, end), (_, _, start, finish) in zip(book.names, book.entries)]
        self.assertEqual(sorted(play for part in parts for play in part), sorted(told), text)
        self.assertEqual(sum(finish - start for part in parts for _, start, finish in part), sum(finish - start for _, _, start, finish in book.entries), text)
        self.assertEqual(len(parts), list(way).count(0), text)
        joins, told = [join for part in sheet_writer.parts(way) for join in zip(part, part[1:])], gaps_told(written)
        self.assertEqual(told, [(book.entries[j - 1][2] - book.entries[i - 1][3], way_trial.spare(book, i, j)) for i, j in joins], text)
        self.assertEqual([self.desk.spare(text, i, j) for i, j in joins], [(OK, spare) for _, spare in told], text)
        self.assertEqual(len(written), by_hand(len(parts), [play for part in parts for play in part], told), text)
        return parts

    def room(self, book, way):
        """The room for the sheets of a way, which is the length of the writer's text."""
        answer = self.desk.sheets_room(book, numbers(way))
        self.assertEqual(answer, (OK, len(sheet_writer.sheets(book, book_reader.read(book), list(way)))), book)
        return answer[1]

    def refused(self, book, given, text, question):
        """The call is refused with the question, and changes nothing."""
        self.assertEqual(self.desk.sheets(book, given, text), ((question, 0), [text]), book)

    def both_refused(self, book, given, text, question):
        """The room is refused as the sheets are, with the same line told."""
        self.refused(book, given, text, question)
        line = self.desk.line
        self.assertEqual(self.desk.sheets_room(book, given), (question, 0), book)
        self.assertEqual((line, line), (self.desk.line, book_reader.refusal(book)[1]), book)

    def test_document(self):
        """The sheets of the document's book, of one with an entry that ends elsewhere, and of one with a line for staying on an instrument, word by word."""
        self.assertEqual(self.written(EXAMPLE, (0, 0, 1)), b"(part 1\n(play (name snare) 0 96)\n(gap 144 144)\n(play (name snare2) 240 300)\n)\n(part 2\n(play (name xylo) 120 200)\n)\n")
        self.assertEqual(self.written(EXAMPLE, (0, 1, 2)), b"(part 1\n(play (name snare) 0 96)\n(gap 24 0)\n(play (name xylo) 120 200)\n(gap 40 16)\n(play (name snare2) 240 300)\n)\n")
        tour = made(1, 20, [(2, 1, 48, 2)], [(b"swell", 1, 2, 0, 96), (b"crash", 2, 96, 144), (b"peal", 1, 16, 192, 288)])
        self.assertEqual(self.written(tour, (0, 1, 2)), b"(part 1\n(play (name swell) 0 96)\n(gap 0 0)\n(play (name crash) 96 144)\n(gap 48 0)\n(play (name peal) 192 288)\n)\n")
        sticks = made(1, 20, [(1, 1, 48, 2)], [(b"soft", 1, 0, 96), (b"hard", 1, 144, 240), (b"soft2", 1, 300, 384), (b"bell", 1, 2, 500, 600), (b"bell2", 2, 700, 800)])
        self.assertEqual(self.written(sticks, (0, 1, 2, 3, 4)), b"(part 1\n(play (name soft) 0 96)\n(gap 48 0)\n(play (name hard) 144 240)\n(gap 60 12)\n(play (name soft2) 300 384)\n"
                         b"(gap 116 68)\n(play (name bell) 500 600)\n(gap 100 100)\n(play (name bell2) 700 800)\n)\n")

    def test_stored(self):
        """Every stored text, byte for byte, by the library and by the writer."""
        names = []
        for name, book, way, text in stored():
            with self.subTest(name):
                self.assertEqual(sheet_writer.sheets(book, book_reader.read(book), way), text)
                self.assertEqual(self.written(book, way), text)
                names.append(name)
        self.assertEqual(names, ["ballet-4", "document-1", "document-2", "free-parts-1", "mallets-to-the-tick-1", "not-in-time-order-1", "percussion-tour-1", "touching-1"])

    def test_shown(self):
        """The header, desk(3) and the page on the C programs show the sheets of the document's first way, the README those of the second; how many bytes both take, the rule and
        the README say."""
        lines, second = [(EXAMPLES / ("document-%d.sheets" % n)).read_text().splitlines(True) for n in (1, 2)]
        self.assertIn("".join(" *   " + line for line in lines), (ROOT / "include/desk.h").read_text())
        self.assertIn(".nf\n%s.fi\n" % "".join(lines), (ROOT / "packaging/desk.3.in").read_text())
        self.assertIn("\n\n%s\n" % "".join("    " + line for line in lines), (ROOT / "examples/c/README.md").read_text())
        self.assertIn("\n\n%s\n" % "".join("    " + line for line in second), (ROOT / "README.md").read_text())
        one, two = len("".join(lines)), len("".join(second))
        self.assertIn("\nThese sheets take %d bytes, and those of way 1 take %d;" % (two, one), (ROOT / "README.md").read_text())
        self.assertIn(" the sheets of 0 0 1 take %d bytes, and those of 0 1 2 take %d." % (one, two), (ROOT / "docs/RULE.md").read_text())

    def test_room(self):
        """The room is what the sheets take: of the ways of every stored listing, and of books of 1 to 28 entries, for which it is worked out by hand too."""
        met = 0
        for name, book, listing in examples():
            for _, way in counted(listing)[:60] if listing.startswith(b"(cost ") else ():
                self.assertEqual(self.room(book, way), len(self.written(book, way)), name)
                met += 1
        self.assertGreater(met, 200)
        for e in range(1, 29):
            entries = [(b"e%02d" % j, 10 + j, 11 + j) for j in range(e)]
            book = made(1, 0, [], [(name, 1, start, finish) for name, start, finish in entries])
            self.assertEqual(self.room(book, range(e)), by_hand(1, entries, [(0, 0)] * (e - 1)))
            self.same(book, range(e))

    def test_two_ways(self):
        """Two ways of one book may need different rooms: 115 bytes for 0 0 1 of the document's book, and 114 for 0 1 2. Whatever list is lent, and with whatever in it, the room
        stays what it is, and the sheets take it."""
        self.assertEqual([self.room(EXAMPLE, way) for way in ((0, 0, 1), (0, 1, 2))], [115, 114])
        for size, byte in itertools.product((0, 1, 113, 114, 115, 116, 3 * 79, SHEETS_ROOM), (b"\0", b"(", b"\n", b"\xff")):
            for way, room in (((0, 0, 1), 115), ((0, 1, 2), 114)):
                answer, _ = self.desk.sheets(EXAMPLE, numbers(way), byte * size)
                self.assertEqual(answer, (OK, room) if size >= room else (21, 0))
                self.assertEqual(self.room(EXAMPLE, way), room)

    def test_every_length(self):
        """A list that is shorter than the sheets is refused with 21 and stays as it was; one of their length, or longer, has them at its front, and the rest of it stays."""
        row, full = made(8, 0, [(1, 1, 0, 1)], named([(1, j, j + 1) for j in range(8)])), made(1, 0, [], named([(1, j, j + 1) for j in range(28)]))
        cases = [(EXAMPLE, (0, 0, 1)), (EXAMPLE, (0, 1, 2)), (made(1, 0, [], named([(1, 0, 1)])), (0,)), (row, (0,) * 8), (full, tuple(range(28)))]
        cases += [(book, way) for _, book, way, _ in stored()]
        for book, way in cases:
            text, given = sheet_writer.sheets(book, book_reader.read(book), list(way)), numbers(way)
            size = len(text)
            least = 0 if len(way) <= 3 else size - 40
            for lent in range(least, size): self.refused(book, given, FILL[:lent], 21)
            for lent in (0, 1, size // 2): self.refused(book, given, FILL[:lent], 21)
            for lent in [*range(size, size + 41), 79 * len(way) - 1, 79 * len(way), 79 * len(way) + 1, SHEETS_ROOM]:
                self.assertEqual(self.desk.sheets(book, given, FILL[:lent]), ((OK, size), [text + FILL[size:lent]]), (book, lent))

    def test_always_enough(self):
        """No sheets take more than 79 bytes an entry, which for 28 entries is DESK_SHEETS_ROOM: names of 16 bytes, starts of six digits, in 1 to 8 parts of any length."""
        header, rng, seen = (ROOT / "include/desk.h").read_text(), random.Random(34), set()
        self.assertEqual(re.search(r"^#define DESK_SHEETS_ROOM (\d+)$", header, re.M)[1], str(SHEETS_ROOM))
        self.assertEqual(sheet_writer.MOST * 28, SHEETS_ROOM)
        for _ in range(60):
            parts = rng.randint(1, 8)
            cuts = sorted(rng.sample(range(1, 28), parts - 1))
            rows = [far([rng.choice((0, 10, 30000)) for _ in range(end - begin - 1)]) for begin, end in zip([0, *cuts], [*cuts, 28])]
            book = chains(parts, *rows)
            way = [j if j not in (0, *cuts) else 0 for j in range(28)]
            self.assertEqual(len(self.same(book, way)), parts)
            self.assertLessEqual(self.room(book, way), SHEETS_ROOM)
            seen.add(parts)
        self.assertEqual(seen, {*range(1, 9)})

    def test_no_entries(self):
        """No sheet, in a list of any length, and a room of 0; the way given is the empty list."""
        for book in (made(), made(8, 1000000, [(1, 2, 0, 0)])):
            self.assertEqual(self.room(book, ()), 0)
            for lent in (b"", b"\x55", b"\x55" * 79): self.assertEqual(self.desk.sheets(book, b"", lent), ((OK, 0), [lent]))
            for given, lent in itertools.product((b"\0", b"\0" * 4), (b"", b"\x55")): self.both_refused(book, given, lent, 18)

    def test_given(self):
        """A list that is cut, too long, or permitted and dearer is refused by both calls, however long the list that is lent; and so is every list of a book without a way."""
        rng, dearer, met = random.Random(31), 0, 0
        books = [EXAMPLE, NO_WAY, *THOUSAND.values(), *(small(rng, 5) for _ in range(300))]
        for book in books:
            found = way_trial.ways(book_reader.read(book))
            lines, cost = trial.cheapest(found)
            e = len(book_reader.read(book).entries)
            wrong = [numbers(way) for c, way in found if c != cost][:20]
            dearer += len(wrong)
            for way in map(numbers, lines[:3]):
                wrong += [way[:-cut] for cut in (1, 2, 3, 4) if way] + [way[cut:] for cut in (1, 4) if way] + [way + more for more in (b"\0", b"\0" * 2, b"\0" * 3, b"\0" * 4, numbers([1]))]
                met += 1
            if not lines: wrong += [b"", numbers([0] * e), numbers(range(e))]
            for given in wrong:
                for size in (79 * e, 79 * e + 1, 40 * e, 0): self.both_refused(book, given, b"\x66" * size, 18)
        self.assertTrue(dearer > 300 and met > 300, (dearer, met))

    def test_small(self):
        """Each least-cost way of small books: parts of every number, gaps of 0 and others, spares of 0, of the whole gap and of a part of it, openings that are not
        in the order of time."""
        rng, parts, touching, late, spares = random.Random(32), {}, 0, 0, {}
        for _ in range(1500):
            book = small(rng)
            for way in way_trial.full_list(book_reader.read(book))[0][:30]:
                found = self.same(book, way)
                parts[len(found)] = parts.get(len(found), 0) + 1
                touching += any(a[2] == b[1] for part in found for a, b in zip(part, part[1:]))
                late += any(a[0][1] > b[0][1] for a, b in zip(found, found[1:]))
                for gap, spare in gaps_told(self.written(book, way)):
                    kind = "no gap" if gap == 0 else "none" if spare == 0 else "all" if spare == gap else "some"
                    spares[kind] = spares.get(kind, 0) + 1
        self.assertTrue(all(parts[n] > 20 for n in range(7)) and touching > 500 and late > 500, (parts, touching, late))
        self.assertTrue(len(spares) == 4 and min(spares.values()) > 100, spares)

    def test_most_parts(self):
        """Eight parts at once."""
        crowd = made(8, 0, [], [(b"c%d" % j, 1 + j, 0, 1) for j in range(8)])
        self.assertEqual(self.same(crowd, (0,) * 8), [[(b"c%d" % j, 0, 1)] for j in range(8)])

    def test_large(self):
        """Up to 28 entries: the sheets of the first ways, as first and next give them."""
        rng, many = random.Random(33), 0
        for book in [MOST, *(large(rng) for _ in range(30)), *(paired(rng) for _ in range(20))]:
            e = len(book_reader.read(book).entries)
            (code, _), (way,) = self.desk.first(book, bytes(4 * e))
            for _ in range(20):
                if code != OK: break
                self.same(book, [int.from_bytes(way[k:k + 4], "little") for k in range(0, 4 * e, 4)])
                many += 1
                (code, _), (way,) = self.desk.next(book, way, bytes(4 * e))
        self.assertGreater(many, 300)

    def test_longest(self):
        """Names of 16 bytes, starts, gaps and spares of six digits, finishes of seven: 56 bytes of at most 79, 576 of 711, and 1,791 of 2,212, which is 63.96 an entry."""
        nine, ten = far([100000] * 8), far([99990] + [100000] * 8)
        for book, length in ((chains(1, far([], 999999)), 56), (chains(1, nine), 576), (chains(3, nine, nine, ten), 1791)):
            (way,), _ = way_trial.full_list(book_reader.read(book))
            self.same(book, way)
            self.assertEqual((len(self.written(book, way)), self.room(book, way)), (length, length))

    def test_names(self):
        """A byte more in a name is a byte more of room: names of 1 to 16 bytes, alone, and of three entries on one sheet and on three."""
        for n in range(1, 17):
            book = made(1, 0, [], [(b"z" * n, 1, 0, 1)])
            self.assertEqual(self.room(book, (0,)), 29 + n)
            self.same(book, (0,))
        for lengths in itertools.product((1, 2, 9, 10, 15, 16), repeat=3):
            entries = [(b"0123456789abcdef"[:n], j, j + 1) for j, n in enumerate(lengths)]
            lines = [(name, 1, start, finish) for name, start, finish in entries]
            for book, way, gaps in (made(1, 0, [], lines), (0, 1, 2), [(0, 0)] * 2), (made(3, 0, [(1, 1, 0, 1)], lines), (0, 0, 0), []):
                self.assertEqual(self.room(book, way), by_hand(way.count(0), entries, gaps))
                self.same(book, way)

    def test_digits(self):
        """A digit more is a byte more of room: the start, the finish, the gap and the spare at every power of ten and one below it; the spare by the ticks of the move."""
        edges, gaps = [n for k in range(1, 7) for n in (10**k - 1, 10**k)], 0
        for start, finish in [(n, 1000000) for n in edges if n < 1000000] + [(0, n) for n in edges] + [(n, n + 1) for n in edges if n < 1000000]:
            book = made(1, 0, [], [(b"a", 1, start, finish)])
            self.assertEqual(self.room(book, (0,)), 28 + len(str(start)) + len(str(finish)))
            self.same(book, (0,))
        for gap, b in itertools.product((n for n in edges if n <= 100000), (1, 2)):
            for spare in [0, *(n for n in edges if n <= gap)]:
                entries = [(b"a", 0, 90000), (b"b", 90000 + gap, 1000000)]
                book = made(1, 0, [(1, b, gap - spare, 3)], [(name, instrument, *rest) for (name, *rest), instrument in zip(entries, (1, b))])
                self.assertEqual(self.room(book, (0, 1)), by_hand(1, entries, [(gap, spare)]))
                self.same(book, (0, 1))
                gaps += 1
        self.assertEqual(gaps, 2 * sum(range(2, 12)))

    def test_parts(self):
        """A part more is 10 bytes more, beside its entries and gaps: 1 to 8 parts of one to three entries, in any order in the book."""
        rng = random.Random(35)
        for parts, each in itertools.product(range(1, 9), (1, 2, 3)):
            lines = [(b"p%d" % k, k, 100 * j, 100 * j + 60) for k in range(1, parts + 1) for j in range(1, each + 1)]
            rng.shuffle(lines)
            book = made(parts, 1, [], lines)
            (code, _), (given,) = self.desk.first(book, bytes(4 * len(lines)))
            way = [int.from_bytes(given[k:k + 4], "little") for k in range(0, len(given), 4)]
            self.assertEqual((code, way.count(0)), (OK, parts))
            self.assertEqual(self.room(book, way), by_hand(parts, [(name, start, finish) for name, _, start, finish in lines], [(40, 40)] * (parts * (each - 1))))
            self.same(book, way)

    def test_numbers(self):
        """Numbers of every count of digits, at both ends."""
        edges = [0, 1, 9, 10, 99, 100, 999, 1000, 9999, 10000, 99999, 100000, 999999, 1000000]
        for start, finish in itertools.combinations(edges, 2): self.assertEqual(self.same(made(1, 0, [], [(b"a", 1, start, finish)]), (0,)), [[(b"a", start, finish)]])
        for gap in [*edges[:-2], 999998]:
            end = 2 + gap
            self.assertEqual(self.same(made(1, 0, [], [(b"a", 1, 0, 1), (b"b", 1, 1 + gap, end)]), (0, 1)), [[(b"a", 0, 1), (b"b", 1 + gap, end)]])
            for spare, b in itertools.product([n for n in (*edges, gap - 1, gap) if 0 <= n <= gap], (1, 2)):
                book = made(1, 0, [(1, b, gap - spare, 0)], [(b"a", 1, 0, 1), (b"b", b, 1 + gap, end)])
                self.same(book, (0, 1))
                self.assertEqual(gaps_told(self.written(book, (0, 1))), [(gap, spare)])

    def test_order_of_questions(self):
        """A book that fails 11 to 16 fails it in both calls with any list given and lent, and with the same line told; a wrong list given comes before a short list lent, and
        21 is put in writing alone."""
        met = set()
        for question, book in refused():
            for given, text in itertools.product((b"", b"\0", numbers([0]), numbers([0] * 28)), (b"", b"\x55" * 78, b"\x55" * SHEETS_ROOM)): self.both_refused(book, given, text, question)
            met.add(question)
        self.assertEqual(met, {*range(11, 17)})
        for given in (b"", b"\0" * 11, b"\0" * 13, numbers([0, 0, 0]), numbers([0, 0, 2]), numbers([0, 1, 1]), numbers([0, 0, 1, 0])):
            for size in (0, 113, 114, 115, 3 * 79): self.both_refused(EXAMPLE, given, b"\x55" * size, 18)
        self.refused(EXAMPLE, numbers([0, 0, 1]), b"\x55" * 114, 21)
        self.assertEqual(self.room(EXAMPLE, (0, 0, 1)), 115)
        self.assertEqual(self.desk.first(NO_WAY, bytes(8))[0], (NONE, 0))
        for given, size in itertools.product((b"", b"\0", numbers([0, 0]), numbers([0, 1]), numbers([2, 0])), (0, 1, 60, SHEETS_ROOM)): self.both_refused(NO_WAY, given, b"\x55" * size, 18)


if __name__ == "__main__":
    unittest.main()
