"""The search by trial for ways: beside all lists of E numbers, beside the flows of the book's network, beside the rule before the long form of an entry, beside
the listing before it told the parts, beside the test before it told the spare, and on the stored examples."""
import itertools
import pathlib
import random
import re
import unittest

import book_reader
import sheet_writer
import trial
import way_trial
from way_books import large, layered, layered_ways, made, named, paired, small

EXAMPLES = pathlib.Path(__file__).parents[1] / "examples"
PARTS = [                              # request 6 of 02: name, book, listing
    ("no entries", made(8, 6), b"(cost 0)\n(way (parts 0))\n(end 1)\n"),
    ("one part", made(1, 6, [], named([(1, 0, 96)])), b"(cost 6)\n(way (parts 1) 0)\n(end 1)\n"),
    ("one part, eight players", made(8, 6, [], named([(1, 0, 96), (1, 96, 192)])), b"(cost 6)\n(way (parts 1) 0 1)\n(end 1)\n"),
    ("the last entry opens", made(8, 6, [], named([(1, 96, 192), (1, 0, 96)])), b"(cost 6)\n(way (parts 1) 2 0)\n(end 1)\n"),
    ("predecessors 10 and 20", made(1, 6, [], named([(1, j, j + 1) for j in range(21)])),
     b"(cost 6)\n(way (parts 1) 0 1 2 3 4 5 6 7 8 9 10 11 12 13 14 15 16 17 18 19 20)\n(end 1)\n"),
    ("eight parts", made(8, 6, [], named([(1, 0, 96)] * 8)), b"(cost 48)\n(way (parts 8) 0 0 0 0 0 0 0 0)\n(end 1)\n"),
    ("parts of all numbers", made(3, 0, [], named([(1, 0, 96), (1, 96, 192), (1, 192, 288)])),
     b"(cost 0)\n(way (parts 3) 0 0 0)\n(way (parts 2) 0 0 1)\n(way (parts 2) 0 0 2)\n(way (parts 2) 0 1 0)\n(way (parts 1) 0 1 2)\n(end 5)\n"),
]


def examples():
    """Each stored example: name, book and listing."""
    for path in sorted(EXAMPLES.glob("*.book")):
        yield path.stem, path.read_bytes(), path.with_suffix(".listing").read_bytes()


def old_join(book, i, j):
    """The cost of entry j after entry i, or None, by the words before request 7: F of i and the ticks of the move are at most S of j."""
    (_, leaves, _, finish), (arrives, _, start, _) = book.entries[i - 1], book.entries[j - 1]
    moves = {(a, b): (t, c) for a, b, t, c in book.moves}
    if leaves == arrives: moves.setdefault((leaves, arrives), (0, 0))
    ticks, cost = moves.get((leaves, arrives), (float("inf"), None))
    return cost if i != j and finish + ticks <= start else None


def cost_of(book, way):
    """What a list of E numbers from 0 to E costs, or None if it is no way."""
    joins = [way_trial.join(book, i, j) for j, i in enumerate(way, 1) if i]
    twice = any(way.count(i) > 1 for i in way if i)
    return None if None in joins or twice or way.count(0) > book.players else book.fee * way.count(0) + sum(joins)


def plain(book):
    """The least-cost ways and their cost, from all lists of E numbers from 0 to E."""
    e = len(book.entries)
    found = [(cost_of(book, way), way) for way in itertools.product(range(e + 1), repeat=e)]
    return trial.cheapest([(cost, way) for cost, way in found if cost is not None])


def counted(listing):
    """The parts that each way line of a listing tells, and its predecessors."""
    rows = [re.fullmatch(rb"\(way \(parts (\d)\)((?: \d+)*)\)", row) for row in listing.split(b"\n")[1:-2]]
    assert all(rows), listing
    return [(int(row[1]), tuple(int(i) for i in row[2].split())) for row in rows]


def without_parts(listing):
    """The listing without the words that tell the parts."""
    return re.sub(rb"^\(way \(parts \d\)", b"(way", listing, flags=re.M)


def old_listing(lines, cost):
    """The listing of these ways as it was before request 6: no line tells the parts."""
    if not lines: return b"(none)\n"
    text = "(cost %d)\n" % cost
    for way in lines[:1000]: text += "(way" + "".join(" " + str(i) for i in way) + ")\n"
    return (text + ("(end %d)\n" % len(lines) if len(lines) <= 1000 else "(more 1000)\n")).encode()


def doubled(text):
    """The book with every short form I S F written as I I S F."""
    return re.sub(rb"(?<=\)) (\d+) (\d+) (\d+)(?=\)\n)", rb" \1 \1 \2 \3", text)


def shortened(text):
    """The book with every long form A B S F written as A S F, which is another book where A is not B."""
    return re.sub(rb"(?<=\)) (\d+) \d+ (\d+) (\d+)(?=\)\n)", rb" \1 \2 \3", text)


def old_list(text):
    """The least-cost ways of a book of short forms, and their cost, by the rule before request 5: each entry is on one instrument. Read from the text here, and
    from all lists of predecessors that may be followed, each by itself."""
    rows = lambda line: [tuple(map(int, row.groups())) for row in re.finditer(line.replace(" N", r" (\d+)"), text.decode())]
    [(players,)], [(fee,)], entries = rows(r"\(players N\)"), rows(r"\(fee N\)"), rows(r"\(entry \(name \w+\) N N N\)")
    moves = {(a, b): (t, c) for a, b, t, c in rows(r"\(move N N N N\)")}
    assert len(entries) == text.count(b"(entry "), "a long form"
    offers = []
    for j, (here, start, _) in enumerate(entries):
        offers.append([(0, fee)])
        for i, (there, _, finish) in enumerate(entries):
            ticks, cost = moves.get((there, here), (0, 0) if there == here else (float("inf"), 0))
            if i != j and finish + ticks <= start: offers[-1].append((i + 1, cost))
    found = {}
    for choice in itertools.product(*offers):
        way = tuple(i for i, _ in choice)
        if way.count(0) <= players and all(way.count(i) == 1 for i in way if i): found.setdefault(sum(c for _, c in choice), []).append(way)
    return (found[min(found)], min(found)) if found else ([], 0)


class WayTrial(unittest.TestCase):
    def test_plain(self):
        """Leaving out what breaks a rule, entry by entry, leaves out nothing else."""
        rng, lengths = random.Random(1), set()
        for _ in range(600):
            book = book_reader.read(small(rng, 5))
            lines, cost = way_trial.full_list(book)
            self.assertEqual((lines, cost), plain(book))
            lengths.add(min(len(lines), 4))
        self.assertEqual(lengths, {0, 1, 2, 3, 4})

    def test_network(self):
        """The flows of the least-cost ways are the least-cost flows of the book's network, in the same order."""
        rng = random.Random(2)
        for _ in range(100):
            book = book_reader.read(small(rng, 3))
            balances, arcs = way_trial.network_of(book)
            lines, cost = way_trial.full_list(book)
            self.assertEqual(([tuple(way_trial.flow_of(book, arcs, w)) for w in lines], cost), trial.full_list(balances, arcs))

    def test_examples(self):
        names = []
        for name, book, listing in examples():
            with self.subTest(name):
                self.assertEqual(way_trial.listing(book), listing)
            names.append(name)
        self.assertGreater(len(names), 10)

    def test_proved_examples(self):
        """The books of the table that the checker computes are stored examples, and its ways and cost are those of their listings."""
        table = (EXAMPLES.parent / "crates/way_theory/proofs/Examples.antt").read_text()
        rows = re.findall(r'\n  input = book \(bytes "(.*)"\);\n  items = (.*);\n  answer = .*;\n  cost = pos (\d+);', table)
        listings = {book: listing for _, book, listing in examples()}
        for text, items, cost in rows:
            ways = [[int(i) for i in re.findall(r"\d+", way)] for way in re.findall(r"\((.*?)\)", items)]
            self.assertEqual(listings[text.replace("\\n", "\n").encode()], way_trial.shown(ways, int(cost)) if ways else b"(none)\n")
        self.assertEqual(len(rows), 9)

    def test_opera(self):
        """Two entries that touch are never joined where the change of instrument wants ticks that are not there. If no change took ticks, some would be."""
        text = (EXAMPLES / "opera.book").read_bytes()
        book, hasty = book_reader.read(text), book_reader.read(re.sub(rb"(move \d+ \d+) \d+", rb"\1 0", text))
        touching = [(i, j) for i, (_, a, _, finish) in enumerate(book.entries, 1) for j, (b, _, start, _) in enumerate(book.entries, 1) if finish == start and a != b]
        self.assertEqual([way_trial.spare(book, i, j) for i, j in touching], [-240, -240])
        joined = lambda book: {(i, j) for way in way_trial.full_list(book)[0] for j, i in enumerate(way, 1)} & set(touching)
        self.assertEqual((touching, joined(book)), ([(1, 2), (5, 6)], set()))
        self.assertTrue(joined(hasty))

    def test_spare(self):
        """Who may follow whom, and at what cost, is as before there was a spare; there is none where there is no move, and of an entry against itself."""
        rng, kinds = random.Random(8), {}
        for _ in range(600):
            book = book_reader.read(small(rng, 6))
            for i, j in itertools.product(range(1, len(book.entries) + 1), repeat=2):
                spare, join = way_trial.spare(book, i, j), way_trial.join(book, i, j)
                self.assertEqual((join, spare is not None and spare >= 0), (old_join(book, i, j), join is not None))
                leaves, arrives = book.entries[i - 1][1], book.entries[j - 1][0]
                self.assertEqual(spare is None, i == j or leaves != arrives and (leaves, arrives) not in [m[:2] for m in book.moves])
                kind = "none" if spare is None else (spare > 0) - (spare < 0)
                kinds[kind] = kinds.get(kind, 0) + 1
        self.assertTrue(len(kinds) == 4 and min(kinds.values()) > 300, kinds)

    def test_staying(self):
        """A line for staying on an instrument bears on joins on that instrument alone: it takes some away and makes others dearer, and never lets one in."""
        rng, lost, dearer = random.Random(3), 0, 0
        for _ in range(600):
            text = small(rng, 5)
            book, without = book_reader.read(text), book_reader.read(re.sub(rb"\(move (\d+) \1 \d+ \d+\)\n", b"", text))
            for i, j in itertools.permutations(range(1, len(book.entries) + 1), 2):
                now, before = way_trial.join(book, i, j), way_trial.join(without, i, j)
                if now == before: continue
                instrument = book.entries[i - 1][1]
                self.assertEqual((instrument, before), (book.entries[j - 1][0], 0))
                self.assertIn((instrument, instrument), [m[:2] for m in book.moves])
                lost, dearer = lost + (now is None), dearer + (now is not None)
        self.assertTrue(lost > 100 and dearer > 100, (lost, dearer))

    def test_short_forms(self):
        """A book of short forms lists what it listed before there were long ones, and so does the same book with each short form I S F written as I I S F.
        Where the book had long forms, the shorter book is another one, and often lists other ways."""
        rng, lengths, other = random.Random(4), set(), 0
        for _ in range(600):
            text = small(rng, 6)
            short = shortened(text)
            wanted = old_list(short)
            self.assertEqual(way_trial.full_list(book_reader.read(short)), wanted, short)
            self.assertEqual(way_trial.listing(doubled(short)), way_trial.listing(short), short)
            self.assertEqual(way_trial.listing(doubled(text)), way_trial.listing(text), text)
            self.assertEqual([len(row.split()) for row in re.findall(rb"(?<=\)) .*(?=\)\n)", doubled(text))], [4] * text.count(b"(entry"))
            lengths.add(min(len(wanted[0]), 4))
            other += way_trial.full_list(book_reader.read(text)) != wanted
        self.assertEqual(lengths, {0, 1, 2, 3, 4})
        self.assertGreater(other, 50)

    def test_instruments(self):
        """A join depends on the instrument on which the earlier entry ends and on that on which the later one begins, and on no other: with one entry begun
        elsewhere just joins that arrive at it change, with one ended elsewhere just joins that leave from it, and each kind often does."""
        rng, changed = random.Random(5), {0: 0, 1: 0}
        for _ in range(600):
            book, other = [book_reader.read(text) for text in [small(rng, 5)] * 2]
            if not book.entries: continue
            k, end = rng.randrange(len(book.entries)), rng.randrange(2)
            other.entries[k] = tuple(rng.randint(1, 16) if place == end else n for place, n in enumerate(other.entries[k]))
            for i, j in itertools.permutations(range(1, len(book.entries) + 1), 2):
                if way_trial.join(book, i, j) == way_trial.join(other, i, j): continue
                self.assertEqual((i, j)[1 - end], k + 1)
                changed[end] += 1
        self.assertGreater(min(changed.values()), 100, changed)

    def test_forms(self):
        """The books to try have no long form, some, and long forms alone; of one instrument and of two."""
        rng = random.Random(6)
        for kind in (small, large, paired):
            shares, same = set(), set()
            for _ in range(100):
                rows = [row.split() for row in re.findall(rb"(?<=\)) .*(?=\)\n)", kind(rng))]
                long = [row for row in rows if len(row) == 4]
                if rows: shares.add("none" if not long else "all" if long == rows else "some")
                same |= {a == b for a, b, _, _ in long}
            self.assertEqual((shares, same), ({"none", "some", "all"}, {False, True}), kind)

    def test_tour(self):
        """Two cheapest ways, and none if each entry were on the instrument on which it begins, or each on the one on which it ends."""
        text = (EXAMPLES / "percussion-tour.book").read_bytes()
        ended = re.sub(rb"(?<=\)) \d+ (\d+ \d+ \d+)(?=\)\n)", rb" \1", text)
        self.assertEqual([len(way_trial.full_list(book_reader.read(other))[0]) for other in (text, shortened(text), ended)], [2, 0, 0])
        self.assertEqual([sum(a != b for a, b, _, _ in book_reader.read(other).entries) for other in (text, shortened(text), ended)], [6, 0, 0])

    def test_ballet(self):
        """Fourteen entries, three players and five cheapest ways, all of them listed."""
        book = book_reader.read((EXAMPLES / "ballet.book").read_bytes())
        lines, _ = way_trial.full_list(book)
        self.assertEqual((len(book.entries), book.players, len(lines)), (14, 3, 5))
        self.assertEqual((EXAMPLES / "ballet.listing").read_text().split("\n")[1:-1], ["(way (parts 3) %s)" % " ".join(map(str, w)) for w in lines] + ["(end 5)"])

    def test_told(self):
        """The numbers of parts of request 6, each listing word by word."""
        for name, book, listing in PARTS:
            with self.subTest(name): self.assertEqual(way_trial.listing(book), listing)

    def test_parts(self):
        """A way line of a stored listing, and of a small book's, tells the zeros on it, which are the sheets of that way: from 1 to P where there are entries.
        Without these words the listing is as it was."""
        rng, told = random.Random(7), {}
        for text, listing in [(book, listing) for _, book, listing in examples()] + [(book, way_trial.listing(book)) for book in (small(rng) for _ in range(600))]:
            refused, _, book = book_reader.refusal(text)
            self.assertEqual(without_parts(listing), b"(refused %d)\n" % refused if refused else old_listing(*way_trial.full_list(book)), text)
            for parts, way in counted(listing):
                self.assertEqual((way.count(0), sheet_writer.sheets(text, book, way).count(b"(part ")), (parts, parts), text)
                self.assertTrue(1 <= parts <= book.players or not book.entries, text)
                told[parts] = told.get(parts, 0) + 1
        self.assertTrue(all(told[parts] > 20 for parts in range(7)), told)

    def test_layered(self):
        """The ways of books in layers, of which the largest is too large to try."""
        for layers in (1, 2, 3):
            ways = list(layered_ways(layers))
            self.assertEqual(way_trial.full_list(book_reader.read(layered(layers))), (ways, (3 * layers + 1) * 1000000))
            self.assertEqual((len(ways), {way.count(0) for way in ways}), (3 * 6 ** (layers - 1), {3}))


if __name__ == "__main__":
    unittest.main()
