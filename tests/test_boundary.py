"""Damaged arguments at the C boundary: every list of every entry at every length, NULL, at any address, with any bytes in it, beside the readers. Deterministic."""
import ctypes
import itertools
import random
import unittest

from desk_library import END, MORE, NONE, NO_MOVE, OK, Fenced, List, numbers
from entries import CAP, ENTRIES, Surface, lists, network_reader, ways_reader
from entries import NUMBERS as TYPES
from flow_networks import EXTREMES, limits, small, wide
from network_library import network
from way_books import EXAMPLE, THOUSAND, made, refused
from way_books import small as small_book

ARCS = [(0, 1, 0, 2, 1), (0, 1, 0, 2, 1), (1, 2, 0, 1, 0), (2, 1, 0, 1, 0)]
BALANCES, ALL_ARCS = network([2, -2, 0], ARCS)               # six least-cost flows; (2, 0, 1, 1) is the last
LINES = [numbers((a, 2 - a, b, b)) for a in range(3) for b in range(2)]
WAYS = [numbers((0, 0, 1)), numbers((0, 1, 2))]              # of the book EXAMPLE
ROOMS = [ways_reader(EXAMPLE).sheets_room(way)[1] for way in WAYS]     # what their sheets take, by the writer
NUMBERS = sorted({*EXTREMES, 2, 3, 255, 256, 2**16 - 1, 2**16, 2**24, *(s * (m + k) for s in (1, -1) for m in (10**6, 10**9) for k in (0, 1))})
REFUSED = [book for question, book in refused()]
ENTRY_NUMBERS = [0, 1, 2, 3, 4, 27, 28, 29, 255, 256, 257, 2**16, 2**16 + 1, 2**31 - 1, 2**31, 2**31 + 1, 2**32 - 3, 2**32 - 2, 2**32 - 1]


def arguments(entry, a):
    """Those of the arguments that the entry takes."""
    return {name: a[name] for names in ENTRIES[entry] for name in names}


def fair(entry, rng):
    """Arguments that the entry does not refuse."""
    if "network" in entry: a = dict(balances=BALANCES, arcs=ALL_ARCS, given=LINES[0], flows=rng.randbytes(16), prices=rng.randbytes(12), cap=6)
    else: a = dict(book=EXAMPLE, given=WAYS[0], way=rng.randbytes(12), text=rng.randbytes(ROOMS[0] if entry == "desk_sheets" else 68), cap=2, entry=2, earlier=1, later=3)
    return arguments(entry, a)


def damage(rng, data):
    """A list with bytes changed, added or taken away, an extreme number in it, or any bytes."""
    data = bytearray(data)
    for _ in range(rng.choice((1, 1, 1, 2, 3))):
        kind, at = rng.randrange(8), rng.randint(0, len(data))
        if kind == 0: data[at:at + 1] = rng.randbytes(1)
        elif kind == 1: del data[at:at + rng.choice((1, 2, 3, 4, 20))]
        elif kind == 2: data[at:at] = rng.randbytes(rng.choice((1, 2, 3, 4, 20)))
        elif kind == 3 and at < len(data): data[at] ^= 1 << rng.randrange(8)
        elif kind == 4: del data[at:]
        elif kind == 5: data = bytearray(rng.randbytes(rng.choice((0, 1, 2, 3, 4, 5, 12, 20, 100))))
        elif len(data) >= 4:
            at = 4 * rng.randrange(len(data) // 4)
            data[at:at + 4] = numbers([rng.choice((*NUMBERS, rng.randint(-3, 3), rng.randint(-3, 3), rng.randint(-2**31, 2**31 - 1)))])
    return bytes(data)


def damaged_call(rng, surface, entry, a):
    """A call with no list, one or more of them damaged, each list at some address."""
    names = lists(entry)
    for name in rng.sample(names, min(len(names), rng.choice((0, 1, 1, 1, 2, 4)))): a[name] = damage(rng, a[name])
    if "cap" in a: a["cap"] = rng.choice((0, 1, 2, 5, rng.randint(0, CAP) if "book" in a else 3))     # the solver counts far for few networks
    if "entry" in a: a["entry"] = rng.choice(ENTRY_NUMBERS)
    for name in ("earlier", "later"):
        if name in a: a[name] = rng.choice((1, 2, 3, 4, 5, rng.choice(ENTRY_NUMBERS)))
    return surface.compare(entry, a, {name: List(a[name], rng.randrange(8), rng.random() < 0.5) for name in names})


def any_network(rng):
    """A small network or a wide one, as the arguments of a call."""
    balances, arcs = rng.choice((small, wide))(rng)
    net = network(balances, arcs)
    given = rng.choice([*network_reader(*net).lines, numbers([rng.randint(l, min(u, l + 1)) for t, h, l, u, c in arcs])])
    return dict(balances=net[0], arcs=net[1], given=given, flows=rng.randbytes(4 * len(arcs)), prices=rng.randbytes(4 * len(balances)), cap=3)


def any_book(rng):
    """A small book or a refused one, as the arguments of a call."""
    book = rng.choice(REFUSED) if rng.random() < 0.3 else small_book(rng, 4)
    e = book.count(b"(entry")
    given = rng.choice([*ways_reader(book).lines, numbers([rng.randint(0, j) for j in range(e)])])
    room = ways_reader(book).sheets_room(given)[1]
    return dict(book=book, given=given, way=rng.randbytes(4 * e), text=rng.randbytes(rng.choice((room, 320))), cap=3, entry=1, earlier=1, later=2)


def damaged_calls(rng, surface):
    """A network or a book in each of its entries, each call damaged in its own way: the entries and the answers."""
    a = rng.choice((any_network, any_book))(rng)
    for entry in ENTRIES:
        if ("network" in entry) == ("balances" in a): yield entry, damaged_call(rng, surface, entry, arguments(entry, a))


class Boundary(unittest.TestCase):
    @classmethod
    def setUpClass(cls):
        cls.surface = Surface()

    def setUp(self):
        self.rng, self.seen = random.Random(self._testMethodName), {}

    def compare(self, entry, a, placed=None):
        code = self.surface.compare(entry, a, placed)
        self.seen.setdefault(entry, set()).add(code)
        return code

    def calls(self):
        """Each entry with fair arguments."""
        for entry in ENTRIES: yield entry, fair(entry, self.rng)

    def answered(self, answers):
        """The calls of the test were of every kind meant: each entry had these answers."""
        for entry, codes in answers.items(): self.assertLessEqual(codes, self.seen[entry], entry)

    def test_fair(self):
        """What is called fair is not refused."""
        for entry, a in self.calls(): self.compare(entry, a)
        self.assertEqual({entry: codes for entry, codes in self.seen.items() if codes != {OK}}, {"desk_name": {EXAMPLE.index(b"xylo")}})

    def test_every_length(self):
        """Each list cut at every byte, and up to 24 bytes longer; of two lists, all pairs of lengths."""
        for entry, a in self.calls():
            for name in lists(entry):
                for size in range(len(a[name]) + 25): self.compare(entry, {**a, name: (a[name] + self.rng.randbytes(24))[:size]})
            for one, two in itertools.combinations([name for name in lists(entry) if len(a[name]) <= 16], 2):
                for i, j in itertools.product(range(19), repeat=2): self.compare(entry, {**a, one: (a[one] + bytes(6))[:i], two: (a[two] + bytes(6))[:j]})
        self.answered({"desk_first": {OK, 12, 17}, "desk_next": {OK, 12, 17, 18}, "desk_listing": {OK, 12}, "desk_spare": {OK, 12}, "desk_sheets_room": {OK, 12, 18}, "desk_sheets": {OK, 12, 18, 21}, "desk_network_first": {OK, NONE, 1, 2, 3, 7},
                       "desk_network_first_priced": {OK, NONE, 1, 2, 3, 7}, "desk_network_next": {OK, 1, 2, 3, 7, 8}, "desk_network_prices": {OK, 1, 2, 3, 7, 8}})

    def test_empty(self):
        """Each list as it is, or (NULL, 0), or of length 0 at a place that may not be touched: all choices."""
        for entry, a in self.calls():
            for choice in itertools.product(range(3), repeat=len(lists(entry))):
                empty = {name: b"" for name, kind in zip(lists(entry), choice) if kind}
                self.compare(entry, {**a, **empty}, {name: Fenced(b"") for name, kind in zip(lists(entry), choice) if kind == 2})
        self.answered({"desk_first": {OK, 12, 17}, "desk_next": {OK, 12, 17, 18}, "desk_count": {OK, 12}, "desk_listing": {OK, 12}, "desk_spare": {OK, 12}, "desk_sheets_room": {OK, 12, 18}, "desk_sheets": {OK, 12, 18, 21}, "desk_name_refusal": {0, 12},
                       "desk_network_first": {OK, NONE, 1, 7}, "desk_network_next": {OK, 1, 7, 8}, "desk_network_prices": {OK, 1, 7, 8}})

    def test_addresses(self):
        """Each list at each address by its rest by 8, and all lists at any."""
        for entry, a in self.calls():
            for name in lists(entry):
                for at in range(8): self.compare(entry, a, {name: List(a[name], at)})
            for _ in range(30): self.compare(entry, a, {name: List(a[name], self.rng.randrange(8)) for name in lists(entry)})

    def test_fences(self):
        """Lists that end, or begin, where memory does: fair ones, longer ones, cut ones."""
        for entry, a in self.calls():
            for at_end in itertools.product((True, False), repeat=len(lists(entry))):
                for more in (0, 3, 8, -1, -4, -5):
                    for name in lists(entry):
                        b = {**a, name: a[name] + bytes(more) if more >= 0 else a[name][:more]}
                        self.compare(entry, b, {n: Fenced(b[n], end) for n, end in zip(lists(entry), at_end)})
        for book in REFUSED + list(THOUSAND.values()):
            given = [*ways_reader(book).lines, b""][0]
            room = ways_reader(book).sheets_room(given)[1]
            for at_end in (True, False):
                for entry in ("desk_count", "desk_name", "desk_name_refusal", "desk_listing", "desk_spare", "desk_sheets_room", "desk_sheets"):
                    other = dict(book=book, text=self.rng.randbytes(40000 if entry == "desk_listing" else room), given=given)
                    a = {name: other.get(name, value) for name, value in fair(entry, self.rng).items()}
                    self.compare(entry, a, {name: Fenced(a[name], at_end) for name in lists(entry)})
        both = made(1, 0, [], [(b"a", 1, 0, 1), (b"b", 1, 2, 3, 4)])                # cut at every byte of both forms of an entry
        for size, entry in itertools.product(range(len(both) + 1), ("desk_count", "desk_name", "desk_name_refusal", "desk_spare")):
            self.compare(entry, {**fair(entry, self.rng), "book": both[:size]}, {"book": Fenced(both[:size])})
        self.answered({"desk_count": {OK, MORE, *range(11, 17)}, "desk_spare": {OK, 19, *range(11, 17)}, **{entry: {OK, *range(11, 17)} for entry in ("desk_listing", "desk_sheets_room", "desk_sheets")}})

    def test_listing(self):
        """Lent lists of every length to a book with ways, one without and those that are refused: only a listing that fits is written."""
        for book in (EXAMPLE, made(), made(1, 0, [], [(b"a", 1, 0, 2), (b"b", 1, 1, 3)]), *REFUSED):
            for size in range(80): self.compare("desk_listing", dict(book=book, text=self.rng.randbytes(size)))
        self.assertEqual(self.seen, {"desk_listing": {OK, NONE, *range(11, 17)}})

    def test_sheets(self):
        """The room for sheets, and lent lists of every length to them, with every way of a book and with lists that are none, of a book without entries, of one without a way and
        of those that are refused."""
        none = made(1, 0, [], [(b"a", 1, 0, 2), (b"b", 1, 1, 3)])
        for book, given in (*((EXAMPLE, way) for way in WAYS), (made(), b""), (made(), b"\0"), (none, b""), (none, numbers((0, 0)))):
            self.compare("desk_sheets_room", dict(book=book, given=given))
            for size in [*range(max(ROOMS) + 30), 3 * 79, 2212]: self.compare("desk_sheets", dict(book=book, given=given, text=self.rng.randbytes(size)))
        for book, given in itertools.product(REFUSED, (b"", WAYS[0], b"\0")):
            self.compare("desk_sheets_room", dict(book=book, given=given))
            for size in (0, 1, ROOMS[0] - 1, ROOMS[0], 2212): self.compare("desk_sheets", dict(book=book, given=given, text=self.rng.randbytes(size)))
        self.assertEqual(self.seen, {"desk_sheets_room": {OK, 18, *range(11, 17)}, "desk_sheets": {OK, 18, 21, *range(11, 17)}})

    def test_prices(self):
        """Lent lists of every length for prices, with every line of a network and with lists that are none, of a network without arcs, of one without a flow, of one with fewer
        arcs than nodes and of those that are refused."""
        none, apart = network([1, 0], [(0, 1, 0, 1, 0)]), network([0] * 4, [(3, 1, 0, 1, -2)])
        for net, given in (*(((BALANCES, ALL_ARCS), line) for line in LINES), ((BALANCES, ALL_ARCS), numbers((0, 2, 0, 1))), (network([0], []), b""), (network([0], []), b"\0"),
                           (none, b""), (none, numbers([0])), (none, numbers([1])), (apart, numbers([0])), (apart, numbers([1]))):
            for size in range(30): self.compare("desk_network_prices", dict(balances=net[0], arcs=net[1], given=given, prices=self.rng.randbytes(size)))
        for name, net, verdict in limits():
            for given, size in itertools.product((b"", b"\0", LINES[0]), (0, 1, 4, 256)):
                if verdict: self.assertEqual(self.compare("desk_network_prices", dict(balances=net[0], arcs=net[1], given=given, prices=self.rng.randbytes(size))), verdict, name)
        self.assertEqual(self.seen, {"desk_network_prices": {OK, *range(1, 9)}})

    def test_longer(self):
        """Lent lists far longer than a line: the bytes beyond it stay."""
        for entry, a in self.calls():
            for name in ENTRIES[entry][1]:
                for more in (4, 100, 2048, 65536, 10**6): self.compare(entry, {**a, name: a[name] + self.rng.randbytes(more)})
                if name != "text": self.compare(entry, {**a, name: a[name] + self.rng.randbytes(10**6 + 1)})
        self.answered({"desk_first": {OK, 17}, "desk_network_first": {OK, 7}, "desk_network_first_priced": {OK, 7}, "desk_network_prices": {OK, 7}})

    def test_numbers(self):
        """Each number of each list is an extreme one, and all at once."""
        for entry, a in self.calls():
            for name in lists(entry):
                if name in ("book", "text"): continue
                for value in NUMBERS:
                    for place in range(0, len(a[name]), 4): self.compare(entry, {**a, name: a[name][:place] + numbers([value]) + a[name][place + 4:]})
                    self.compare(entry, {**a, name: numbers([value] * (len(a[name]) // 4))})
        self.answered({"desk_next": {OK, 18}, "desk_sheets_room": {OK, 18}, "desk_sheets": {OK, 18}, "desk_network_first": {OK, NONE, 3, 4, 5, 6}, "desk_network_first_priced": {OK, NONE, 3, 4, 5, 6},
                       "desk_network_next": {OK, 3, 4, 5, 6, 8}, "desk_network_prices": {OK, 3, 4, 5, 6, 8}, "desk_network_count": {OK, 3, 4, 5, 6}})

    def test_given(self):
        """All lists of numbers from -1 to 3 as the given one: the lines are taken, and no others. Then every bit of a line changed."""
        for entry, lines in (("desk_network_next", LINES), ("desk_network_prices", LINES), ("desk_next", WAYS), ("desk_sheets_room", WAYS), ("desk_sheets", WAYS)):
            a, size = fair(entry, self.rng), len(lines[0])
            taken = [given for given in map(numbers, itertools.product(range(-1, 4), repeat=size // 4)) if self.compare(entry, {**a, "given": given}) in (OK, END)]
            self.assertEqual(sorted(taken), sorted(lines))
            for line in lines:
                for bit in range(8 * size):
                    other = bytearray(line)
                    other[bit // 8] ^= 1 << bit % 8
                    self.compare(entry, {**a, "given": bytes(other)})

    def test_caps(self):
        """Lists of no line, one and more, and every kind of cap."""
        for length, net in ((0, network([1, 0], [(0, 1, 0, 1, 0)])), (1, network([0], [])), (6, (BALANCES, ALL_ARCS)), (300, network([0], [(0, 0, 0, 299, 0)])), (40000, network([0], [(0, 0, 0, 39999, 0)])), (None, network([0], [(0, 0, 0, 10**6, 0)]))):
            for cap in (0, 1, 2, 5, 6, 7, 255, 256, 299, 300, 301, 32767, 32768, 39999, 40000, CAP - 1, CAP):
                self.assertEqual(self.compare("desk_network_count", dict(balances=net[0], arcs=net[1], cap=cap)), OK if length is not None and length <= cap else MORE)
        for length, book in ((0, made(1, 0, [], [(b"a", 1, 0, 2), (b"b", 1, 1, 3)])), (1, made()), (2, EXAMPLE), *THOUSAND.items()):
            for cap in (0, 1, 2, 3, 255, 256, 998, 999, 1000, 1001, 32767, 32768, CAP - 1, CAP):
                self.assertEqual(self.compare("desk_count", dict(book=book, cap=cap)), OK if length <= cap else MORE)

    def test_entry_numbers(self):
        """Names by every kind of number; E, E + 1 and 2^32 - 1 among them."""
        for book in (made(), EXAMPLE, made(entries=[(b"e%d" % j, 1, j, j + 1) for j in range(28)]), *REFUSED):
            for entry in ("desk_name", "desk_name_refusal"):
                for number in ENTRY_NUMBERS: self.compare(entry, dict(book=book, entry=number))
        self.answered({"desk_name_refusal": {0, 19, *range(11, 17)}})

    def test_two_entries(self):
        """The spare by all pairs of such numbers, E, E + 1, 2^31 and 2^32 - 1 among them, each as the earlier entry and as the later one."""
        full = made(entries=[(b"e%d" % j, 1 + j % 2, 2, j, j + 1) for j in range(28)])
        for book in (made(), made(entries=[(b"a", 1, 0, 1)]), EXAMPLE, full, *REFUSED):
            for earlier, later in itertools.product(ENTRY_NUMBERS, repeat=2):
                self.compare("desk_spare", dict(book=book, earlier=earlier, later=later), {"book": List(book, self.rng.randrange(8))})
        self.assertEqual(self.seen, {"desk_spare": {OK, NO_MOVE, 19, *range(11, 17)}})

    def test_upper_half(self):
        """A caller may leave anything in the upper half of a register that hands over a cap or an entry."""
        surface = Surface({name: ctypes.c_uint64 for name in TYPES})
        for entry, a in self.calls():
            for name in ENTRIES[entry][2]:
                for value, upper in itertools.product((0, 1, 2, 5, 6, CAP) if name == "cap" else ENTRY_NUMBERS, (0, 1, 2**31, 2**32 - 1)):
                    surface.compare(entry, {**a, name: value}, {name: value + (upper << 32)})

    def test_one_memory(self):
        """Lists that are only read may be one: the same bytes as balances, arcs and given, as book and given."""
        zeros = List(numbers([0] * 5))
        a = dict(balances=zeros.data, arcs=zeros.data, given=zeros.data[:4], flows=b"\x77" * 8, prices=b"\x66" * 24, cap=1)
        for entry in ENTRIES:
            if "network" in entry: self.compare(entry, arguments(entry, a), {"balances": zeros, "arcs": zeros})
        for entry in ("desk_network_next", "desk_network_prices"):
            self.compare(entry, {**arguments(entry, a), "given": zeros.data}, {"balances": zeros, "arcs": zeros, "given": zeros})
        text = List(EXAMPLE)
        self.compare("desk_next", dict(book=EXAMPLE, given=EXAMPLE, way=b"\x55" * 12), {"book": text, "given": text})
        self.compare("desk_sheets_room", dict(book=EXAMPLE, given=EXAMPLE), {"book": text, "given": text})
        self.compare("desk_sheets", dict(book=EXAMPLE, given=EXAMPLE, text=b"\x55" * ROOMS[0]), {"book": text, "given": text})
        self.answered({"desk_network_first": {OK}, "desk_network_first_priced": {OK}, "desk_network_next": {END, 8}, "desk_network_prices": {OK, 8}, "desk_network_count": {OK}, "desk_next": {18}, "desk_sheets_room": {18}, "desk_sheets": {18}})

    def test_any_bytes(self):
        """Any bytes for each list, and for all of them."""
        for entry, a in self.calls():
            for name in [*lists(entry), None]:
                for size in [*range(65), 80, 100, 256, 2560, 10240, 10260, 16384, 16385]:
                    data = self.rng.randbytes(size)
                    self.compare(entry, {**a, **{n: data for n in lists(entry) if name in (n, None)}})

    def test_damaged(self):
        """Damaged networks, books and lists, in all entries in turn: a call answers of what it was given alone, whatever was called before."""
        for _ in range(6000):
            for entry, code in damaged_calls(self.rng, self.surface): self.seen.setdefault(entry, set()).add(code)
        books, nets = {*range(11, 17)}, {*range(1, 7)}
        self.answered({"desk_first": {OK, NONE, 17, *books}, "desk_next": {OK, END, 17, 18, *books}, "desk_count": {OK, MORE, *books}, "desk_listing": {OK, NONE, *books}, "desk_spare": {OK, NO_MOVE, 19, *books}, "desk_sheets_room": {OK, 18, *books}, "desk_sheets": {OK, 18, 21, *books}, "desk_name_refusal": {0, 19, *books},
                       "desk_network_first": {OK, NONE, 7, *nets}, "desk_network_first_priced": {OK, NONE, 7, *nets}, "desk_network_next": {OK, END, 7, 8, *nets}, "desk_network_prices": {OK, 7, 8, *nets}, "desk_network_count": {OK, MORE, *nets}})


if __name__ == "__main__":
    unittest.main()
