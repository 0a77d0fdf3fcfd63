"""A round of the soak: random networks, books, damaged bytes and runs of calls from one seed, each answer compared. tests/run --soak goes on with rounds."""
import itertools
import random
import unittest

import book_reader
import entries
import network_library
import sheet_writer
import test_network_calls
import test_way_calls
import trial
import way_library
import way_trial
from desk_library import numbers
from flow_networks import large, small, wide, wider
from network_library import OK, network
from test_boundary import damaged_calls
from test_ways_program import printed
from way_books import damaged, paired
from way_books import large as large_book
from way_books import small as small_book


class Round(unittest.TestCase):
    """One part after another; each says how many calls or networks it had."""

    def __init__(self, seed):
        super().__init__()
        self.rng = random.Random(seed)
        self.flows, self.ways, self.surface = network_library.load(), way_library.load(), entries.Surface()

    def runTest(self):
        pass

    def damage(self):
        return sum(1 for _ in range(1000) for _ in damaged_calls(self.rng, self.surface))

    def small_networks(self):
        """Runs of calls on small networks, from the first line to the end, calls for prices among them."""
        for _ in range(300):
            run = test_network_calls.Session(self, self.flows, self.rng, network(*self.rng.choice((small, small, wider))(self.rng)))
            run.walk(self.rng.choice((0.1, 0.5)), 0.02, most=300)
            run.counts()
        return 300

    def wide_networks(self):
        """First, with prices, and the lines after it, each with its prices, beside the solver."""
        for _ in range(100):
            balances, arcs = wide(self.rng)
            a = dict(zip(("balances", "arcs"), network(balances, arcs)))
            lent = dict(flows=self.rng.randbytes(4 * len(arcs) + 4), prices=self.rng.randbytes(4 * len(balances)))
            code = self.surface.compare("desk_network_first_priced", {**a, **lent})
            line = entries.expected("desk_network_first_priced", {**a, **lent})[1][0][:4 * len(arcs)]
            for _ in range(4):
                if code != OK: break
                self.surface.compare("desk_network_prices", dict(a, given=line, prices=lent["prices"]))
                step = dict(a, given=line, flows=lent["flows"])
                code = self.surface.compare("desk_network_next", step)
                line = entries.expected("desk_network_next", step)[1][0][:4 * len(arcs)]
        return 100

    def large_networks(self):
        """64 nodes and 512 arcs: the flow is the first, by its certificate, and the prices are right, from the flows after it too."""
        for _ in range(2):
            balances, arcs = large(self.rng, self.rng.choice(([0], [1, 2, 3], [-1, 0, 1], range(-10**6, 10**6), [-10**6, 10**6])))
            net = network(balances, arcs)
            (code, cost), (flows, prices) = self.flows.first_priced(net, bytes(2048), bytes(256))
            flow = trial.Reader._numbers(flows)
            self.assertEqual((code, cost), (OK, sum(a[4] * x for a, x in zip(arcs, flow))))
            self.assertTrue(trial.is_first(balances, arcs, flow))
            self.assertEqual(trial.Reader._numbers(prices), trial.prices(balances, arcs, flow))
            for _ in range(4):
                self.assertEqual(self.flows.prices(net, flows, bytes(256)), ((OK, cost), [prices]))
                (code, _), (flows,) = self.flows.next(net, flows, flows)
                if code != OK: break
                self.assertEqual(trial.prices(balances, arcs, trial.Reader._numbers(flows)), trial.Reader._numbers(prices))
        return 2

    def books(self):
        """Runs of calls on small books and on paired ones, calls for sheets and for spares among them, and their listings."""
        for k in range(300):
            run = test_way_calls.WaySession(self, self.ways, self.rng, paired(self.rng) if k % 50 == 0 else small_book(self.rng))
            run.walk(self.rng.choice((0.1, 0.5)), 0.02, most=100)
            run.counts()
            self.assertEqual(self.ways.listed(run.net), way_trial.listing(run.net), run.net)
        return 300

    def large_books(self):
        """28 entries: the first way is that of the first flow of the book's network, by its certificate, and its sheets are the writer's, in a list of exactly
        their length and in no shorter one; the spares of all pairs of entries."""
        for _ in range(5):
            text = large_book(self.rng)
            book = book_reader.read(text)
            balances, arcs = way_trial.network_of(book)
            for i, j in itertools.product(range(30), repeat=2): self.assertEqual(self.ways.spare(text, i, j), way_trial.spare_answer(book, i, j), text)
            (code, cost), (way,) = self.ways.first(text, bytes(112))
            (answer, value), (flow,) = self.flows.first(network(balances, arcs), bytes(4 * len(arcs)))
            self.assertEqual((code, cost), (answer, value), text)
            if code == OK:
                laid = way_trial.flow_of(book, arcs, trial.Reader._numbers(way))
                sheets = sheet_writer.sheets(text, book, trial.Reader._numbers(way))
                self.assertEqual(self.ways.sheets_room(text, way), (OK, len(sheets)), text)
                self.assertEqual(self.ways.sheets(text, way, bytes(len(sheets))), ((OK, len(sheets)), [sheets]), text)
                self.assertEqual(self.ways.sheets(text, way, bytes(len(sheets) - 1)), ((21, 0), [bytes(len(sheets) - 1)]), text)
                self.assertEqual(flow, numbers(laid), text)
                self.assertTrue(trial.is_first(balances, arcs, laid), text)
        return 5

    def program(self):
        """The program `ways` on damaged books and small ones."""
        for _ in range(60):
            book = self.rng.choice((damaged, small_book))(self.rng)
            self.assertEqual(printed(book), way_trial.listing(book), book)
        return 60


PARTS = ("damage", "small_networks", "wide_networks", "large_networks", "books", "large_books", "program")


def play(seed):
    """Plays the round of a seed; what it had."""
    one = Round(seed)
    return ", ".join("%s %d" % (part.replace("_", " "), getattr(one, part)()) for part in PARTS)
