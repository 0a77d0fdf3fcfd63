"""Prices from a given flow, request 9: document 01's networks, every least-cost flow of thousands of small ones beside the trial, beside walks gone one by one and beside
what one unit more costs, wide and large networks, the networks of the stored books, the limits, the room for the prices, the order of the questions, and runs of calls.
Deterministic."""
import itertools
import random
import unittest

import book_reader
import flow_solver
import network_library
import trial
import way_trial
from desk_library import END, NONE, OK, Fenced, ReadOnly, numbers
from flow_networks import damaged, extremes, large, limits, small, wide, wider
from network_library import network
from test_network_calls import Session
from test_networks import networks
from test_way_trial import examples

MOST = 10**6                           # the greatest bound and cost
NO_FLOW = [                            # networks without a flow
    ([1], []),
    ([0, 1], [(0, 1, 0, 2, 1)]),                                           # balances that do not sum to 0
    ([2, -2], [(0, 1, 0, 1, 0)]),                                          # not enough
    ([0, 0], [(0, 1, 1, 2, -1)]),                                          # too much
    ([-1, 1], [(0, 1, 0, 1, 0)]),                                          # the wrong way
    ([1, -1, 0, 0], [(0, 2, 0, 1, 0), (3, 1, 0, 1, 0)]),                   # parts that are not connected
    ([1, -1], [(0, 0, 0, 2, -3), (1, 1, 0, 2, 0), (1, 0, 0, 1, 0)]),       # loops, which count in no balance
]


def cheapest_walks(n, steps, most):
    """Of each node the least cost of all walks of at most so many arcs that end there, each of them gone by itself."""
    least = [0] * n

    def go(node, cost, left):
        least[node] = min(least[node], cost)
        for s, t, c in steps if left else ():
            if s == node: go(t, cost + c, left - 1)
    for node in range(n): go(node, 0, most)
    return least


def worth(balances, arcs):
    """Of each node the least by which the least cost rises if one unit more goes from some node to it; by the costs of all lists within the bounds, without a
    residual network."""
    nodes, least = range(len(balances)), {}
    for f in trial.within(arcs):
        out, cost = tuple(trial.out_of(len(nodes), arcs, f)), trial.cost_of(arcs, f)
        least[out] = min(cost, least.get(out, cost))
    more = lambda w, v: tuple(b + (k == w) - (k == v) for k, b in enumerate(balances))
    return [min(least[more(w, v)] for w in nodes if more(w, v) in least) - least[tuple(balances)] for v in nodes]


def some_least(rng, balances, arcs):
    """A least-cost flow from anywhere on the full list: of all, the lightest by weights at random."""
    return flow_solver.lightest(balances, arcs, [(c << 60) + rng.randint(-9, 9) for t, h, l, u, c in arcs])


def beside(arcs, flow):
    """Flows near a flow: a loop carries one unit more or less, or one unit goes over to an arc with the same ends; and what that costs."""
    changes = [({a: x}, c * x) for a, (t, h, _, _, c) in enumerate(arcs) if t == h for x in (1, -1)]
    changes += [({a: 1, b: -1}, arcs[a][4] - arcs[b][4]) for a, b in itertools.permutations(range(len(arcs)), 2) if arcs[a][:2] == arcs[b][:2]]
    for change, cost in changes:
        other = [x + change.get(a, 0) for a, x in enumerate(flow)]
        if all(arcs[a][2] <= other[a] <= arcs[a][3] for a in change): yield other, cost


def spread(rng, amount, count=8):
    """The amount on so many arcs."""
    on = []
    for left in reversed(range(count)): on.append(rng.randint(max(0, amount - sum(on) - left * MOST), min(amount - sum(on), MOST)))
    return rng.sample(on, count)


def parts(n, arcs):
    """How many parts the network has that are not connected."""
    part = list(range(n))
    for t, h, *_ in arcs: part = [part[t] if p == part[h] else p for p in part]
    return len(set(part))


def kinds(balances, arcs, lines):
    """What a network has."""
    ends = [(t, h) for t, h, *_ in arcs]
    yield "flows", min(len(lines), 4)
    if len(set(ends)) < len(ends): yield "parallel"
    if any(t == h for t, h in ends): yield "loop"
    if any(t < h and (h, t) in ends for t, h in ends): yield "opposite"
    if parts(len(balances), arcs) > 1: yield "parts"
    if any(c < 0 for *_, c in arcs): yield "cost below 0"
    if any(l for _, _, l, _, _ in arcs): yield "lower bound"
    if len(arcs) < len(balances): yield "fewer arcs than nodes"
    if len(arcs) > len(balances): yield "more arcs than nodes"


class Prices(unittest.TestCase):
    @classmethod
    def setUpClass(cls):
        cls.desk = network_library.load()

    def setUp(self):
        self.rng, self.seen = random.Random(self._testMethodName), {}

    def met(self, *kinds):
        for kind in kinds: self.seen[kind] = self.seen.get(kind, 0) + 1

    def priced(self, balances, arcs, flow, cost, prices):
        """The library gives that cost and those prices from this flow, in a list of n places and in a longer one."""
        n = 4 * len(balances)
        for size in (n, n + 4 * self.rng.randint(1, 5)):
            lent = self.rng.randbytes(size)
            self.assertEqual(self.desk.prices(network(balances, arcs), numbers(flow), lent), ((OK, cost), [numbers(prices) + lent[n:]]), (balances, arcs, flow))

    def all_priced(self, balances, arcs, flows, cost):
        """From each of these least-cost flows the trial's prices from that very flow, and they are those of the first flow; the prices."""
        _, (_, common) = self.desk.first_priced(network(balances, arcs), bytes(4 * len(arcs)), bytes(4 * len(balances)))
        for flow in flows:
            prices = trial.prices(balances, arcs, flow)
            self.assertEqual(numbers(prices), common, (balances, arcs, flow))
            self.priced(balances, arcs, flow, cost, prices)
        return trial.Reader._numbers(common)

    def refused(self, net, given, lent, question):
        self.assertEqual(self.desk.prices(net, given, lent), ((question, 0), [lent]), (net, given))

    def wrong(self, balances, arcs, given):
        """Question 8 refuses the list, given as numbers or as bytes."""
        self.refused(network(balances, arcs), given if isinstance(given, bytes) else numbers(given), self.rng.randbytes(4 * len(balances)), 8)

    def test_document_01(self):
        for name, balances, arcs, cost, flows, prices in networks():
            with self.subTest(name):
                if flows: self.assertEqual(self.all_priced(balances, arcs, flows, cost), list(prices))
                for flow in set(trial.within(arcs)) - set(flows): self.wrong(balances, arcs, flow)

    def test_two_flows(self):
        """Document 01's cycle of cost 0: other residual networks, the same prices. At cost -3 the flow of zeros is dearer."""
        cycle = lambda c: [(0, 1, 0, 2, 1), (1, 2, 0, 2, 1), (2, 0, 0, 1, c)]
        self.assertNotEqual(*(sorted(trial.residual(cycle(-2), flow)) for flow in ((0, 0, 0), (1, 1, 1))))
        for flow in ((0, 0, 0), (1, 1, 1)): self.priced([0] * 3, cycle(-2), flow, 0, [-2, -1, 0])
        self.priced([0] * 3, cycle(-3), (1, 1, 1), -1, [-2, -1, 0])
        self.priced([0] * 3, cycle(-1), (0, 0, 0), 0, [-1, 0, 0])
        self.wrong([0] * 3, cycle(-3), (0, 0, 0))
        self.wrong([0] * 3, cycle(-1), (1, 1, 1))

    def test_walks(self):
        """All residual walks of fewer arcs than nodes, gone one by one, come to the trial's prices and the library's; walks of two arcs more to no lower ones."""
        below = 0
        for _ in range(400):
            balances, arcs = small(self.rng)
            lines, cost = trial.full_list(balances, arcs)
            for flow in lines[:2] + lines[-1:]:
                n, steps = len(balances), trial.residual(arcs, flow)
                prices = cheapest_walks(n, steps, n - 1)
                self.assertEqual(cheapest_walks(n, steps, n + 1), prices, (balances, arcs, flow))
                self.assertEqual(trial.prices(balances, arcs, flow), prices, (balances, arcs, flow))
                self.priced(balances, arcs, flow, cost, prices)
                below += any(prices)
        self.assertGreater(below, 150)

    def test_worth(self):
        """A price is what one unit more to the node costs, from wherever that is cheapest: by the least costs alone, so that no flow has a say in it."""
        below = 0
        for _ in range(1000):
            balances, arcs = small(self.rng)
            lines, cost = trial.full_list(balances, arcs)
            if lines:
                prices = worth(balances, arcs)
                for flow in lines: self.priced(balances, arcs, flow, cost, prices)
                below += any(prices)
        self.assertGreater(below, 150)

    def test_small(self):
        """Every least-cost flow of small networks of all kinds; flows that are dearer, lists within the bounds that are no flow, lists out of the bounds, balanced or not,
        and of another length; of a network without a flow, all lists within the bounds."""
        rng = self.rng
        for k in range(2000):
            balances, arcs = (wider if k % 10 == 0 else small)(rng)
            everything = trial.costed(balances, arcs)
            lines, least = trial.cheapest(everything)
            found = {flow for _, flow in everything}
            self.met(*kinds(balances, arcs, lines))
            if any(self.all_priced(balances, arcs, lines, least)): self.met("price below 0")
            for cost, flow in rng.sample(everything, min(8, len(everything))):
                if cost == least: continue
                self.wrong(balances, arcs, flow)
                self.met("dearer")
            for flow in itertools.islice(trial.within(arcs), 40 if lines else None):
                if flow in found: continue
                self.wrong(balances, arcs, flow)
                self.met("no flow" if lines else "no flow at all")
            base = list(rng.choice(lines) if lines else [l for _, _, l, _, _ in arcs])
            for a, (t, h, l, u, _) in enumerate(arcs):
                for x in (l - 1, u + 1):
                    self.wrong(balances, arcs, base[:a] + [x] + base[a + 1:])
                    self.met("loop out of bounds" if t == h else "out of bounds")
            for given in (numbers(base + [0]), numbers(base + base[-1:] + [0]), numbers(base) + b"\0", numbers(base)[:-1], numbers(base[:-1]), numbers(base[1:])):
                if len(given) != 4 * len(arcs): self.wrong(balances, arcs, given)
        self.assertTrue(len(self.seen) == 19 and min(self.seen.values()) > 100, self.seen)

    def test_out_of_bounds(self):
        """Flows in all but the bounds, at the least cost or below it."""
        pair = [(0, 1, 0, 2, 1), (0, 1, 0, 2, 1)]
        for flow in ((0, 2), (1, 1), (2, 0)): self.priced([2, -2], pair, flow, 2, [-1, 0])
        for flow in ((-1, 3), (3, -1), (-2**31, 2**31 - 1), (2**31 - 1, -2**31)): self.wrong([2, -2], pair, flow)
        self.priced([0], [(0, 0, 0, 2, -3)], (2,), -6, [0])
        for x in (0, 1, 3, -1, 2**31 - 1, -2**31): self.wrong([0], [(0, 0, 0, 2, -3)], (x,))
        for x in range(-3, 6):
            if 0 <= x <= 2: self.priced([0], [(0, 0, 0, 2, 0)], (x,), 0, [0])
            else: self.wrong([0], [(0, 0, 0, 2, 0)], (x,))

    def test_wide(self):
        """Bounds to the limit: flows from the start of the list and from anywhere on it, beside the solver."""
        for _ in range(300):
            balances, arcs = wide(self.rng)
            reader, net = flow_solver.Reader(*network(balances, arcs)), network(balances, arcs)
            given = [numbers(some_least(self.rng, balances, arcs)) for _ in range(3)]
            (code, _), (line,) = self.desk.first(net, bytes(4 * len(arcs)))
            while code == OK and len(given) < 8:
                given.append(line)
                (code, _), (line,) = self.desk.next(net, line, line)
            for flow in given:
                lent = self.rng.randbytes(4 * len(balances) + 4)
                answer = self.desk.prices(net, flow, lent)
                self.assertEqual(answer[0], (OK, reader.cost), (balances, arcs, flow))
                self.assertEqual(answer, reader.priced(flow, lent), (balances, arcs, flow))
                self.assertEqual(answer[1], self.desk.prices(net, given[0], lent)[1], (balances, arcs, flow))
            self.met(len(set(given)) > 4)
        self.assertTrue(len(self.seen) == 2 and min(self.seen.values()) > 50, self.seen)

    def test_large(self):
        """Up to 64 nodes and 512 arcs: the first flows, which are least-cost by the certificate of the first, flows from anywhere on the list, by the solver, and flows beside
        the first, which are least-cost or dearer."""
        costs = ([0], [1, 2, 3], [-1, 0, 1], range(-MOST, MOST), [-MOST, MOST])
        for (nodes, count), of in [*itertools.product(((12, 40), (24, 96), (64, 128)), costs), *(((64, 512), of) for of in costs[1:])]:
            balances, arcs = large(self.rng, of, nodes, count)
            net = network(balances, arcs)
            (code, cost), (line,) = self.desk.first(net, bytes(4 * count))
            first, given = trial.Reader._numbers(line), []
            self.assertEqual((code, cost), (OK, trial.cost_of(arcs, first)))
            self.assertTrue(trial.is_first(balances, arcs, first))
            while code == OK and len(given) < 6:
                given.append(trial.Reader._numbers(line))
                (code, _), (line,) = self.desk.next(net, line, line)
            if count < 512: given += [some_least(self.rng, balances, arcs) for _ in range(2)]
            near = list(beside(arcs, first))
            given += [flow for flow, more in near if more == 0]
            self.assertTrue(all(trial.is_flow(balances, arcs, flow) and trial.cost_of(arcs, flow) == cost for flow in given))
            self.met(*("first" if list(flow) == first else "another" for flow in given))
            self.all_priced(balances, arcs, given, cost)
            for flow, more in near:
                if more == 0: continue
                self.assertTrue(more > 0 and trial.is_flow(balances, arcs, flow))
                self.wrong(balances, arcs, flow)
                self.met("dearer")
            a = next(a for a, (t, h, *_) in enumerate(arcs) if t != h)
            self.wrong(balances, arcs, [x + (k == a) for k, x in enumerate(first)])
        self.assertTrue(len(self.seen) == 3 and min(self.seen.values()) > 15, self.seen)

    def test_books(self):
        """The networks of the stored books: the prices are those of the movement, from the flow of each way."""
        ways = 0
        for name, text, listing in examples():
            refused, _, book = book_reader.refusal(text)
            if refused: continue
            with self.subTest(name):
                balances, arcs = way_trial.network_of(book)
                lines, cost = way_trial.full_list(book)
                self.all_priced(balances, arcs, [way_trial.flow_of(book, arcs, way) for way in lines[:25]], cost)
                if not lines: self.wrong(balances, arcs, [l for _, _, l, _, _ in arcs])
                ways += len(lines) > 1
        self.assertGreater(ways, 5)

    def test_lowest(self):
        """64 nodes in a chain, each arc beside one that runs back at the opposite cost, so that any of 2^63 lists is a least-cost flow: from each the prices fall to
        -63,000,000 at the one end or at the other. Then as much as goes through eight arcs, and less,
        spread over them."""
        for cost, u in itertools.product((-MOST, MOST), (1, MOST)):
            arcs = [arc for v in range(63) for arc in ((v, v + 1, 0, u, cost), (v + 1, v, 0, u, -cost))]
            prices = [-MOST * (v if cost < 0 else 63 - v) for v in range(64)]
            for places in ([0] * 63, [u] * 63, *([self.rng.choice((0, u, self.rng.randint(0, u))) for _ in range(63)] for _ in range(8))):
                self.priced([0] * 64, arcs, [x for x in places for _ in range(2)], 0, prices)
                self.wrong([0] * 64, arcs, [x for x in places for _ in range(2)][:-1] + [(places[-1] + 1) % (u + 1)])
        arcs = [(v, v + 1, 0, MOST, MOST) for v in range(63) for _ in range(8)]
        for amount in (1, MOST, 7 * MOST, 8 * MOST - 1, 8 * MOST):
            balances = [amount] + [0] * 62 + [-amount]
            for _ in range(4):
                flow = [x for _ in range(63) for x in spread(self.rng, amount)]
                self.priced(balances, arcs, flow, 63 * amount * MOST, [-MOST * (63 - v) for v in range(64)])

    def test_no_arcs(self):
        """No arc: the empty list is the flow, NULL or at a place that may not be touched, and every price is 0."""
        for n in (1, 2, 64):
            net, lent = network([0] * n, []), self.rng.randbytes(4 * n + 4)
            for given in (b"", Fenced(b"")): self.assertEqual(self.desk.prices(net, given, lent), ((OK, 0), [bytes(4 * n) + lent[4 * n:]]))
            for given in (b"\0", b"\0" * 4, bytes(4 * n)): self.refused(net, given, lent, 8)
            self.refused(network([1] + [0] * (n - 1), []), b"", lent, 8)
            self.refused(net, b"", b"", 7)

    def test_no_flow(self):
        """A network without a flow refuses every list with 8, and never says "none"."""
        for balances, arcs in NO_FLOW:
            n, m = len(balances), len(arcs)
            self.assertEqual(self.desk.first(network(balances, arcs), bytes(4 * m))[0], (NONE, 0))
            for flow in itertools.product(range(-1, 4), repeat=m): self.wrong(balances, arcs, flow)
            for size in range(4 * m + 9): self.wrong(balances, arcs, bytes(size))
            self.refused(network(balances, arcs), bytes(4 * m), self.rng.randbytes(4 * n - 1), 7)

    def test_room(self):
        """Question 7 asks for n places, whatever the number of arcs, and for a multiple of four bytes; it comes before 8. What is written are the first n places."""
        loops = lambda m: [(0, 0, 0, 1, 0)] * m
        for balances, arcs in (([0], []), ([0], loops(1)), ([0], loops(2)), ([0], loops(512)), ([0] * 2, loops(1)), ([0] * 2, loops(2)), ([0] * 3, [(2, 0, 0, 1, -5)]), ([0] * 3, loops(64)),
                               ([0] * 64, []), ([0] * 64, [(63, 0, 0, 1, -5)]), ([0] * 64, loops(63)), ([0] * 64, loops(64)), ([0] * 64, loops(512)),
                               ([2, -2, 0], [(0, 1, 0, 2, 1), (0, 1, 0, 2, 1), (1, 2, 0, 1, 0), (2, 1, 0, 1, 0)])):
            net, n, m = network(balances, arcs), 4 * len(balances), 4 * len(arcs)
            (_, cost), (good,) = self.desk.first(net, bytes(m))
            wanted = numbers(trial.prices(balances, arcs, trial.Reader._numbers(good)))
            for size in {0, 1, 2, 3, 4, n - 8, n - 4, n - 3, n - 2, n - 1, *range(n, n + 9), m - 4, m, m + 4, 2048, 2049}:
                if size < 0: continue
                lent, fits = self.rng.randbytes(size), size % 4 == 0 and size >= n
                self.assertEqual(self.desk.prices(net, good, lent), ((OK, cost), [wanted + lent[n:]]) if fits else ((7, 0), [lent]), (balances, arcs, size))
                for given in (good + b"\0", good + bytes(4), good[:-1], good[:-4], numbers([9] * len(arcs)), numbers([-1] * len(arcs))):
                    if given != good: self.refused(net, given, lent, 8 if fits else 7)
            self.assertEqual(self.desk.prices(net, good, Fenced(b"")), ((7, 0), [b""]))
            self.assertEqual(self.desk.prices(net, good, Fenced(bytes(n))), ((OK, cost), [wanted]))

    def test_order_of_questions(self):
        """A network that fails 1 to 6 fails it whatever is lent and given; then 7, then 8."""
        cases = [net for _, net, _ in limits()] + [*extremes(), *damaged(self.rng, 2000)]
        for net in cases:
            question = trial.refusal(*net)
            self.met(question)
            for given, lent in itertools.product((b"", b"\0", bytes(4), bytes(20)), (b"", b"\x55" * 3, b"\x55" * 4, b"\x55" * 256)):
                if question: self.refused(net, given, lent, question)
            if not question:
                self.refused(net, bytes(len(net[1]) // 5 + 4), b"\x55" * (len(net[0]) - 4), 7)
                self.refused(net, bytes(len(net[1]) // 5 + 4), b"\x55" * len(net[0]), 8)
        self.assertTrue(len(self.seen) == 7 and min(self.seen.values()) > 10, self.seen)

    def test_only_read(self):
        """The network and the flow may be where nothing can be written; the same call again gives the same answer, whatever was called in between."""
        for _ in range(60):
            balances, arcs = small(self.rng)
            net, other = network(balances, arcs), network(*small(self.rng))
            reader, lent = trial.Reader(*net), self.rng.randbytes(4 * len(balances))
            for given in (*reader.lines[:3], *reader.lines[-1:], bytes(4 * len(arcs) + 4)):
                for placed in (ReadOnly, Fenced, bytes):
                    self.assertEqual(self.desk.prices([placed(x) for x in net], placed(given), lent), reader.priced(given, lent))
                    self.desk.first_priced(other, bytes(24), bytes(20))
                    self.desk.prices(other, bytes(len(other[1]) // 5), bytes(20))

    def run_of(self, net, between):
        """The answers of first and of each next to the end; something is called before them, between any two, and after them."""
        between()
        answers = [self.desk.first(net, b"\x11" * (len(net[1]) // 5))]
        while answers[-1][0][0] == OK:
            between()
            answers.append(self.desk.next(net, *answers[-1][1], b"\x11" * (len(net[1]) // 5)))
        between()
        return answers

    def test_runs(self):
        """A run answers the same with calls for prices between any two of its calls, from any line and refused ones, of its network and of another: it is the full list."""
        for _ in range(300):
            nets = [network(*small(self.rng)) for _ in range(2)]
            sessions = [Session(self, self.desk, self.rng, net) for net in nets]

            def prices():
                for _ in range(self.rng.randint(1, 3)): self.rng.choice(sessions).prices()
            alone = self.run_of(nets[0], lambda: None)
            self.assertEqual(self.run_of(nets[0], prices), alone)
            self.assertEqual([line for (code, _), (line,) in alone if code == OK], sessions[0].reader.lines)
            self.met(alone[-1][0][0])
            for code, times in sessions[0].calls.items(): self.seen["prices", code] = self.seen.get(("prices", code), 0) + times
        self.assertEqual(set(self.seen), {END, NONE, ("prices", OK), ("prices", 7), ("prices", 8)})
        self.assertGreater(min(self.seen.values()), 10)


if __name__ == "__main__":
    unittest.main()
