"""The network entries of the C surface beside the reader of trial.py: document 01's networks, thousands of small ones, the limits. Calls for prices stand
between the others. Deterministic."""
import random
import struct
import unittest

import network_library as library
import trial
from flow_networks import damaged, extremes, large, limits, small, wider
from network_library import END, MORE, NONE, OK, network, numbers
from test_networks import networks

CAP = 65535


def caps(length):
    return sorted({c for c in (0, length - 1, length, length + 1, CAP) if 0 <= c <= CAP})


class Session:
    """A run of calls on one network, each answered by the library and by the reader."""

    def __init__(self, test, desk, rng, net, reader=None):
        self.test, self.desk, self.rng, self.net = test, desk, rng, net
        self.reader = reader or trial.Reader(*net)
        self.dearer = [numbers(f) for c, f in self.reader.everything if c != self.reader.cost]
        self.written = None                # the line last written, as bytes
        self.calls = {}

    def alike(self, what, got, wanted):
        self.calls[wanted[0][0]] = self.calls.get(wanted[0][0], 0) + 1
        if got != wanted: self.test.fail("%s of %s: %r, and not %r" % (what, self.shown(), got, wanted))

    def same(self, what, got, wanted):
        """Of a call that writes a line."""
        self.alike(what, got, wanted)
        if wanted[0][0] == OK: self.written = wanted[1][0][:4 * self.reader.m]

    def shown(self):
        return [struct.unpack(f"<{len(x) // 4}i", x[:len(x) // 4 * 4]) for x in self.net]

    def lent(self, places):
        """A list to lend, as long as it must be or longer."""
        return self.rng.randbytes(4 * places + self.rng.choice((0, 0, 4, 12)))

    def first(self, flows=None):
        if flows is None: flows = self.lent(self.reader.m)
        self.same("first", self.desk.first(self.net, flows), self.reader.first(flows))

    def first_priced(self, flows=None, prices=None):
        if flows is None: flows = self.lent(self.reader.m)
        if prices is None: prices = self.lent(self.reader.n)
        self.same("first with prices", self.desk.first_priced(self.net, flows, prices), self.reader.first(flows, prices))

    def either_first(self):
        self.rng.choice((self.first, self.first_priced))()

    def prices(self):
        """The prices of any line, or a call for them that is refused. The finger stays."""
        given, prices = self.any_given(), self.lent(self.reader.n) if self.rng.random() < 0.8 else self.short(self.reader.n)
        self.alike("prices from %r" % given, self.desk.prices(self.net, given, prices), self.reader.priced(given, prices))

    def aside(self):
        """Sometimes a call of which the reader does not hear."""
        if self.rng.random() < 0.2: self.prices()

    def next(self, given=None, flows=None):
        self.aside()
        if given is None: given = self.written
        if flows is None: flows = self.lent(self.reader.m)
        self.same("next of %r" % given, self.desk.next(self.net, given, flows), self.reader.next(given, flows))

    def counts(self):
        for cap in caps(len(self.reader.lines)):
            got, wanted = self.desk.count(self.net, cap), self.reader.count(cap)
            if got != wanted: self.test.fail("count of %s to %d: %r, and not %r" % (self.shown(), cap, got, wanted))

    def short(self, places):
        """A list that is too short, or of a length that is no multiple of four."""
        lengths = [n for n in (0, 4 * places - 4, 4 * places - 1) if 0 <= n < 4 * places] + [4 * places + k for k in (1, 2, 3, 6)]
        return self.rng.randbytes(self.rng.choice(lengths))

    def wrong(self):
        """A list to give that is not on the full list: a flow, or a way, that costs more, or none."""
        rng, m = self.rng, self.reader.m
        if self.dearer and rng.random() < 0.4: return rng.choice(self.dearer)
        while True:
            base = bytearray(rng.choice(self.reader.lines) if self.reader.lines and rng.random() < 0.8 else rng.randbytes(4 * m))
            kind = rng.randrange(6)
            if kind == 0: base += rng.randbytes(rng.choice((1, 2, 3, 4, 8)))
            elif kind == 1 and base: del base[-rng.choice((1, 2, 3, 4)):]
            elif kind == 2 and base: del base[:4]
            elif base:
                a = rng.randrange(m)
                old = int.from_bytes(base[4 * a:4 * a + 4], "little", signed=True)
                new = rng.choice((old + 1, old - 1, rng.randint(-1, 4), -2**31, 2**31 - 1, old ^ 1 << rng.randrange(31)))
                base[4 * a:4 * a + 4] = numbers([max(-2**31, min(2**31 - 1, new))])
            if bytes(base) not in self.reader.place: return bytes(base)

    def any_given(self):
        """Any line, or a list that is none."""
        return self.rng.choice(self.reader.lines) if self.reader.lines and self.rng.random() < 0.7 else self.wrong()

    def refused(self):
        """A call that fails a question. Where it fails more than one, the first counts."""
        m, kind = self.reader.m, self.rng.randrange(6)
        if kind == 0: self.first(self.short(m))
        elif kind == 1: self.first_priced(self.short(m))
        elif kind == 2: self.first_priced(None, self.short(self.reader.n))
        elif kind == 3: self.next(self.wrong())
        elif kind == 4: self.next(self.wrong(), self.short(m))
        elif self.written is not None: self.next(None, self.short(m))

    def walk(self, refusals, again=0.0, most=10**6):
        """The whole list from the first line to the end and past it, with refused calls before and between; sometimes from the start again."""
        while self.rng.random() < refusals: self.refused()
        self.either_first()
        while True:
            while self.rng.random() < refusals: self.refused()
            if not self.reader.lines or most == 0: return
            most -= 1
            if self.rng.random() < again:
                self.either_first()
                continue
            last = self.reader.finger + 1 == len(self.reader.lines)
            self.next()
            if last:
                self.refused()
                self.next()                # the end once more
                return


class NetworkCalls(unittest.TestCase):
    @classmethod
    def setUpClass(cls):
        cls.desk = library.load()

    def session(self, net, seed):
        return Session(self, self.desk, random.Random(seed), net)

    def expect(self, balances, arcs, answer, flow=None, prices=None):
        """First, with and without prices, and the prices from that flow, where the answer is known."""
        net, (n, m) = network(balances, arcs), (len(balances), len(arcs))
        flows, room = b"\x77" * (4 * m + 8), b"\x66" * (4 * n + 4)
        wrote = [flows, room] if flow is None else [numbers(flow) + flows[4 * m:], None if prices is None else numbers(prices) + room[4 * n:]]
        code, lent = self.desk.first(net, flows)
        self.assertEqual((code, lent), (answer, wrote[:1]))
        code, lent = self.desk.first_priced(net, flows, room)
        self.assertEqual((code, lent[0]), (answer, wrote[0]))
        if wrote[1] is not None: self.assertEqual(lent[1], wrote[1])
        self.assertEqual(self.desk.prices(net, numbers([0] * m if flow is None else flow), room), ((8, 0) if flow is None else answer, [lent[1]]))

    def test_document_01(self):
        for name, balances, arcs, cost, flows, prices in networks():
            with self.subTest(name):
                net, n, m = network(balances, arcs), len(balances), len(arcs)
                lent, room = b"\x11" * (4 * m + 4), b"\x22" * (4 * n + 4)
                if not flows:
                    self.assertEqual(self.desk.first(net, lent), ((NONE, 0), [lent]))
                    self.assertEqual(self.desk.first_priced(net, lent, room), ((NONE, 0), [lent, room]))
                    self.assertEqual(self.desk.next(net, numbers([0] * m), lent), ((8, 0), [lent]))
                for given, line in zip([None, *flows], [*flows, None]):
                    written = lent if line is None else numbers(line) + lent[4 * m:]
                    if given is None and line is not None:
                        self.assertEqual(self.desk.first(net, lent), ((OK, cost), [written]))
                        self.assertEqual(self.desk.first_priced(net, lent, room), ((OK, cost), [written, numbers(prices) + room[4 * n:]]))
                    elif given is not None:
                        self.assertEqual(self.desk.next(net, numbers(given), lent), ((END, 0) if line is None else (OK, cost), [written]))
                for cap in caps(len(flows)):
                    self.assertEqual(self.desk.count(net, cap), (OK, len(flows)) if len(flows) <= cap else (MORE, 0))
                run = self.session(net, name)
                run.walk(0.3)
                run.counts()

    def test_small(self):
        rng, seen, calls = random.Random(20261115), {}, {}
        for k in range(4000):
            net = network(*(wider(rng) if k % 10 == 0 else small(rng)))
            run = self.session(net, k)
            run.walk(0.1, 0.02 if k % 4 == 0 else 0.0, most=300)
            run.counts()
            length = len(run.reader.lines)
            seen[min(length, 20)] = seen.get(min(length, 20), 0) + 1
            for code, times in run.calls.items(): calls[code] = calls.get(code, 0) + times
        # the networks are of all kinds, without a line, with one, few and many; and so are the calls
        self.assertTrue(all(seen[length] > 100 for length in (0, 1, 2, 3, 4, 20)), seen)
        self.assertTrue(all(calls[code] > 200 for code in (OK, NONE, END, 7, 8)), calls)

    def test_any_line_given(self):
        """Next gives the line after any line, whatever was written last."""
        rng = random.Random(7)
        for k in range(400):
            run = self.session(network(*small(rng)), k)
            for _ in range(min(5, len(run.reader.lines))):
                run.reader.finger = rng.randrange(len(run.reader.lines))
                run.next(run.reader.lines[run.reader.finger])

    def test_many_refused(self):
        """Runs in which most calls are refused."""
        rng = random.Random(8)
        for k in range(300):
            run = self.session(network(*small(rng)), k)
            run.walk(0.8, 0.1, most=12)

    def refused_network(self, net, question):
        """Every entry refuses with the question, short lists and wrong given ones too, and changes nothing."""
        full = b"\x44" * 2112
        for flows in (full, b"", b"\x33"):
            self.assertEqual(self.desk.first(net, flows), ((question, 0), [flows]))
            self.assertEqual(self.desk.first_priced(net, flows, full), ((question, 0), [flows, full]))
            self.assertEqual(self.desk.first_priced(net, full, flows), ((question, 0), [full, flows]))
            self.assertEqual(self.desk.next(net, b"\x33" * 5, flows), ((question, 0), [flows]))
            self.assertEqual(self.desk.prices(net, b"\x33" * 5, flows), ((question, 0), [flows]))
        for cap in (0, 1, CAP): self.assertEqual(self.desk.count(net, cap), (question, 0))

    def test_questions(self):
        cases = [(net, verdict) for name, net, verdict in limits()] + [(net, trial.refusal(*net)) for net in [*extremes(), *damaged(random.Random(9), 1500)]]
        for net, verdict in cases:
            if verdict: self.refused_network(net, verdict)
            else: self.assertIn(self.desk.count(net, 0)[0], (OK, MORE))
        self.assertEqual({verdict for net, verdict in cases}, set(range(7)))

    def test_empty(self):
        """Empty lists are (NULL, 0)."""
        self.refused_network((b"", b""), 1)
        one = network([0], [])
        self.assertEqual(self.desk.first(one, b""), ((OK, 0), [b""]))
        self.assertEqual(self.desk.first_priced(one, b"", b""), ((7, 0), [b"", b""]))
        self.assertEqual(self.desk.first_priced(one, b"", b"\x55" * 4), ((OK, 0), [b"", numbers([0])]))
        self.assertEqual(self.desk.next(one, b"", b""), ((END, 0), [b""]))
        self.assertEqual(self.desk.next(one, b"\0" * 4, b""), ((8, 0), [b""]))
        self.assertEqual(self.desk.count(one, 0), (MORE, 0))
        self.assertEqual(self.desk.count(one, 1), (OK, 1))
        loop = network([0], [(0, 0, 0, 1, 0)])
        self.assertEqual(self.desk.first(loop, b""), ((7, 0), [b""]))
        self.assertEqual(self.desk.next(loop, b"", b"\x55" * 4), ((8, 0), [b"\x55" * 4]))

    def test_before_the_search(self):
        """A network without a flow: a short list is 7, a list given is 8."""
        net = network([1, 0], [(0, 1, 0, 1, 0)])
        self.assertEqual(self.desk.first(net, b"\x55" * 3), ((7, 0), [b"\x55" * 3]))
        self.assertEqual(self.desk.first_priced(net, b"\x55" * 4, b"\x55" * 4), ((7, 0), [b"\x55" * 4, b"\x55" * 4]))
        self.assertEqual(self.desk.next(net, b"\0" * 4, b""), ((7, 0), [b""]))
        self.assertEqual(self.desk.next(net, b"\0" * 4, b"\x55" * 8), ((8, 0), [b"\x55" * 8]))
        self.assertEqual([self.desk.count(net, cap) for cap in (0, CAP)], [(OK, 0)] * 2)

    def test_numbers_at_the_limits(self):
        most, all_of = 10**6, 512 * 10**6
        ring = lambda l, u, c: [(a % 64, (a + 1) % 64, l, u, c) for a in range(512)]
        for c in (most, -most, 0):
            across = [(0, 1, 0, most, c)] * 512
            self.expect([all_of, -all_of], across, (OK, c * all_of), [most] * 512, [min(0, -c), 0])
            self.expect([all_of + 1, -all_of - 1], across, (NONE, 0))
            self.expect([0, 0], [(0, 1, most, most, c)] * 256 + [(1, 0, most, most, c)] * 256, (OK, c * all_of), [most] * 512, [0, 0])
            self.expect([0], [(0, 0, most, most, c)] * 512, (OK, c * all_of), [most] * 512, [0])
            self.expect([0] * 64, ring(most, most, c), (OK, c * all_of), [most] * 512, [0] * 64)
        self.expect([0], [(0, 0, 0, most, -most)] * 512, (OK, -most * all_of), [most] * 512, [0])
        self.expect([0] * 64, ring(0, most, -most), (OK, -most * all_of), [most] * 512, [0] * 64)
        self.expect([0] * 64, ring(0, most, most), (OK, 0), [0] * 512, [0] * 64)
        chain = lambda c: [(v, v + 1, 0, most, c) for v in range(63)]
        self.expect([0] * 64, chain(-most), (OK, 0), [0] * 63, [-most * v for v in range(64)])
        self.expect([most] + [0] * 62 + [-most], chain(most), (OK, 63 * most * most), [most] * 63, [-most * (63 - v) for v in range(64)])
        self.expect([most] + [0] * 62 + [-most], chain(-most), (OK, -63 * most * most), [most] * 63, [0] * 64)
        self.expect([-most] + [0] * 62 + [most], chain(most), (NONE, 0))

    def test_prices_at_the_limits(self):
        """Chains of 64 nodes with costs at the limit: the lowest price is -63,000,000. In rising order of the arcs one round finds the prices, in
        falling order it takes 63. Walked along empty arcs, or back along full ones; each arc once, or eight times, or beside seven that undo it."""
        rng, most = random.Random(11), 10**6
        for full in (False, True):
            chain = [(v, v + 1, 0, 1, most if full else -most) for v in range(63)]
            for more in ([], 7 * chain, [(h, t, 0, 1, -c) for t, h, l, u, c in 7 * chain]):
                rising = sorted(chain + more)
                for arcs in (rising, rising[::-1], rng.sample(rising, len(rising))):
                    flow = [int(full and t < h) for t, h, l, u, c in arcs]
                    out = sum(flow) // 63
                    balances, prices = [out] + [0] * 62 + [-out], [-most * (63 - v if full else v) for v in range(64)]
                    self.assertTrue(trial.is_first(balances, arcs, flow))
                    self.assertEqual(trial.prices(balances, arcs, flow), prices)
                    self.expect(balances, arcs, (OK, 63 * out * most), flow, prices)

    def test_balances_at_the_limits(self):
        most = 10**9
        for balances in ([most, -most], [-most, most], [most] * 64, [-most] * 64, [most, -most] * 32, [most] * 32 + [-most] * 32,
                         [most] * 4 + [2**32 - 4 * most], [-most] * 4 + [4 * most - 2**32], [2**29] * 4, [-2**29] * 8, [most, 0, 0, -most + 1]):
            self.expect(balances, [], (NONE, 0))
            arcs = [(a % len(balances), (a + 1) % len(balances), 0, 10**6, 1) for a in range(512)]
            self.expect(balances, arcs, (NONE, 0))
            self.assertEqual(self.desk.count(network(balances, arcs), CAP), (OK, 0))

    def test_counts_at_the_limits(self):
        loop = lambda u: network([0], [(0, 0, 0, u, 0)])
        self.assertEqual([self.desk.count(loop(CAP - 1), cap) for cap in (CAP - 1, CAP)], [(MORE, 0), (OK, CAP)])
        self.assertEqual([self.desk.count(loop(u), CAP) for u in (CAP, CAP + 1, 10**6)], [(MORE, 0)] * 3)
        pairs = lambda k: network([1, -1] * k, [(2 * i, 2 * i + 1, 0, 1, 3) for i in range(k) for _ in range(2)])
        self.assertEqual([self.desk.count(pairs(k), CAP) for k in (1, 4, 12, 16, 32)], [(OK, 2), (OK, 16), (OK, 4096), (MORE, 0), (MORE, 0)])
        self.assertEqual([self.desk.count(pairs(10), cap) for cap in (1023, 1024)], [(MORE, 0), (OK, 1024)])

    def test_large(self):
        rng = random.Random(10)
        for costs in ([0], [1, 2, 3], [-1, 0, 1], range(-10**6, 10**6), [-10**6, 10**6]):
            for _ in range(2):
                balances, arcs = large(rng, costs)
                net, lent, room = network(balances, arcs), rng.randbytes(2052), rng.randbytes(260)
                (code, cost), (flows, prices) = self.desk.first_priced(net, lent, room)
                flow = struct.unpack("<512i", flows[:2048])
                self.assertEqual((code, cost, flows[2048:], prices[256:]), (OK, sum(a[4] * x for a, x in zip(arcs, flow)), lent[2048:], room[256:]))
                self.assertTrue(trial.is_first(balances, arcs, flow))
                self.assertEqual(list(struct.unpack("<64i", prices[:256])), trial.prices(balances, arcs, flow))
                self.assertEqual(self.desk.first(net, lent), ((OK, cost), [flows]))
                (code, value), (following,) = self.desk.next(net, flows[:2048], lent)
                if code == OK:
                    self.assertEqual(value, cost)
                    self.assertLess(flow, struct.unpack("<512i", following[:2048]))
                    self.assertEqual(self.desk.count(net, 1), (MORE, 0))
                else:
                    self.assertEqual((code, value, following), (END, 0, lent))
                    self.assertEqual(self.desk.count(net, 1), (OK, 1))
                a = next(a for a in range(rng.randrange(500), 512) if arcs[a][0] != arcs[a][1])
                spoilt = flows[:4 * a] + numbers([flow[a] + 1]) + flows[4 * a + 4:2048]
                self.assertEqual(self.desk.next(net, spoilt, lent), ((8, 0), [lent]))


if __name__ == "__main__":
    unittest.main()
