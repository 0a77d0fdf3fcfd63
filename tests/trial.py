"""Search by trial: document 01's networks, straight from its text and independent of the library."""
from itertools import product

NODES, ARCS = 64, 512                  # the most
BOUND, COST, BALANCE = 10**6, 10**6, 10**9


def refusal(balances, arcs):
    """The number of the first question, 1 to 6, that two lists of bytes fail, or 0."""
    def numbers(data):
        return [int.from_bytes(data[i:i + 4], "little", signed=True) for i in range(0, len(data) - 3, 4)]
    b, x = numbers(balances), numbers(arcs)
    rows = [x[i:i + 5] for i in range(0, len(x) - 4, 5)]
    if len(balances) % 4 or not 1 <= len(b) <= NODES: return 1
    if len(arcs) % 20 or len(rows) > ARCS: return 2
    if not all(0 <= t < len(b) and 0 <= h < len(b) for t, h, l, u, c in rows): return 3
    if not all(0 <= l <= u <= BOUND for t, h, l, u, c in rows): return 4
    if not all(-COST <= c <= COST for t, h, l, u, c in rows): return 5
    if not all(-BALANCE <= v <= BALANCE for v in b): return 6
    return 0


def within(arcs):
    """All lists of m numbers within the bounds, in the order of flows."""
    return product(*(range(l, u + 1) for t, h, l, u, c in arcs))


def out_of(n, arcs, f):
    """Of each node what flows out less what flows in."""
    out = [0] * n
    for (t, h, l, u, c), x in zip(arcs, f):
        out[t] += x
        out[h] -= x
    return out


def flows(balances, arcs):
    """Every flow, in the order of flows."""
    return (f for f in within(arcs) if out_of(len(balances), arcs, f) == list(balances))


def is_flow(balances, arcs, f):
    """Whether these numbers are a flow."""
    return len(f) == len(arcs) and all(l <= x <= u for (t, h, l, u, c), x in zip(arcs, f)) and out_of(len(balances), arcs, f) == list(balances)


def cost_of(arcs, f):
    return sum(a[4] * x for a, x in zip(arcs, f))


def cheapest(found):
    """Of flows, or ways, with their costs those of the least cost, and that cost (0 where there are none)."""
    least = min((c for c, f in found), default=0)
    return [f for c, f in found if c == least], least


def costed(balances, arcs):
    """Every flow with its cost, in the order of flows."""
    return [(cost_of(arcs, f), f) for f in flows(balances, arcs)]


def full_list(balances, arcs):
    """The least-cost flows in order, and their cost."""
    return cheapest(costed(balances, arcs))


def residual(arcs, f):
    """The residual network of a flow, as (from, to, cost) each."""
    return [(t, h, c) for (t, h, l, u, c), x in zip(arcs, f) if x < u] + [(h, t, -c) for (t, h, l, u, c), x in zip(arcs, f) if x > l]


def prices(balances, arcs, f):
    """Of each node the least cost of a residual walk that ends there, tried up to n arcs long."""
    ends = [[] for _ in balances]          # the residual arcs to each node
    for s, t, c in residual(arcs, f): ends[t].append((s, c))
    walk = [0] * len(balances)             # of at most k arcs
    for _ in balances: walk = [min([walk[v]] + [walk[s] + c for s, c in ends[v]]) for v in range(len(balances))]
    return walk


def is_first(balances, arcs, f):
    """Whether f is the first flow, for networks too large to try all: a flow, and without a residual cycle of weight below 0,
    where the cost weighs more than all places of the flow together and each place more than all later ones."""
    if not is_flow(balances, arcs, f): return False
    place = 21                             # bits for a place: 2 * BOUND < 2 ** 21
    weights = [(c << place * len(arcs)) + (1 << place * (len(arcs) - 1 - a)) for a, (t, h, l, u, c) in enumerate(arcs)]
    steps = residual([(t, h, l, u, w) for (t, h, l, u, c), w in zip(arcs, weights)], f)
    walk = [0] * len(balances)
    for _ in range(len(balances) + 1):
        before = list(walk)
        for s, t, w in steps:
            if walk[s] + w < walk[t]: walk[t] = walk[s] + w
        if walk == before: return True
    return False


class Reader:
    """Document 01's reader with a finger on the full list of a network. Lists are bytes; an answer is (code, value) and the lent lists after the call."""
    OK, NONE, END, MORE = 0, 100, 101, 102
    SHORT, WRONG = 7, 8                    # the questions about a lent list and about a given one

    def __init__(self, balances, arcs):
        self.refused, self.everything = refusal(balances, arcs), []
        self._take([], 0)
        if not self.refused:
            x = self._numbers(arcs)
            self.balances, self.arcs = self._numbers(balances), [tuple(x[i:i + 5]) for i in range(0, len(x), 5)]
            self.n, self.m = len(self.balances), len(self.arcs)
            self._search()

    def _search(self):
        """The list of an accepted network."""
        self.everything = costed(self.balances, self.arcs)
        self._take(*cheapest(self.everything))

    def _take(self, lines, cost):
        """The finger on no line of the list."""
        self.finger, self.cost = None, cost
        self.lines = [self._bytes(l) for l in lines]
        self.place = {line: i for i, line in enumerate(self.lines)}

    @staticmethod
    def _numbers(data):
        return [int.from_bytes(data[i:i + 4], "little", signed=True) for i in range(0, len(data), 4)]

    @staticmethod
    def _bytes(values):
        return b"".join(v.to_bytes(4, "little", signed=True) for v in values)

    @staticmethod
    def _short(lent, places):
        return len(lent) % 4 != 0 or len(lent) < 4 * places

    def _question(self, flows=None, prices=None):
        """The first question, up to that about the lent lists, that a call fails, or 0. None is a list that is not lent."""
        if self.refused: return self.refused
        return self.SHORT if any(lent is not None and self._short(lent, places) for lent, places in ((flows, self.m), (prices, self.n))) else 0

    def _listed(self, given):
        """Whether the given list is on the full list."""
        return given in self.place

    def _line(self):
        return self.lines[self.finger]

    def first(self, flows, prices=None):
        lent = [flows] if prices is None else [flows, prices]
        question = self._question(flows, prices)
        if question: return (question, 0), lent
        if not self.lines: return (self.NONE, 0), lent
        self.finger = 0
        written = [self._line()] if prices is None else [self._line(), self._prices(self._line())]
        return (self.OK, self.cost), [w + l[len(w):] for w, l in zip(written, lent)]

    def next(self, given, flows):
        question = self._question(flows)
        if question: return (question, 0), [flows]
        if not self._listed(given): return (self.WRONG, 0), [flows]
        assert self.finger is not None and given == self._line(), "the line last written, or a list that is not on the full list"
        if self.finger + 1 == len(self.lines): return (self.END, 0), [flows]
        self.finger += 1
        return (self.OK, self.cost), [self._line() + flows[len(self._line()):]]

    def _prices(self, line):
        return self._bytes(prices(self.balances, self.arcs, self._numbers(line)))

    def priced(self, given, prices):
        """The prices of the line given, from that very line, and its cost. The reader does not hear of it: the finger stays."""
        question = self._question(prices=prices)
        if question: return (question, 0), [prices]
        if not self._listed(given): return (self.WRONG, 0), [prices]
        return (self.OK, self.cost), [self._prices(given) + prices[4 * self.n:]]

    def count(self, cap):
        if self.refused: return self.refused, 0
        return (self.OK, len(self.lines)) if len(self.lines) <= cap else (self.MORE, 0)
