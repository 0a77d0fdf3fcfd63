"""The least-cost flows of networks too wide to try every list: cycles of negative weight are cancelled until there is none. Independent of the library."""
import math

import trial

PLACE = 21                             # bits for a place of a flow: 2 * trial.BOUND < 2 ** 21
TRIED = 10**6                          # the most lists to try


def negative_cycle(nodes, rows, flow, room):
    """A residual cycle of negative weight with so much room, as (arc, 1 or -1) each, or nothing."""
    steps = [(t, h, w, a, 1) for a, (t, h, l, u, w) in enumerate(rows) if u - flow[a] >= room] + [(h, t, -w, a, -1) for a, (t, h, l, u, w) in enumerate(rows) if flow[a] - l >= room]
    walk, before = [0] * nodes, [None] * nodes
    for _ in range(nodes):
        last = None
        for s, t, w, a, way in steps:
            if walk[s] + w < walk[t]: walk[t], before[t], last = walk[s] + w, (s, a, way), t
        if last is None: return []
    for _ in range(nodes): last = before[last][0]
    cycle, node = [], last
    while not cycle or node != last:
        node, *step = before[node]
        cycle.append(step)
    return cycle


def lightest(balances, arcs, weights):
    """A flow with the least sum of weights, or None. What the lower bounds leave over runs through one node more at first, at a weight above all others together.
    Cycles with much room are cancelled first, so that they are few."""
    hub, over = len(balances), list(balances)
    rows, flow = [(t, h, l, u, w) for (t, h, l, u, c), w in zip(arcs, weights)], [l for t, h, l, u, c in arcs]
    for t, h, l, u, c in arcs:
        over[t] -= l
        over[h] += l
    if sum(over): return None
    heavy = 1 + sum(map(abs, weights))
    for v, x in enumerate(over):
        rows.append((v, hub, 0, x, heavy) if x > 0 else (hub, v, 0, -x, heavy))
        flow.append(abs(x))
    room = 1 << max(u - l for t, h, l, u, w in rows).bit_length()
    while room := room >> 1:
        while cycle := negative_cycle(hub + 1, rows, flow, room):
            push = min(rows[a][3] - flow[a] if way > 0 else flow[a] - rows[a][2] for a, way in cycle)
            for a, way in cycle: flow[a] += way * push
    return None if any(flow[len(arcs):]) else tuple(flow[:len(arcs)])


def first(balances, arcs):
    """The first least-cost flow, or None: the cost weighs more than all places together, and each place more than all later ones."""
    m = len(arcs)
    return lightest(balances, arcs, [(arcs[a][4] << PLACE * m) + (1 << PLACE * (m - 1 - a)) for a in range(m)])


def following(balances, arcs, flow):
    """The least-cost flow after a given one, or None: alike as far as can be, then greater, then the first of all such."""
    for a in reversed(range(len(arcs))):
        t, h, l, u, c = arcs[a]
        if flow[a] == u: continue
        fixed = [(t, h, x, x, c) for (t, h, l, u, c), x in zip(arcs[:a], flow)]
        after = first(balances, fixed + [(t, h, flow[a] + 1, u, c)] + arcs[a + 1:])
        if after is not None and trial.cost_of(arcs, after) == trial.cost_of(arcs, flow): return after
    return None


def narrowed(balances, arcs):
    """The arcs with the bounds that the least-cost flows reach, where there are some. Every number between them is on one of these flows."""
    reached = []
    for a, (t, h, l, u, c) in enumerate(arcs):
        least, most = (lightest(balances, arcs, [(arc[4] << PLACE + 1) + way * (k == a) for k, arc in enumerate(arcs)])[a] for way in (1, -1))
        reached.append((t, h, least, most, c))
    return reached


class Reader(trial.Reader):
    """Document 01's reader on an accepted network, without a list of all lines."""

    def _search(self):
        start = first(self.balances, self.arcs)
        self._take([] if start is None else [start], 0 if start is None else trial.cost_of(self.arcs, start))

    def _listed(self, given):
        flow = self._numbers(given)
        return bool(self.lines) and len(given) % 4 == 0 and trial.is_flow(self.balances, self.arcs, flow) and trial.cost_of(self.arcs, flow) == self.cost

    def next(self, given, flows):
        question = self._question(flows)
        if question: return (question, 0), [flows]
        if not self._listed(given): return (self.WRONG, 0), [flows]
        line = following(self.balances, self.arcs, self._numbers(given))
        if line is None: return (self.END, 0), [flows]
        return (self.OK, self.cost), [self._bytes(line) + flows[4 * self.m:]]

    def count(self, cap):
        if not self.lines: return self.OK, 0
        arcs = narrowed(self.balances, self.arcs)
        widths = [u - l + 1 for t, h, l, u, c in arcs]
        if max(widths, default=0) > cap: return self.MORE, 0
        assert math.prod(widths) <= TRIED, "too many lists to try"
        length = sum(trial.cost_of(arcs, f) == self.cost for f in trial.flows(self.balances, arcs))
        return (self.OK, length) if length <= cap else (self.MORE, 0)
