"""Networks to try: random ones, each a function of the generator of random numbers; those at the limits; damaged ones."""
from network_library import network, numbers
from trial import out_of

EXTREMES = [-2**31, -2**31 + 1, -1, 0, 1, 2**31 - 2, 2**31 - 1]


def small(rng):
    """Up to 5 nodes and 6 arcs: loops, parallel and opposite arcs, few costs so that many flows tie; most of them have a flow."""
    n, m = rng.choice((1, 1, 2, 2, 2, 3, 3, 3, 4, 4, 5)), rng.randint(0, 6)
    costs = rng.choice(([0], [0, 1], [-1, 0, 1], [-1, 0, 1], [-3, -2, -1, 0, 1, 2, 3], [-10**6, 0, 10**6]))
    arcs, flow = [], []
    for _ in range(m):
        if arcs and rng.random() < 0.3:
            t, h = arcs[rng.randrange(len(arcs))][:2]
            if rng.random() < 0.5: t, h = h, t
        else: t, h = rng.randrange(n), rng.randrange(n)
        l = rng.choice((0, 0, 0, 0, 0, 1, 2, 3))
        u = max(rng.randint(l, 3), rng.randint(l, 3))
        arcs.append((t, h, l, u, rng.choice(costs)))
        flow.append(rng.randint(l, u))
    return balanced(rng, n, arcs, flow), arcs


def wider(rng):
    """More nodes and arcs, with room for 1."""
    n, m = rng.randint(4, 8), rng.randint(8, 11)
    costs = rng.choice(([0], [0, 1], [-1, 0, 1], [1, 2, 3]))
    arcs = [(rng.randrange(n), rng.randrange(n), 0, 1, rng.choice(costs)) for _ in range(m)]
    return balanced(rng, n, arcs, [rng.randint(0, 1) for _ in range(m)]), arcs


def balanced(rng, n, arcs, flow):
    """The balances of the flow; of one in eight networks, others."""
    out = out_of(n, arcs, flow)
    if rng.random() < 0.125:
        out[rng.randrange(n)] += rng.choice((-1, 1))
        if rng.random() < 0.7: out[rng.randrange(n)] -= sum(out)
    return out


def large(rng, costs, nodes=64, count=512):
    """64 nodes and 512 arcs, or fewer, bounds to the limit, with a flow."""
    arcs, flow = [], []
    for _ in range(count):
        u = rng.choice((1, 10**6, rng.randint(0, 10**6)))
        l = rng.choice((0, 0, 0, rng.randint(0, u)))
        arcs.append((rng.randrange(nodes), rng.randrange(nodes), l, u, rng.choice(costs)))
        flow.append(rng.randint(l, u))
    return out_of(nodes, arcs, flow), arcs


def wide(rng):
    """Up to 5 nodes and 8 arcs with bounds to the limit, and a flow."""
    n, m = rng.randint(1, 5), rng.randint(1, 8)
    costs = rng.choice(([0, 1], [-1, 0, 1], [-10**6, 10**6], range(-9, 9)))
    arcs, out = [], [0] * n
    for _ in range(m):
        u = rng.choice((1, 3, 10**6, rng.randint(0, 10**6)))
        l = rng.choice((0, 0, rng.randint(0, u)))
        t, h, x = rng.randrange(n), rng.randrange(n), rng.randint(l, u)
        arcs.append((t, h, l, u, rng.choice(costs)))
        out[t] += x
        out[h] -= x
    return out, arcs


def limits():
    """Cases at the limits, with the verdict that document 01 gives them."""
    good = [0, 0, 0, 1, 0]
    yield "64 nodes", network([0] * 64, []), 0
    yield "65 nodes", network([0] * 65, []), 1
    yield "no nodes", network([], []), 1
    yield "no nodes, a bad arc", network([], [[9, 9, 9, 9, 9]]), 1
    yield "0 arcs", network([0], []), 0
    yield "512 arcs", network([0], [good] * 512), 0
    yield "513 arcs", network([0], [good] * 513), 2
    yield "513 arcs, each of them bad", network([0], [[9, 9, 9, 9, 9]] * 513), 2
    for k in (1, 2, 3):
        yield f"4 + {k} bytes of balances", (numbers([0]) + b"\0" * k, b""), 1
        yield f"{k} bytes of balances", (b"\0" * k, b""), 1
    for k in range(1, 20):
        yield f"20 + {k} bytes of arcs", (numbers([0]), numbers(good) + b"\0" * k), 2
        yield f"{k} bytes of arcs", (numbers([0]), b"\0" * k), 2
    for place in (0, 1):
        for end, verdict in ((0, 0), (2, 0), (3, 3), (-1, 3), (63, 3)):
            arc = list(good)
            arc[place] = end
            yield f"3 nodes, number {place} of an arc is {end}", network([0] * 3, [good, arc]), verdict
    for l, u, verdict in ((0, 0, 0), (10**6, 10**6, 0), (0, 10**6, 0), (0, 10**6 + 1, 4), (10**6 + 1, 10**6 + 1, 4), (1, 0, 4), (2, 1, 4), (-1, 0, 4), (-1, -1, 4), (-2, -1, 4)):
        yield f"bounds {l} {u}", network([0], [good, [0, 0, l, u, 0]]), verdict
    for c, verdict in ((10**6, 0), (-10**6, 0), (10**6 + 1, 5), (-10**6 - 1, 5)):
        yield f"cost {c}", network([0], [[0, 0, 0, 1, c], good]), verdict
    for b, verdict in ((10**9, 0), (-10**9, 0), (10**9 + 1, 6), (-10**9 - 1, 6)):
        yield f"balance {b}", network([0, b], [good]), verdict
        yield f"balance {b} at node 63", network([0] * 63 + [b], [good]), verdict
    yield "a cost and an earlier question", network([10**9 + 1], [[0, 0, 0, 1, 10**6 + 1], [0, 0, 1, 0, 0]]), 4
    yield "an end in the last arc", network([10**9 + 1], [[0, 0, 1, 0, 10**6 + 1], [0, 1, 0, 0, 0]]), 3
    yield "a balance alone", network([10**9 + 1], [good]), 6


def extremes():
    """The extreme 32-bit numbers in every field."""
    for value in EXTREMES:
        for place in range(5):
            arc = [0, 0, 0, 1, 0]
            arc[place] = value
            yield network([0, 0], [arc])
        yield network([value], [])


def damaged(rng, count):
    """Small networks, near the limits more often than not, with bytes changed, added or taken away."""
    ends = [0, 0, 1, 2, 3, -1]
    bounds = [0, 0, 1, 2, 10**6, 10**6 + 1, -1]
    costs = [0, 1, -1, 10**6, -10**6, 10**6 + 1, -10**6 - 1]
    balances = [0, 1, -1, 10**9, -10**9, 10**9 + 1, -10**9 - 1]
    for _ in range(count):
        n, m = rng.randint(0, 4), rng.randint(0, 4)
        b, x = network([rng.choice(balances) for _ in range(n)],
                       [[rng.choice(ends), rng.choice(ends), rng.choice(bounds), rng.choice(bounds), rng.choice(costs)] for _ in range(m)])
        parts = [bytearray(b), bytearray(x)]
        if rng.random() < 0.5:
            part = rng.choice(parts)
            change = rng.randint(0, 2)
            if part and change == 0: part[rng.randrange(len(part))] = rng.randrange(256)
            if part and change == 1: del part[rng.randrange(len(part))]
            if change == 2: part.insert(rng.randint(0, len(part)), rng.randrange(256))
        yield bytes(parts[0]), bytes(parts[1])
