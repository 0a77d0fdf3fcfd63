"""Books to try: the example of 01, small random ones, larger ones, refused ones. Those at random are functions of the generator of random numbers."""
import itertools
import re

EXAMPLE = b"(book\n(players 2)\n(fee 6)\n(move 1 2 24 3)\n(move 2 1 24 3)\n(entry (name snare) 1 0 96)\n(entry (name xylo) 2 120 200)\n(entry (name snare2) 1 240 300)\n)\n"


def made(players=2, fee=6, moves=(), entries=()):
    """A book as bytes. An entry is (name, I, S, F), the short form, or (name, A, B, S, F), the long one; with any other count of numbers the book breaks the form."""
    lines = [b"(book", b"(players %d)" % players, b"(fee %d)" % fee]
    lines += [b"(move %d %d %d %d)" % m for m in moves]
    lines += [b"(entry (name %s)%s)" % (name, b"".join(b" %d" % n for n in numbers)) for name, *numbers in entries]
    return b"\n".join(lines) + b"\n)\n"


def sized(size):
    """A book of that many bytes that keeps the form, of moves."""
    text, line = b"(book\n(players 2)\n(fee 6)\n", b"(move 1 2 3 4)\n"
    while len(text) + 2 + 2 * len(line) <= size: text += line
    pad = size - len(text) - 2 - len(line)
    return text + b"(move 1 2 3 4)\n".replace(b"1 2 3 4", {0: b"1 2 3 4"}.get(pad, b"%d 2 %d %d" % (1, 3 * 10 ** min(pad, 6), 4 * 10 ** max(0, pad - 6)))) + b")\n"


def named(entries):
    return [(b"e%d" % j, *rest) for j, rest in enumerate(entries, 1)]


def played(rng, instruments, long):
    """The instruments of an entry: one in the short form, two in the long one, now and then the same. `long` is the share of the long form."""
    return [rng.choice(instruments) for _ in range(2 if rng.random() < long else 1)]


def small(rng, most=7):
    """Up to 7 entries: entries that touch with and without a move, on one instrument too, few costs so that many ways tie, in the order of time and not;
    no long forms, some, or long forms alone."""
    e = rng.choice([n for n in (0, 1, 2, 2, 3, 3, 4, 4, 4, 5, 5, 5, 6, 6, 7) if n <= most])
    instruments = rng.sample(range(1, 17), rng.choice((1, 1, 2, 2, 3, 4)))
    unit, span = rng.choice(((1, 4), (1, 8), (1, 14), (24, 10), (7, 30), (83333, 12)))
    fee = rng.choice((0, 0, 1, 1, 2, 6, 10**6))
    costs = rng.choice(([0], [0], [0, 1], [fee], [fee], [0, fee], [1, 2, 3], [10**6]))
    ticks = rng.choice(([0], [0], [0, unit], [unit], [1], [0, 1, unit, 2 * unit], [10**6, 0]))
    share, staying = rng.choice((0.0, 0.5, 0.9, 1.0)), rng.choice((0.0, 0.0, 0.5, 1.0))
    moves = [(a, b, rng.choice(ticks), rng.choice(costs)) for a in instruments for b in instruments if rng.random() < (staying if a == b else share)]
    rng.shuffle(moves)
    long, entries = rng.choice((0.0, 0.0, 0.3, 0.6, 1.0)), []
    for _ in range(e):
        touching = [finish for *_, finish in entries if finish < span * unit]
        if touching and rng.random() < 0.4: start = rng.choice(touching) // unit     # from where an entry ends
        else: start = rng.randrange(span)
        finish = min(span, start + rng.choice((1, 1, 1, 2, 3, span)))
        entries.append((rng.choice((b"a", b"drum", b"x1", b"0123456789abcdef")), *played(rng, instruments, long), start * unit, finish * unit))
    order = rng.randrange(3)
    if order: entries.sort(key=lambda x: x[-2], reverse=order == 2)
    return made(rng.choice((1, 2, 2, 3, 3, 4, 5, 6, 7, 8)), fee, moves, entries)


def large(rng, entries=28):
    """A movement of 28 entries on a few instruments, with most of the moves; no long forms, some, or long forms alone."""
    instruments = range(1, rng.randint(2, 16) + 1)
    moves = [(a, b, 24 * rng.randint(0, 4), rng.randint(1, 3)) for a in instruments for b in instruments if rng.random() < (0.3 if a == b else 0.9)]
    long, lines = rng.choice((0.0, 0.4, 1.0)), []
    for k in range(entries):
        start = 96 * (k * rng.choice((1, 2, 4)) + rng.randint(0, 3))
        lines.append((b"e%d" % (k + 1), *played(rng, instruments, long), start, start + 96 * rng.randint(1, 4) - rng.choice((0, 12))))
    if rng.random() < 0.5: rng.shuffle(lines)
    return made(rng.randint(4, 8), rng.randint(0, 9), moves, lines)


def paired(rng):
    """8 to 28 entries in pairs that overlap, for two players: so few ways that all can be tried. No long forms, some, or long forms alone."""
    pairs, instruments = rng.choice((4, 5, 6, 7, 8, 9, 10, 14)), range(1, rng.randint(2, 5) + 1)
    ticks, costs = rng.choice(([0, 24], [24, 48], [48], [0, 96], [0] * 9 + [97])), rng.choice(([1], [1, 2], [0, 1, 2, 3]))
    moves = [(a, b, rng.choice(ticks), rng.choice(costs)) for a in instruments for b in instruments if rng.random() < (0.2 if a == b else 0.97)]
    long, entries, ends = rng.choice((0.0, 0.4, 1.0)), [], rng.choice(([384], [336, 384], [384, 408], [384, 456], [384] * 9 + [480]))
    for k in range(pairs):
        entries += [(*played(rng, instruments, long), 480 * k + rng.choice((0, 0, 24)), 480 * k + rng.choice(ends)) for _ in range(2)]
    return made(2, rng.choice((0, 3, 50)), moves, named(entries))


def layered(layers):
    """For three players, entries in layers that follow one another in time: one entry, then so many layers of three that overlap. Entries 1 to 3 are the last
    layer, and the last entry is the first. Opening a part costs as much as joining, so that all ways cost the same."""
    return made(3, 1000000, [(1, 1, 0, 1000000)], named([(1, time, time + 1) for time in range(layers, 0, -1) for _ in range(3)] + [(1, 0, 1)]))


def layered_ways(layers):
    """All ways of that book, in order. Each layer of three has all players, so that the predecessors of its entries are the three of the layer before; one of
    the second layer follows the first entry, and the other two open."""
    last = 3 * layers + 1
    before = [(j + 3, j + 4, j + 5) for j in range(1, last - 3, 3)] + [(0, 0, last)]
    for choice in itertools.product(*(sorted(set(itertools.permutations(numbers))) for numbers in before)): yield (*itertools.chain(*choice), 0)


def refused():
    """Books that fail a question, with its number."""
    entry, long = (b"a", 1, 0, 1), (b"b", 1, 2, 0, 1)
    yield 11, EXAMPLE + b" " * (16385 - len(EXAMPLE))
    yield 11, b"\xff" * 16385
    yield 11, made(9, 6, [(1, 17, 0, 0)], [(b"a", 0, 1, 1)] * 800)
    yield 12, b""
    yield 12, EXAMPLE[:-1]
    yield 12, EXAMPLE + b"\n"
    yield 12, EXAMPLE.replace(b"(fee 6)", b"(fee 06)")
    yield 12, made(9, 6, [(1, 17, 0, 0)], [(b"A", 0, 1, 1)] * 29)
    yield 12, b"\xff" * 16384
    yield 12, made(1, 0, [], [entry, (b"b", 1, 2), long])
    yield 12, made(1, 0, [], [entry, (b"b", 1, 2, 3, 0, 1), long])
    yield 13, made(0)
    yield 13, made(9, 1000001, [(1, 17, 0, 0)], [(b"a", 0, 1, 1)] * 29)
    yield 13, made(8, 1000001)
    yield 14, made(1, 0, [(1, 2, 0, 0), (2, 1, 0, 0), (1, 2, 0, 0), (3, 0, 0, 0)], [entry])
    yield 14, made(1, 0, [(3, 3, 0, 0), (1, 2, 0, 0), (3, 3, 0, 0)], [entry])
    yield 14, made(1, 0, [(17, 2, 0, 0)], [(b"a", 17, 0, 1)] * 29)
    yield 14, made(1, 0, [(1, 2, 1000001, 0), (2, 1, 0, 0)])
    yield 14, made(1, 0, [(2, 1, 0, 0), (1, 2, 0, 1000001)])
    yield 15, made(1, 0, [(1, 2, 0, 0)], [entry, (b"b", 1, 5, 5), entry, (b"b", 1, 6, 5)])
    yield 15, made(1, 0, [], [entry] * 28 + [(b"b", 17, 0, 1)])
    yield 15, made(1, 0, [], [(b"a", 1, 0, 1000001)])
    for bad in ((0, 2, 0, 1), (17, 2, 0, 1), (1, 0, 0, 1), (1, 17, 0, 1), (1, 2, 5, 5), (1, 2, 0, 1000001)): yield 15, made(1, 0, [(1, 2, 0, 0)], [entry, long, (b"b", *bad), entry])
    yield 16, made(1, 0, [], [entry] * 29)
    yield 16, made(1, 0, [], [long] * 29)
    yield 16, made(8, 0, [(1, 2, 0, 0)], [(b"a", 1, j, j + 1) for j in range(300)])


MOVES = [(1, 2, 0, 0), (2, 1, 5, 5), (3, 3, 0, 0), (16, 15, 1000000, 1000000)]
ENTRIES = [(b"a", 1, 0, 1), (b"b", 2, 16, 1, 2), (b"c", 16, 0, 1000000), (b"d", 3, 5, 6)]
BAD_MOVES = [(0, 5, 0, 0), (17, 5, 0, 0), (5, 0, 0, 0), (5, 17, 0, 0), (5, 6, 1000001, 0), (5, 6, 0, 1000001), (17, 17, 0, 0)]
BAD_ENTRIES = [(b"x", 0, 0, 1), (b"x", 17, 0, 1), (b"x", 1, 1, 1), (b"x", 1, 2, 1), (b"x", 1, 0, 1000001), (b"x", 17, 9, 9), (b"x", 1, 1000000, 1000001),
               (b"x", 0, 1, 0, 1), (b"x", 17, 1, 0, 1), (b"x", 1, 0, 0, 1), (b"x", 1, 17, 0, 1), (b"x", 1, 2, 1, 1), (b"x", 1, 2, 2, 1), (b"x", 1, 2, 0, 1000001)]


def bad_lines():
    """Books whose lines fail and pass 13, 14 and 15 in every order, with the question and the line that is told; each fault at each line. The last is of a
    pair that an earlier line has, whether that line passes or not."""
    turns = max(len(BAD_MOVES) + 1, len(BAD_ENTRIES))
    for players, fee, moves, entries in itertools.product((0, 1), (0, 1), range(16), range(16)):
        question, line = next(((q, first + lines.index(1)) for q, first, lines in (
            (13, 2, [players, fee]), (14, 4, [moves >> k & 1 for k in range(4)]), (15, 8, [entries >> k & 1 for k in range(4)])) if 1 in lines), (0, 0))
        for turn in range(turns):
            ms, es = list(MOVES), list(ENTRIES)
            for k in range(4):
                if moves >> k & 1: ms[k] = BAD_MOVES[(turn + k) % len(BAD_MOVES)] if turn < turns - 1 or k == 0 else (*ms[k - 1][:2], 7, 7)
                if entries >> k & 1: es[k] = BAD_ENTRIES[(turn + k) % len(BAD_ENTRIES)]
            yield question, line, made((9, 0)[turn % 2] if players else 8, 1000001 if fee else 1000000, ms, es)


def damaged(rng):
    """A small book with a byte, a number or a line changed, added or taken away. With a number more a short form of an entry is a long one, and the reverse."""
    book = small(rng, 4)
    for _ in range(rng.choice((1, 1, 2))):
        kind, at = rng.randrange(8), rng.randrange(len(book))
        if kind == 0: book = book[:at] + rng.randbytes(1) + book[at + 1:]
        elif kind == 1: book = book[:at] + book[at + 1:]
        elif kind == 2: book = book[:at] + rng.choice((b"0", b"1", b" ", b"(", b")", b"\n")) + book[at:]
        elif kind == 3:
            lines = book.split(b"\n")
            lines.insert(rng.randrange(len(lines)), rng.choice(lines))
            book = b"\n".join(lines)
        elif kind == 4 and (rows := list(re.finditer(rb"(?<=\))(?: \d+)+(?=\)\n)", book))):
            row = rng.choice(rows)
            words = row[0].split(b" ")[1:]
            if rng.random() < 0.5: words.insert(rng.randint(0, len(words)), rng.choice((b"0", b"1", b"2", b"9", b"16", b"17", *words)))
            else: del words[rng.randrange(len(words))]
            book = book[:row.start()] + b"".join(b" " + word for word in words) + book[row.end():]
        else:
            number = rng.choice(list(re.finditer(rb"\d+", book)) or [re.match(b"", book)])
            book = book[:number.start()] + rng.choice((b"0", b"1", b"8", b"9", b"16", b"17", b"1000000", b"1000001", b"9999999")) + book[number.end():]
    return book


# Books by the number of their cheapest ways, found by trial.
THOUSAND = {
    999: made(7, 0, [(1, 2, 1, 1), (1, 3, 0, 0), (2, 1, 1, 0), (2, 3, 1, 0), (3, 1, 0, 0), (3, 2, 1, 0)],
              named([(3, 7, 8), (3, 6, 8), (3, 8, 9), (2, 11, 13), (2, 7, 8), (3, 4, 5), (1, 3, 4), (3, 11, 12)])),
    1000: made(8, 0, [(1, 2, 1, 0), (1, 3, 0, 1), (2, 1, 0, 0), (2, 3, 0, 0), (3, 1, 0, 1), (3, 2, 0, 0)],
               named([(2, 0, 1), (3, 2, 3), (1, 4, 5), (2, 4, 7), (1, 7, 8), (2, 8, 9), (2, 8, 9), (1, 9, 12)])),
    1001: made(6, 0, [(1, 3, 0, 0), (1, 4, 0, 1), (2, 3, 2, 1), (2, 4, 2, 0), (3, 1, 1, 0), (3, 2, 1, 0), (3, 4, 2, 0), (4, 1, 2, 1), (4, 2, 2, 0), (4, 3, 1, 1)],
               named([(2, 1, 2), (3, 3, 5), (1, 4, 5), (2, 6, 7), (1, 10, 11), (1, 11, 12), (3, 12, 13), (2, 13, 14), (2, 14, 17)])),
}
# Two books on different instruments, 255 and 257 ways with as few players as can be; in one book 255 times 257, which is 65,535.
HALVES = {
    255: ([(1, 2, 1, 1), (1, 3, 2, 0), (1, 4, 0, 0), (2, 1, 2, 1), (2, 3, 2, 0), (2, 4, 2, 0), (3, 1, 0, 1), (3, 2, 1, 0), (3, 4, 0, 0), (4, 1, 1, 0), (4, 2, 0, 0), (4, 3, 0, 0)],
          [(2, 2, 4), (2, 4, 5), (1, 7, 8), (3, 8, 9), (3, 10, 13), (4, 11, 14), (4, 11, 12), (1, 12, 13), (1, 13, 15), (2, 14, 15)]),
    257: ([(5, 6, 1, 0), (6, 5, 0, 0), (6, 7, 2, 1), (7, 5, 1, 0), (7, 6, 0, 0)],
          [(6, 1, 3), (7, 2, 3), (5, 3, 4), (7, 5, 7), (5, 9, 10), (7, 10, 11), (5, 11, 13), (6, 12, 14), (5, 13, 14), (6, 13, 14), (7, 14, 15)]),
}
MOST = made(8, 1000, HALVES[255][0] + HALVES[257][0], named(HALVES[255][1] + HALVES[257][1]))
LONGEST = layered(9)                   # no listing is longer than that of this book
