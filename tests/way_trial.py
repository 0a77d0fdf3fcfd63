"""Search by trial: the ways of documents 01 and 02, straight from their text and independent of the library. Books are those of book_reader."""
import book_reader
import sheet_writer
import trial

SHOWN = 1000                           # the most ways of a listing
NO_MOVE = 103                          # the answer of its own of request 7


def move(book, i, j):
    """Ticks and cost of the move from the instrument on which entry i ends to the one on which entry j begins, or None where there is no move. No entry has one
    to itself."""
    (_, leaves, _, _), (arrives, _, _, _) = book.entries[i - 1], book.entries[j - 1]
    lines = [(t, c) for a, b, t, c in book.moves if (a, b) == (leaves, arrives)]
    if leaves == arrives and not lines: lines = [(0, 0)]       # staying, where no line says what it takes
    return lines[0] if lines and i != j else None


def spare(book, i, j):
    """The test whether entry j may follow entry i: S of j less F of i and less the ticks of the move, 0 or more if it may; or None where there is no move."""
    found = move(book, i, j)
    return book.entries[j - 1][2] - book.entries[i - 1][3] - found[0] if found else None


def spare_answer(book, earlier, later):
    """What the call of the spare answers of an accepted book: (code, value)."""
    if not all(1 <= k <= len(book.entries) for k in (earlier, later)): return 19, 0
    ticks = spare(book, earlier, later)
    return (NO_MOVE, 0) if ticks is None else (0, ticks)


def told_spare(text, earlier, later):
    """The same of any bytes, and the line told."""
    refused, line, book = book_reader.refusal(text)
    return ((refused, 0), line) if refused else (spare_answer(book, earlier, later), 0)


def join(book, i, j):
    """The cost of entry j after entry i, or None where it may not follow."""
    ticks = spare(book, i, j)
    return None if ticks is None or ticks < 0 else move(book, i, j)[1]


def ways(book):
    """Every way with its cost, in the order of ways: a predecessor for entry 1, then for entry 2, and so on, each from 0 to E."""
    e, found = len(book.entries), []
    offers = [[(0, book.fee)] + [(i, join(book, i, j)) for i in range(1, e + 1) if join(book, i, j) is not None] for j in range(1, e + 1)]

    def rest(way, cost):
        if len(way) == e:
            found.append((cost, tuple(way)))
            return
        for i, c in offers[len(way)]:
            if i not in way if i else way.count(0) < book.players:
                way.append(i)
                rest(way, cost + c)
                way.pop()
    rest([], 0)
    return found


def full_list(book):
    """The least-cost ways in order, and their cost."""
    return trial.cheapest(ways(book))


def shown(lines, cost):
    """The listing of these ways, each with the number of its openings and its predecessors."""
    rows = [b"(way (parts %d)%s)\n" % (sum(1 for i in way if i == 0), b"".join(b" %d" % i for i in way)) for way in lines[:SHOWN]]
    last = b"(more %d)\n" % SHOWN if len(lines) > SHOWN else b"(end %d)\n" % len(lines)
    return b"(cost %d)\n" % cost + b"".join(rows) + last


def listing(text):
    """What `ways` prints of these bytes."""
    refused, _, book = book_reader.refusal(text)
    if refused: return b"(refused %d)\n" % refused
    lines, cost = full_list(book)
    return shown(lines, cost) if lines else b"(none)\n"


def network_of(book):
    """The book's network: balances and arcs."""
    e = len(book.entries)
    last = 2 * e + 1
    arcs = []
    for j in range(1, e + 1):
        arcs += [(2 * i, 2 * j - 1, 0, 1, join(book, i, j)) for i in range(e, 0, -1) if join(book, i, j) is not None]
        arcs.append((0, 2 * j - 1, 0, 1, book.fee))
    arcs += [(2 * j - 1, 2 * j, 1, 1, 0) for j in range(1, e + 1)]
    arcs += [(2 * j, last, 0, 1, 0) for j in range(1, e + 1)]
    arcs.append((0, last, 0, book.players, 0))
    return [book.players] + [0] * (2 * e) + [-book.players], arcs


def flow_of(book, arcs, way):
    """The flow of a way on the arcs of the book's network."""
    e = len(book.entries)

    def on(tail, head):
        if (tail, head) == (0, 2 * e + 1): return book.players - way.count(0)
        if head == 2 * e + 1: return int(tail // 2 not in way)
        if tail % 2: return 1              # an entry arc
        return int(way[head // 2] == tail // 2)
    return [on(t, h) for t, h, l, u, c in arcs]


class Reader(trial.Reader):
    """Document 01's reader with a finger on the full list of a book. `line` is the line told with a refusal, or 0."""
    SHORT, WRONG, NARROW = 17, 18, 21

    def __init__(self, text):
        self.refused, self.line, book = book_reader.refusal(text)
        self.source, self.book = text, book
        self.n, self.m = 0, len(book.entries) if book else 0
        self.everything = ways(book) if book else []
        lines, cost = trial.cheapest(self.everything)
        self.text = shown(lines, cost)
        self._take(lines, cost)

    def listing(self, text):
        """The answer, and the lent list after the call: the text over the front of one that has room for it."""
        if self.refused: return (self.refused, 0), [text]
        if not self.lines: return (self.NONE, 0), [text]
        size = len(self.text)
        return (self.OK, size), [self.text + text[size:] if size <= len(text) else text]

    def _written(self, given):
        """The question that a call for the sheets of that way fails, or 0, and their text."""
        if self.refused: return self.refused, b""
        if given not in self.place: return self.WRONG, b""
        return 0, sheet_writer.sheets(self.source, self.book, self._numbers(given))

    def sheets_room(self, given):
        """The answer: the length of the text that is written. The finger stays."""
        question, written = self._written(given)
        return question or self.OK, len(written)

    def sheets(self, given, text):
        """The answer, and the lent list after the call. The finger stays."""
        question, written = self._written(given)
        if not question and len(text) < len(written): question = self.NARROW
        return ((question, 0), [text]) if question else ((self.OK, len(written)), [written + text[len(written):]])
