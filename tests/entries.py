"""The fourteen entries of include/desk.h, on any arguments: what the archive answers, and what the readers that share nothing with it answer."""
import ctypes
import functools
import math
import struct

import book_reader
import desk_library
import flow_solver
import trial
import way_library
import way_trial
from desk_library import Entry, Reply

CAP = 65535
TRIED = 3000                           # the most lists that are tried; a wider network is solved
ENTRIES = {                            # the lists that are read, the lists that are lent, and the numbers
    "desk_first": (["book"], ["way"], []),
    "desk_next": (["book", "given"], ["way"], []),
    "desk_count": (["book"], [], ["cap"]),
    "desk_listing": (["book"], ["text"], []),
    "desk_spare": (["book"], [], ["earlier", "later"]),
    "desk_sheets_room": (["book", "given"], [], []),
    "desk_sheets": (["book", "given"], ["text"], []),
    "desk_name": (["book"], [], ["entry"]),
    "desk_name_refusal": (["book"], [], ["entry"]),
    "desk_network_first": (["balances", "arcs"], ["flows"], []),
    "desk_network_first_priced": (["balances", "arcs"], ["flows", "prices"], []),
    "desk_network_next": (["balances", "arcs", "given"], ["flows"], []),
    "desk_network_prices": (["balances", "arcs", "given"], ["prices"], []),
    "desk_network_count": (["balances", "arcs"], [], ["cap"]),
}
RESULTS = {"desk_name": way_library.Span, "desk_name_refusal": ctypes.c_uint32}
NUMBERS = {"cap": ctypes.c_uint16, "entry": ctypes.c_uint32, "earlier": ctypes.c_uint32, "later": ctypes.c_uint32}


def lists(entry):
    """The names of its lists."""
    read, lent, _ = ENTRIES[entry]
    return read + lent


@functools.lru_cache(256)
def network_reader(balances, arcs):
    if trial.refusal(balances, arcs): return trial.Reader(balances, arcs)
    rows = struct.iter_unpack("<5i", arcs)
    return (trial.Reader if math.prod(u - l + 1 for t, h, l, u, c in rows) <= TRIED else flow_solver.Reader)(balances, arcs)


@functools.lru_cache(256)
def ways_reader(book):
    return way_trial.Reader(book)


def expected(entry, a):
    """The answer to a call, the lent lists after it, and the line told."""
    read, lent, _ = ENTRIES[entry]
    lent = [a[name] for name in lent]
    if entry in ("desk_name", "desk_name_refusal"):
        question, (start, end) = book_reader.name(a["book"], a["entry"])
        return (start, end - start) if entry == "desk_name" else question, [], 0
    if entry == "desk_spare":
        answer, line = way_trial.told_spare(a["book"], a["earlier"], a["later"])
        return answer, [], line
    reader = ways_reader(a["book"]) if "book" in a else network_reader(a["balances"], a["arcs"])
    line = reader.line if "book" in a else 0
    if entry.endswith("count"): return reader.count(a["cap"]), [], line
    if entry == "desk_listing": return *reader.listing(*lent), line
    if entry == "desk_sheets_room": return reader.sheets_room(a["given"]), [], line
    if entry == "desk_sheets": return *reader.sheets(a["given"], *lent), line
    if entry == "desk_network_prices": return *reader.priced(a["given"], *lent), line
    if "given" not in a: return *reader.first(*lent), line
    if a["given"] in reader.place: reader.finger = reader.place[a["given"]]
    return *reader.next(a["given"], *lent), line


class Surface:
    """`numbers` gives the C types in which caps and entries are handed over."""

    def __init__(self, numbers=NUMBERS):
        library = desk_library.load()
        self._entries = {entry: Entry(library, entry, RESULTS.get(entry, Reply), len(read + lent), *(numbers[name] for name in more))
                         for entry, (read, lent, more) in ENTRIES.items()}

    def call(self, entry, a, placed=None):
        """The answer, the lent lists after the call, and the line told. `placed` has what is handed over instead: a List for a list, a wider number."""
        read, lent, more = ENTRIES[entry]
        handed = {**a, **(placed or {})}
        reply, after = self._entries[entry]([handed[n] for n in read], [handed[n] for n in lent], *(handed[n] for n in more))
        if isinstance(reply, Reply): return (reply.code, reply.value), after, reply.line
        return ((reply.start, reply.length) if entry == "desk_name" else reply), after, 0

    def compare(self, entry, a, placed=None):
        """Calls, compares, and gives the answer's number."""
        answer, after, line = self.call(entry, a, placed)
        wanted, kept, told = expected(entry, a)
        assert (answer, after, line) == (wanted, kept, told), "%s(%s) answered %r, line %d and %r, and not %r, line %d and %r" % (
            entry, ", ".join("%s=%r" % x for x in a.items()), answer, line, after, wanted, told, kept)
        return answer[0] if isinstance(answer, tuple) else answer
