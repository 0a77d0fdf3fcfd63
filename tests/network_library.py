"""The network entries of the C surface."""
import ctypes

import desk_library
from desk_library import END, MORE, NONE, OK, Entry, Reply, numbers


def network(balances, arcs):
    return numbers(balances), numbers([x for a in arcs for x in a])


class Desk:
    """Each call answers (code, value) and the lent lists after it."""

    def __init__(self, library):
        self._entries = {name: Entry(library, "desk_network_" + name, Reply, lists, *more)
                         for name, lists, more in [("first", 3, []), ("first_priced", 4, []), ("next", 4, []), ("prices", 4, []), ("count", 2, [ctypes.c_uint16])]}

    def _call(self, name, read, lent, *more):
        reply, after = self._entries[name](read, lent, *more)
        assert reply.line == 0, "a network call told a line"
        return (reply.code, reply.value), after

    def first(self, network, flows):
        return self._call("first", network, [flows])

    def first_priced(self, network, flows, prices):
        return self._call("first_priced", network, [flows, prices])

    def next(self, network, given, flows):
        return self._call("next", [*network, given], [flows])

    def prices(self, network, given, prices):
        return self._call("prices", [*network, given], [prices])

    def count(self, network, cap):
        return self._call("count", network, [], cap)[0]


def load():
    return Desk(desk_library.load())
