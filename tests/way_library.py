"""The book entries of the C surface."""
import ctypes

import desk_library
from desk_library import NONE, OK, Entry, Reply


class Span(ctypes.Structure):
    _fields_ = [("start", ctypes.c_size_t), ("length", ctypes.c_size_t)]


class Desk:
    """All but the names answer (code, value), and `line` is the line that the last such call told; those that are lent a list also give the lent lists after the call."""

    def __init__(self, library):
        self.line = 0
        self._entries = {name: Entry(library, "desk_" + name, result, lists, *more)
                         for name, result, lists, more in [("first", Reply, 2, []), ("next", Reply, 3, []), ("count", Reply, 1, [ctypes.c_uint16]),
                                                           ("listing", Reply, 2, []), ("spare", Reply, 1, [ctypes.c_uint32] * 2),
                                                           ("sheets_room", Reply, 2, []), ("sheets", Reply, 3, []),
                                                           ("name", Span, 1, [ctypes.c_uint32]),
                                                           ("name_refusal", ctypes.c_uint32, 1, [ctypes.c_uint32])]}

    def _call(self, name, read, lent, *more):
        reply, after = self._entries[name](read, lent, *more)
        self.line = reply.line
        assert reply.code in (13, 14, 15) or reply.line == 0, "a line was told with code %d" % reply.code
        return (reply.code, reply.value), after

    def first(self, book, way):
        return self._call("first", [book], [way])

    def next(self, book, given, way):
        return self._call("next", [book, given], [way])

    def count(self, book, cap):
        return self._call("count", [book], [], cap)[0]

    def listing(self, book, text):
        return self._call("listing", [book], [text])

    def listed(self, book):
        """The whole answer as `ways` prints it."""
        (code, length), _ = self.listing(book, b"")
        if code != OK: return b"(none)\n" if code == NONE else b"(refused %d)\n" % code
        again, (text,) = self.listing(book, b"\x77" * length)
        assert again == (OK, length), "another answer with room: %r" % (again,)
        return text

    def spare(self, book, earlier, later):
        return self._call("spare", [book], [], earlier, later)[0]

    def sheets_room(self, book, given):
        return self._call("sheets_room", [book, given], [])[0]

    def sheets(self, book, given, text):
        return self._call("sheets", [book, given], [text])

    def name(self, book, entry):
        """Where the name starts in the book, and its length."""
        span, _ = self._entries["name"]([book], [], entry)
        return span.start, span.length

    def name_refusal(self, book, entry):
        return self._entries["name_refusal"]([book], [], entry)[0]


def load():
    return Desk(desk_library.load())
