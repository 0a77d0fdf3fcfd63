"""The archive of crate desk_c, by ctypes. Every list stands between guard bytes, at an odd address, and is looked at after the call."""
import ctypes
import functools
import mmap
import os
import pathlib
import struct
import subprocess
import tempfile

ROOT = pathlib.Path(__file__).parent.parent
OK, NONE, END, MORE, NO_MOVE = 0, 100, 101, 102, 103
LIST = [ctypes.c_void_p, ctypes.c_size_t]


def make(*words):
    """Runs the Makefile and gives what it printed. Of a make that it runs under it takes nothing over."""
    kept = {k: v for k, v in os.environ.items() if k not in ("MAKEFLAGS", "MFLAGS", "MAKELEVEL", "MAKEOVERRIDES", "PREFIX", "DESTDIR")}
    return subprocess.run(["make", *words], cwd=ROOT, env=kept, check=True, stdout=subprocess.PIPE, text=True).stdout


class Reply(ctypes.Structure):
    _fields_ = [("code", ctypes.c_uint32), ("line", ctypes.c_uint32), ("value", ctypes.c_int64)]


def numbers(values):
    return struct.pack(f"<{len(values)}i", *values)


class List:
    """A list of bytes as C sees it: a pointer and a length, bytes of its own around it, at an address of which the rest by 8 is `at`. An empty one is (NULL, 0), or a pointer to nothing."""

    def __init__(self, data, at=5, null=True):
        self._place(data, ctypes.create_string_buffer(len(data) + 32), lambda base: 8 + (at - base) % 8, null)

    def _place(self, data, memory, offset, null):
        base = ctypes.addressof(memory)
        self.data, self.memory, self.start = data, memory, offset(base)
        self.whole = b"\xa5" * self.start + data + b"\x5a" * (len(memory) - self.start - len(data))
        memory.raw = self.whole
        self.pointer = base + self.start if data or not null else None

    def after(self):
        """What the list holds, if the bytes around it are as they were."""
        whole, end = self.memory.raw, self.start + len(self.data)
        assert whole[:self.start] == self.whole[:self.start] and whole[end:] == self.whole[end:], "bytes around a list changed"
        return whole[self.start:end]

    def kept(self):
        assert self.memory.raw == self.whole, "a list that is only read changed"


class Fenced(List):
    """A list at the end of its page, or at the start: a page on either side can neither be read nor written, so that a byte too far ends the run."""

    def __init__(self, data, at_end=True):
        size = max(1, -(-len(data) // mmap.PAGESIZE)) * mmap.PAGESIZE
        self.pages = mmap.mmap(-1, size + 2 * mmap.PAGESIZE)
        base = ctypes.addressof(ctypes.c_char.from_buffer(self.pages))
        for page in (base, base + mmap.PAGESIZE + size):
            if PROTECT(page, mmap.PAGESIZE, 0): raise OSError("mprotect")
        self._place(data, (ctypes.c_char * size).from_address(base + mmap.PAGESIZE), lambda _: size - len(data) if at_end else 0, False)


class ReadOnly(Fenced):
    """A list on pages that can be read and not written: a byte written there ends the run."""

    def __init__(self, data):
        super().__init__(data)
        if PROTECT(ctypes.addressof(self.memory), len(self.memory), mmap.PROT_READ): raise OSError("mprotect")


PROTECT = ctypes.CDLL(None).mprotect
PROTECT.argtypes = [ctypes.c_void_p, ctypes.c_size_t, ctypes.c_int]


class Entry:
    """An entry of the archive that takes lists, then numbers."""

    def __init__(self, library, symbol, result, lists, *more):
        self._entry = getattr(library, symbol)
        self._entry.restype, self._entry.argtypes = result, LIST * lists + list(more)

    def __call__(self, read, lent, *more):
        """What it answers, and the lent lists after it; those that are read stay as they were. Each is bytes, or a List."""
        read, lent = [[l if isinstance(l, List) else List(l) for l in lists] for lists in (read, lent)]
        reply = self._entry(*(x for l in read + lent for x in (l.pointer, len(l.data))), *more)
        for l in read: l.kept()
        return reply, [l.after() for l in lent]


@functools.lru_cache(None)
def archive():
    """Builds the archive; DESK_ARCHIVE names another one to try instead."""
    named = os.environ.get("DESK_ARCHIVE")
    if named: return pathlib.Path(named)
    path = "target/staticlib/libdesk.a"
    make(path)
    return ROOT / path


@functools.lru_cache(None)
def load():
    """Loads the archive."""
    with tempfile.TemporaryDirectory() as dir:
        shared = dir + "/library.so"
        subprocess.run(["cc", "-shared", "-o", shared, "-Wl,--whole-archive", archive(), "-Wl,--no-whole-archive"], check=True)
        return ctypes.CDLL(shared)
