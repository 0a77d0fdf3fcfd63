"""The program `ways`: stored examples, damaged books and any bytes on standard input, beside the search by trial and desk_listing."""
import itertools
import os
import pathlib
import random
import subprocess
import tempfile
import unittest

import way_library
import way_trial
from test_way_trial import PARTS, examples
from way_books import EXAMPLE, LONGEST, THOUSAND, damaged, large, layered_ways, refused, sized, small

PROGRAM = os.environ.get("WAYS_PROGRAM") or pathlib.Path(__file__).parents[1] / "target/bin/ways"     # WAYS_PROGRAM names another one to try


def printed(data):
    """What the program prints. It ends by itself."""
    run = subprocess.run([PROGRAM], input=data, stdout=subprocess.PIPE, stderr=subprocess.PIPE, timeout=60)
    assert run.returncode == 0 and not run.stderr, (run.returncode, run.stderr, data[:200])
    return run.stdout


class WaysProgram(unittest.TestCase):
    def same(self, data, listing=None):
        """The program prints the listing that is known, or else the trial's."""
        wanted = way_trial.listing(data) if listing is None else listing
        self.assertEqual(printed(data), wanted, data[:300])

    def test_examples(self):
        for name, book, listing in examples():
            with self.subTest(name): self.same(book, listing)

    def test_small(self):
        rng = random.Random(21)
        for _ in range(300): self.same(small(rng))

    def test_thousand(self):
        for book in THOUSAND.values(): self.same(book)

    def test_told(self):
        """The numbers of parts of request 6, each listing word by word."""
        for name, book, listing in PARTS:
            with self.subTest(name): self.same(book, listing)

    def test_longest(self):
        """A listing of 91,028 bytes, which no other exceeds."""
        listing = way_trial.shown(list(itertools.islice(layered_ways(9), 1001)), 28000000)
        self.assertEqual((len(listing), listing[-12:]), (91028, b"(more 1000)\n"))
        self.same(LONGEST, listing)

    def test_refused(self):
        for question, book in refused(): self.same(book, b"(refused %d)\n" % question)

    def test_damaged(self):
        rng = random.Random(22)
        for _ in range(300): self.same(damaged(rng))

    def test_cut_off(self):
        """Every beginning of a book but the whole of it, the empty one included."""
        for size in range(len(EXAMPLE)): self.same(EXAMPLE[:size], b"(refused 12)\n")

    def test_any_bytes(self):
        rng = random.Random(23)
        for size in (0, 1, 2, 3, 10, 100, 1000, 4095, 4096, 4097, 16383, 16384): self.same(rng.randbytes(size), b"(refused 12)\n")
        for byte in range(256): self.same(bytes([byte]), b"(refused 12)\n")

    def test_long(self):
        """To 16,384 bytes a book is read; any more are 11, whatever they hold."""
        self.same(sized(16384), b"(refused 14)\n")
        rng = random.Random(24)
        for data in (sized(16385), EXAMPLE + b"\n" * (16384 - len(EXAMPLE)) + b" ", b"\0" * 16385, b"(" * 16385, rng.randbytes(16385), rng.randbytes(65535), rng.randbytes(65536), rng.randbytes(65537),
                     EXAMPLE * 20000, b"\0" * 5_000_000): self.same(data, b"(refused 11)\n")

    def test_slowly(self):
        """A book that comes a few bytes at a time."""
        with subprocess.Popen([PROGRAM], stdin=subprocess.PIPE, stdout=subprocess.PIPE) as run:
            for at in range(0, len(EXAMPLE), 7):
                run.stdin.write(EXAMPLE[at:at + 7])
                run.stdin.flush()
            out, _ = run.communicate(timeout=60)
        self.assertEqual(out, way_trial.listing(EXAMPLE))

    def test_trouble(self):
        """Where standard input cannot be read, or standard output not be written to, the program says so and ends with status 1."""
        folder, full = os.open("/", os.O_RDONLY), os.open("/dev/full", os.O_WRONLY)
        with tempfile.TemporaryFile() as book:
            book.write(EXAMPLE)
            for stdin, stdout in ((folder, subprocess.PIPE), (book, full)):
                book.seek(0)
                run = subprocess.run([PROGRAM], stdin=stdin, stdout=stdout, stderr=subprocess.PIPE, timeout=60)
                self.assertEqual((run.returncode, run.stdout or b"", run.stderr[:7]), (1, b"", b"Error: "))
        for fd in folder, full: os.close(fd)

    def test_library(self):
        """What the program prints is what desk_listing answers, of larger books too."""
        desk, rng = way_library.load(), random.Random(25)
        books = [book for name, book, listing in examples()] + [book for question, book in refused()] + [large(rng, e) for e in (8, 12, 20, 28, 28, 28) for _ in range(8)]
        for book in books: self.assertEqual(printed(book), desk.listed(book), book[:300])


if __name__ == "__main__":
    unittest.main()
