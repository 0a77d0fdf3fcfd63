"""The C programs of examples/c and the header: compiled without a warning, run on the example books, on refused ones and on trouble, also with the sanitizers and under valgrind."""
import itertools
import pathlib
import re
import shutil
import subprocess
import tempfile
import unittest

import book_reader
import desk_library
import sheet_writer
import trial
import way_trial
from test_sheets import stored
from test_way_trial import EXAMPLES, counted, examples
from way_books import ENTRIES, MOVES, bad_lines, made, refused

ROOT = desk_library.ROOT
HEADER = ROOT / "include/desk.h"
STRICT = ["-std=c11", "-pedantic", "-Wall", "-Wextra", "-Werror", "-I", HEADER.parent]
SANITIZED = ["-g", "-fsanitize=address,undefined", "-fno-sanitize-recover=all"]
VALGRIND = ["valgrind", "-q", "--error-exitcode=9", "--leak-check=full"]
LISTED, NOT_LISTED, TROUBLE = 0, 1, 2                  # of print_sheets: printed, not printed, trouble; of tell_spare: told, not told, trouble
PROGRAMS = "list_ways", "print_sheets", "tell_spare", "solve_network"


def compiled(program, to, compiler="gcc", flags=("-O2",)):
    """Compiles a program of examples/c with the archive; a warning is an error."""
    subprocess.run([compiler, *STRICT, *flags, "-o", to, ROOT / "examples/c" / (program + ".c"), desk_library.archive()], check=True)
    return to


def run(command, data=b"", out=subprocess.PIPE):
    """The status of a program, what it printed and what it complained of."""
    done = subprocess.run(command, input=data, stdout=out, stderr=subprocess.PIPE, timeout=60)
    return done.returncode, (done.stdout or b"").decode(), done.stderr.decode()


def listed(text):
    """A stored listing: the cost, the ways and the last line as list_ways prints it; None where it has no ways."""
    if not text.startswith(b"(cost "): return None
    first, *_, last = [line[1:-1].split() for line in text.decode().splitlines()]
    return int(first[1]), [way for _, way in counted(text)], {"end": "%s in all", "more": "%s shown, and there are more"}[last[0]] % last[1]


def printed(text, book):
    """The same of what list_ways printed, read back from the parts. The names are those of the book."""
    names = [book[start:end].decode() for start, end in book_reader.read(book).names]
    first, *lines, last = text.splitlines()
    ways = []
    for line in lines:
        if line.startswith("way "):
            ways.append([None] * len(names))
            assert line == "way %d" % len(ways), line
            continue
        before = 0
        for word in line.removeprefix("  ").split(", "):
            name, number = re.fullmatch(r"([a-z0-9]+) \((\d+)\)", word).groups()
            entry = int(number)
            assert name == names[entry - 1] and ways[-1][entry - 1] is None, line
            ways[-1][entry - 1] = before
            before = entry
    return int(first.removeprefix("cost ")), [tuple(w) for w in ways], last


class Programs:
    """What the programs do, whatever they are compiled with."""
    flags = ["-O2"]

    @classmethod
    def setUpClass(cls):
        cls.dir = tempfile.TemporaryDirectory()
        cls.addClassCleanup(cls.dir.cleanup)
        cls.folder = pathlib.Path(cls.dir.name)
        cls.list_ways, cls.print_sheets, cls.tell_spare, cls.solve_network = [compiled(p, cls.folder / p, flags=cls.flags) for p in PROGRAMS]

    def test_examples(self):
        """The ways of each example book, in the order of its listing."""
        for name, book, listing in examples():
            with self.subTest(name):
                wanted = listed(listing)
                status, out, complaint = run([self.list_ways, "-n", "1000", EXAMPLES / (name + ".book")])
                self.assertEqual((status, bool(complaint)), (LISTED if wanted else NOT_LISTED, listing.startswith(b"(refused")))
                if wanted: self.assertEqual(printed(out, book), wanted)
                else: self.assertEqual(out, "no way\n" if listing == b"(none)\n" else "")

    def test_count(self):
        """No more ways than -n says, 20 without it; the book on standard input."""
        book = (EXAMPLES / "symphony.book").read_bytes()
        cost, ways, _ = listed((EXAMPLES / "symphony.listing").read_bytes())
        for words, count in ([], 20), (["-n", "0"], 0), (["-n", "1"], 1), (["-n", "255"], 255):
            status, out, complaint = run([self.list_ways, *words], book)
            self.assertEqual((status, complaint), (LISTED, ""))
            self.assertEqual(printed(out, book), (cost, ways[:count], "%d shown, and there are more" % count))
        for count in ("256", "257", "999999999"):
            self.assertEqual(printed(run([self.list_ways, "-n", count], book)[1], book), (cost, ways, "256 in all"))

    def test_refused(self):
        """A sentence for each refusal and, for 13 to 15, the lowest line that fails."""
        words, met = {11: "16384 bytes", 12: "form", 13: "players", 14: "move", 15: "entry", 16: "28 entries"}, set()
        for question, book in refused():
            for name, command in ("standard input", [self.list_ways]), ("/dev/stdin", [self.print_sheets, "/dev/stdin"]), ("/dev/stdin", [self.tell_spare, "/dev/stdin", "1", "2"]):
                status, out, complaint = run(command, book)
                self.assertEqual((status, out), (NOT_LISTED, ""))
                line, code, sentence = re.fullmatch(name + r"(?::(\d+))?: refused \((\d+)\): (.+)\n", complaint).groups()
                self.assertEqual(int(code), question)
                self.assertEqual(int(line or 0), book_reader.refusal(book)[1])
                self.assertIn(words[question], sentence)
            met.add(question)
        self.assertEqual(met, set(words))

    def test_refused_files(self):
        for name, line, question in (("refused-12", "", 12), ("refused-13", ":2", 13), ("refused-14", ":6", 14), ("refused-15", ":9", 15), ("refused-16", "", 16),
                                     ("several-bad-lines", ":5", 14)):
            self.refused_file(EXAMPLES / (name + ".book"), line, question)
        shown = run([self.list_ways, EXAMPLES / "several-bad-lines.book"])[2].removeprefix(str(ROOT) + "/")
        self.assertIn("\n\n    %s\n" % shown, (ROOT / "examples/c/README.md").read_text())
        empty, long = self.folder / "empty", self.folder / "long"
        empty.write_bytes(b"")
        long.write_bytes((EXAMPLES / "document.book").read_bytes() * 1000)
        for path, question in (empty, 12), (long, 11): self.refused_file(path, "", question)

    def refused_file(self, path, line, question):
        """The programs of books tell the question, and the line after the file's name."""
        for command in [self.list_ways, path], [self.print_sheets, path], [self.tell_spare, path, "1", "2"], [self.tell_spare, path, "0", "29"]:
            status, out, complaint = run(command)
            self.assertEqual((status, out), (NOT_LISTED, ""))
            self.assertTrue(complaint.startswith("%s%s: refused (%s): " % (path, line, question)), complaint)

    def test_mended(self):
        """A copyist mends each line that is told until the book is listed, and never goes up again."""
        good, mended = made(8, 1000000, MOVES, ENTRIES).split(b"\n"), 0
        for question, line, book in itertools.islice(bad_lines(), 0, None, 263):
            lines, told = book.split(b"\n"), []
            while (answer := run([self.list_ways, "-n", "1"], b"\n".join(lines)))[0] == NOT_LISTED:
                told.append(int(re.match(r"standard input:(\d+): refused ", answer[2])[1]))
                lines[told[-1] - 1] = good[told[-1] - 1]
            self.assertEqual(answer[0], LISTED)
            self.assertEqual((told[:1], told), ([line] if question else [], sorted(set(told))), book)
            mended += len(told)
        self.assertGreater(mended, 100)

    def test_trouble(self):
        """Wrong arguments, a file that is not there or cannot be read, output that cannot be written."""
        book = EXAMPLES / "document.book"
        for words in (["-n"], ["-n", ""], ["-n", "x"], ["-n", "-1"], ["-n", "1234567890"], ["-n", "1", "-n", "1"], ["-x"], [book, book], [self.folder / "nowhere"], [self.folder]):
            with self.subTest(words): self.wrong([self.list_ways, *words])
        for words in ([], [book, ""], [book, "x"], [book, "0"], [book, "-1"], [book, "1234567890"], [book, "1", "1"], ["-n"], [self.folder / "nowhere"], [self.folder]):
            with self.subTest(words): self.wrong([self.print_sheets, *words])
        for words in ([], [book], [book, "1"], [book, "1", "2", "3"], [book, "", "2"], [book, "1", ""], [book, "x", "2"], [book, "1", "x"], [book, "1", "2x"], [book, "-1", "2"], [book, "1", "-2"], [book, "1", " 2"],
                      [book, "1234567890", "2"], [book, "1", "1234567890"], ["-n", "1", "2"], [self.folder / "nowhere", "1", "2"], [self.folder, "1", "2"]):
            with self.subTest(words): self.wrong([self.tell_spare, *words])
        for words in ([""], ["x"], ["-1"], ["1234567890"], ["1", "1"]):
            with self.subTest(words): self.wrong([self.solve_network, *words])
        with open("/dev/full", "wb") as full:
            for command in [self.list_ways, book], [self.print_sheets, book], [self.tell_spare, book, "1", "2"], [self.solve_network]:
                self.assertEqual(run(command, out=full)[0], TROUBLE)

    def wrong(self, command):
        status, out, complaint = run(command)
        self.assertEqual((status, out, complaint.count("\n")), (TROUBLE, "", 1))

    def test_sheets(self):
        """The stored sheets; the first way's without a number; the last way's, and none after it; none of a book without entries, and no way."""
        for name, book, way, text in stored():
            path, _, place = name.rpartition("-")
            self.assertEqual(run([self.print_sheets, EXAMPLES / (path + ".book"), place]), (LISTED, text.decode(), ""))
            if place == "1": self.assertEqual(run([self.print_sheets, EXAMPLES / (path + ".book")]), (LISTED, text.decode(), ""))
        path = EXAMPLES / "symphony.book"
        book, ways = path.read_bytes(), listed((EXAMPLES / "symphony.listing").read_bytes())[1]
        for place in 1, 2, 256: self.assertEqual(run([self.print_sheets, path, str(place)]), (LISTED, sheet_writer.sheets(book, book_reader.read(book), ways[place - 1]).decode(), ""))
        for place in 257, 999999999: self.assertEqual(run([self.print_sheets, path, str(place)]), (NOT_LISTED, "", "%s: no way %d: the last is way 256\n" % (path, place)))
        empty, none = EXAMPLES / "no-entries.book", EXAMPLES / "three-at-once.book"
        self.assertEqual(run([self.print_sheets, empty]), (LISTED, "", ""))
        self.assertEqual(run([self.print_sheets, empty, "2"]), (NOT_LISTED, "", "%s: no way 2: the last is way 1\n" % empty))
        for words in [], ["2"]: self.assertEqual(run([self.print_sheets, none, *words]), (NOT_LISTED, "", "%s: no way\n" % none))

    def test_spare(self):
        """Every pair of entries of some stored books, as the trial tells it; an entry outside 1 to E is refused, the first as the second."""
        kinds = set()
        for name in "document", "document-late", "opera", "touching", "mallets-too-short", "bells-to-cymbal", "free-parts", "no-entries":
            path = EXAMPLES / (name + ".book")
            text = path.read_bytes()
            book = book_reader.read(text)
            e, words = len(book.entries), ["%s (%d)" % (text[start:end].decode(), k) for k, (start, end) in enumerate(book.names, 1)]
            for i, j in itertools.product(range(1, e + 1), repeat=2):
                ticks = way_trial.spare(book, i, j)
                may = "may follow" if ticks is not None and ticks >= 0 else "may not follow"
                told = "%s %s %s: %s\n" % (words[j - 1], may, words[i - 1], "no move" if ticks is None else "spare %d" % ticks)
                self.assertEqual(run([self.tell_spare, path, str(i), str(j)]), (LISTED, told, ""))
                kinds.add((may, ticks is None))
            for pair in (0, 1), (1, 0), (e + 1, 1), (1, e + 1), (e + 1, 0), (999999999, 999999999):
                self.assertEqual(run([self.tell_spare, path, *map(str, pair)]), (NOT_LISTED, "", "%s: refused (19): the book has no entry of that number\n" % path))
        self.assertEqual(kinds, {("may follow", False), ("may not follow", False), ("may not follow", True)})

    def test_shown_spares(self):
        """The page on the C programs shows what tell_spare prints."""
        shown = re.findall(r"^    \$ target/examples/tell_spare (\S+) (\d+) (\d+)\n    (.*\n)", (ROOT / "examples/c/README.md").read_text(), re.M)
        for path, earlier, later, told in shown: self.assertEqual(run([self.tell_spare, ROOT / path, earlier, later]), (LISTED, told, ""))
        self.assertEqual([told.rpartition(" ")[2] for *_, told in shown], ["-240\n", "0\n", "120\n", "-1\n", "move\n"])

    def test_network(self):
        """The flows, prices and count of the transport problem are those of the search by trial, and so are the prices by the last flow shown."""
        names, balances = ["north", "south", "arena", "church", "opera"], [5, 4, -3, -3, -3]
        arcs = [(0, 2, 0, 3, 2), (0, 3, 0, 3, 3), (0, 4, 1, 3, 5), (1, 2, 0, 3, 3), (1, 3, 0, 3, 4), (1, 4, 0, 3, 4)]
        flows, cost = trial.full_list(balances, arcs)
        prices = [", ".join("%s %d" % p for p in zip(names, trial.prices(balances, arcs, f))) for f in flows]
        lines = ["cost %d" % cost, "prices: " + prices[0]]
        shown = ["flow %d: " % k + ", ".join("%s-%s %d" % (names[a[0]], names[a[1]], x) for a, x in zip(arcs, f)) for k, f in enumerate(flows, 1)]
        self.assertGreater(len(flows), 2)
        for words, count in ([], len(flows)), (["0"], 0), (["2"], 2), (["999999999"], len(flows)):
            last = ["prices by flow %d: %s" % (count, prices[count - 1])] if count else []
            self.assertEqual(run([self.solve_network, *words]), (LISTED, "\n".join(lines + shown[:count] + ["%d in all" % len(flows)] + last) + "\n", ""))


class Plain(Programs, unittest.TestCase):
    def test_valgrind(self):
        """A few runs with the library's own reads and writes watched: the status and the words are those without valgrind."""
        book = (EXAMPLES / "symphony.book").read_bytes()
        for command, data in ([self.list_ways, EXAMPLES / "ballet.book"], b""), ([self.list_ways, "-n", "3"], book), ([self.list_ways, EXAMPLES / "refused-14.book"], b""), \
                ([self.print_sheets, EXAMPLES / "ballet.book", "4"], b""), ([self.print_sheets, EXAMPLES / "no-entries.book"], b""), \
                *(([self.tell_spare, EXAMPLES / "opera.book", *pair], b"") for pair in (("1", "2"), ("4", "4"), ("8", "1"))), ([self.solve_network], b""):
            self.assertEqual(run(VALGRIND + command, data), run(command, data))

    def test_clang(self):
        """clang, where there is one, warns of nothing either."""
        if shutil.which("clang"):
            for program in PROGRAMS: compiled(program, self.folder / "other", "clang")


class Sanitized(Programs, unittest.TestCase):
    flags = SANITIZED


class Header(unittest.TestCase):
    def test_cpp(self):
        source = "#include <desk.h>\nint main() { return desk_first(nullptr, 0, nullptr, 0).code == 12 ? 0 : 1; }\n"
        subprocess.run(["g++", "-std=c++11", "-Wall", "-Wextra", "-Werror", "-pedantic", "-I", HEADER.parent, "-fsyntax-only", "-x", "c++", "-"], input=source.encode(), check=True)

    def test_needs(self):
        """The archive asks for these two functions from outside, and for nothing else."""
        needs = subprocess.run(["nm", "--undefined-only", "--format=just-symbols", desk_library.archive()], check=True, stdout=subprocess.PIPE, text=True).stdout.split()
        self.assertEqual(sorted(name for name in needs if not name.endswith(":")), ["memcpy", "memset"])

    def test_codes(self):
        """The codes of the header are those that the tests know."""
        codes = {name: int(number) for name, number in re.findall(r"^    DESK_(\w+) = (\d+)", HEADER.read_text(), re.M)}
        self.assertEqual(codes, {name: getattr(desk_library, name) for name in ("OK", "NONE", "END", "MORE", "NO_MOVE")})

    def test_limits(self):
        limits = {name: int(value) for name, value in re.findall(r"^#define DESK_(\w+) (\d+)$", HEADER.read_text(), re.M)}
        self.assertEqual(limits, {"BOOK_BYTES": book_reader.LONGEST, "ENTRIES": 28, "NODES": trial.NODES, "ARCS": trial.ARCS, "LISTING_ROOM": 16 + 1000 * 91 + 12, "SHEETS_ROOM": 28 * sheet_writer.MOST})


if __name__ == "__main__":
    unittest.main()
