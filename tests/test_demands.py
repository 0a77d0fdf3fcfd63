"""The demands are tied to the entries. An entry of crates/desk that promises nothing, and does nothing, is proved by itself; crates/demands, which calls
it, is then not proved, and with it the gate fails. The proof runs on a copy of the project. What C calls, crates/desk_c, promises the same word by word."""
import pathlib
import re
import shutil
import subprocess
import tempfile
import unittest

ROOT = pathlib.Path(__file__).parent.parent
DESK, EXPORTS = "crates/desk/src/lib.rt", "crates/desk_c/src/lib.rt"
# what an entry says that does nothing, by the type of its result
NOTHING = {"Reply": "call_reply::code_alone(101)", "Span": "Span { start: 0, length: 0 }", "u32": "0"}
ENTRY = re.compile(r'pub fn (\w+)\(.*?\) -> (\w+)\n    ensures \{.*?\n\{\n.*?\n\}\n', re.S)


def entries(source):
    """The function of each entry."""
    return {found[1]: found[0] for found in ENTRY.finditer(source)}


def weakened(entry):
    """An entry with the promise `result ≡ result`, and a body that does nothing."""
    head = entry[:entry.index("    ensures")]
    result = re.search(r"-> (\w+)\n$", head)[1]
    return head + "    ensures { result ≡ result }\n{\n    %s\n}\n" % NOTHING[result]


def callers(source):
    """The functions of crates/demands that call each entry."""
    found = {}
    for name, body in re.findall(r"^pub fn (\w+)\(.*?\n\{\n(.*?)\n\}\n", source, re.S | re.M):
        for entry in re.findall(r"desk::(\w+)\(", body): found.setdefault(entry, set()).add(name)
    return found


class Tie(unittest.TestCase):
    source = (ROOT / DESK).read_text()

    def copy(self):
        """A copy of the crates. rt takes what it built of them, their folders out/, from where it stands."""
        self.folder = tempfile.mkdtemp()
        self.addCleanup(shutil.rmtree, self.folder)
        shutil.copytree(ROOT / "crates", pathlib.Path(self.folder, "crates"), ignore=shutil.ignore_patterns("out"))
        shutil.copy(ROOT / "crates.txt", self.folder)

    def prove(self, names):
        """Proves crates/demands in the copy with these entries weakened: the status, the entries that were proved, the functions of demands that were not, and what rt said."""
        source = self.source.replace("ghost use", "ghost use Rattle.std.specs.Prelude.{◌≡◌};\nghost use", 1)
        for name in names: source = source.replace(entries(self.source)[name], weakened(entries(self.source)[name]))
        pathlib.Path(self.folder, DESK).write_text(source)
        run = subprocess.run(["rt", "check"], cwd=pathlib.Path(self.folder, "crates/demands"), stdout=subprocess.PIPE, stderr=subprocess.STDOUT, text=True)
        proved, failed = (set(re.findall(r"^fn %s: %s" % how, run.stdout, re.M)) for how in ((r"desk::(\w+)", "proved$"), (r"demands::(\w+)", "(?:not proved|no proof)")))
        return run.returncode, proved, failed, run.stdout

    def test_every_entry_is_called(self):
        """crates/demands calls every entry of crates/desk."""
        self.assertEqual(set(callers((ROOT / "crates/demands/src/lib.rt").read_text())), set(entries(self.source)))
        self.assertEqual(len(entries(self.source)), self.source.count("pub fn"))

    def test_exports(self):
        """crates/desk_c exports every entry of crates/desk with its parameters and its promise, word by word but for the layout, brings in the same names, and
        hands each call to the entry of that name."""
        exports = (ROOT / EXPORTS).read_text()
        flat = lambda text: re.sub(r",? \)", ")", re.sub(r"\( ", "(", " ".join(text.split())))
        uses = lambda source: re.findall(r"^(?:ghost )?use .*$", source, re.M)
        self.assertEqual(uses(exports), uses(self.source))
        for name, entry in entries(self.source).items():
            head = flat(entry[:entry.index("\n{\n")])
            handed = ", ".join(re.findall(r"(\w+): ", head[:head.index(") -> ")]))
            self.assertIn("#[unsafe(no_mangle)] %s { desk::%s(%s) }" % (head.replace("pub fn", 'pub extern "C" fn'), name, handed), flat(exports))
        self.assertEqual((exports.count("fn "), exports.count("#[unsafe(no_mangle)]")), (len(entries(self.source)),) * 2)

    def test_weakened(self):
        """`next` of a network that always says "end"; then every entry at once: whatever calls a weakened entry is not proved, and nothing else fails."""
        calls = callers((ROOT / "crates/demands/src/lib.rt").read_text())
        self.copy()
        for names in (["desk_network_next"], list(entries(self.source))):
            status, proved, failed, told = self.prove(names)
            self.assertEqual((status, proved, failed), (1, set(entries(self.source)), set().union(*(calls[name] for name in names))), told)


if __name__ == "__main__":
    unittest.main()
