"""The documents, .editorconfig and the tools of the edit loop: links, the book and listing that the documents show, the limits, questions and widths of docs/RULE.md,
the layout of every text, tools/seconds and tools/dev on what rt prints."""
import fnmatch
import importlib.machinery
import importlib.util
import pathlib
import re
import subprocess
import unittest

ROOT = pathlib.Path(__file__).resolve().parent.parent
EXAMPLES = ROOT / "examples"


def tool(name):
    loader = importlib.machinery.SourceFileLoader(name, str(ROOT / "tools" / name))
    module = importlib.util.module_from_spec(importlib.util.spec_from_loader(name, loader))
    loader.exec_module(module)
    return module


seconds, dev = tool("seconds"), tool("dev")


def texts():
    """Every file that git has; where git cannot tell, every file but those that are made."""
    try:
        names = subprocess.run(["git", "ls-files", "-z"], cwd=ROOT, check=True, capture_output=True, text=True).stdout.split("\0")
    except (OSError, subprocess.CalledProcessError):
        names = [path.relative_to(ROOT) for path in ROOT.rglob("*") if not {".git", "target", "out", "__pycache__"} & set(path.relative_to(ROOT).parts)]
    return [ROOT / name for name in names if (ROOT / name).is_file()]


def documents():
    return [path for path in texts() if path.suffix == ".md"]


def styles():
    """The sections of .editorconfig, in order: (pattern, its settings)."""
    found = []
    for line in (ROOT / ".editorconfig").read_text().split("\n"):
        section, setting = re.match(r"\[(.+)\]$", line), re.match(r"(\w+) = (\S+)$", line)
        if section: found.append((section[1], {}))
        elif setting and found: found[-1][1][setting[1]] = setting[2]
    return found


class Documents(unittest.TestCase):
    def test_links(self):
        for path in documents():
            for target in re.findall(r"\]\(([^)#:]+)\)", path.read_text()):
                self.assertTrue((path.parent / target).exists(), f"{path.relative_to(ROOT)}: {target}")

    def test_tables(self):
        """A row stands beneath its table's head: nothing parts a table."""
        for path in documents():
            lines = ["", *path.read_text().split("\n")]
            for k, (before, line) in enumerate(zip(lines, lines[1:]), 1):
                if re.match(r" *\|", line) and not re.match(r" *\|", before): self.assertRegex(lines[k + 1], r"^ *\|[-|: ]+\|$", "%s:%d" % (path, k))

    def test_example(self):
        """The book that the rule and ways(1) show is the stored one, with its listing, which the header shows too, and, where the rule shows them, sheets of it."""
        book, listing, *sheets = re.findall(r"^```\n(.*?)^```$", (ROOT / "docs/RULE.md").read_text(), re.M | re.S)
        self.assertEqual(book, (EXAMPLES / "document.book").read_text())
        self.assertEqual(listing, (EXAMPLES / "document.listing").read_text())
        for before, path in ("    ", "README.md"), (" *   ", "include/desk.h"):
            self.assertIn("".join(before + line for line in listing.splitlines(True)), (ROOT / path).read_text())
        for text in (book, listing): self.assertIn(".nf\n%s.fi\n" % text, (ROOT / "packaging/ways.1.in").read_text())
        for text in sheets: self.assertIn(text, [path.read_text() for path in EXAMPLES.glob("document-[12].sheets")])

    def test_questions(self):
        """The rule has each question once, in order, and names every entry, code and limit of the header."""
        rule, header = (ROOT / "docs/RULE.md").read_text(), (ROOT / "include/desk.h").read_text()
        self.assertEqual([int(number) for number in re.findall(r"^\| (\d+) \| (?:[A-Z].*\?) \|", rule, re.M)], [*range(1, 9), *range(11, 20), 21])
        for entry in re.findall(r"^desk_\w+ (desk_\w+)\(|^uint32_t (desk_\w+)\(", header, re.M): self.assertIn("`%s`" % "".join(entry), rule)
        for code in re.findall(r"^    DESK_[A-Z_]+ = (\d+)", header, re.M): self.assertRegex(rule, r"(?m)^\| %s \| " % code)
        for limit in re.findall(r"^#define DESK_[A-Z_]+ (\d+)$", header, re.M): self.assertIn(f"{int(limit):,}", rule)

    def test_definitions(self):
        """What a line of the rule names beside files of definitions is defined in one of them."""
        missing = []
        for line in (ROOT / "docs/RULE.md").read_text().split("\n"):
            paths = re.findall(r"crates/\w+/(?:specs|proofs)/\w+\.antt", line)
            sources = "\n".join((ROOT / path).read_text() for path in paths)
            for name in re.findall(r"`([\w<>?◌-]+)`", line) if paths else ():
                if not re.search(rf"^ *(?:(?:abbrev|unfoldable) )?(?:pub )?(?:record |data )?{re.escape(name)} ", sources, re.M): missing.append((name, paths))
        self.assertEqual(missing, [])

    def test_widths(self):
        """As the rule says, the sums of the price search are no wider than 32 bits, those of the search for a negative cycle 64. Of the price search
        nothing is wider but an index: of an arc, or of a label where it is read or written."""
        self.assertIn("sums of costs are signed 64-bit, but those of the price search signed 32-bit", (ROOT / "docs/RULE.md").read_text())
        prices, relax = [(ROOT / "crates" / crate / "src/lib.rt").read_text() for crate in ("flow_prices", "flow_relax")]
        indices = re.compile(r"\ba: usize\b|\blabels\[usize::from\([uv]\)\]")
        wide = re.compile(r"[iu](?:64|128|size)\b")
        self.assertEqual(wide.findall(indices.sub("", prices)), [])
        self.assertIn("i64", wide.findall(relax))

    def test_layout(self):
        """Every text is as .editorconfig says."""
        rules = styles()
        self.assertEqual([pattern for pattern, style in rules], ["*", "*.antt", "*.edit", "Makefile"])
        for path in texts():
            style = {}
            for pattern, more in rules:
                if fnmatch.fnmatch(path.name, pattern): style |= more
            text, name = path.read_bytes().decode(style["charset"]), str(path.relative_to(ROOT))
            self.assertNotIn("\r", text, name)
            self.assertTrue(not text or text.endswith("\n"), name)
            if style["trim_trailing_whitespace"] == "true": self.assertIsNone(re.search(r"[ \t]$", text, re.M), name)
            if style["indent_style"] == "space": self.assertNotIn("\t", text, name)
            if path.suffix in (".rt", ".antt"):
                self.assertEqual([line for line in text.split("\n") if (len(line) - len(line.lstrip(" "))) % int(style["indent_size"])], [], name)


# lines as `rt ci` prints them, each with the second at which it comes
GATE = [(second, line) for second, lines in ((4, """== flow_clamp
fn flow_clamp::clamped: proved
logic=proved functions=2 sum=097e4c862dff5811 native=nat,char,string logic-built=trusted libraries-built=trusted
rt: flow_clamp proved
rt: laws is kept: an earlier run on this machine proved the same files over the same libraries"""), (21, """rt: desk proved
rt: flow_clamp: trying its must-fail edits (2)
rt: flow_clamp: its tests are proved"""), (30, """rt: demands NOT PROVED
rt: must-fail flow_clamp/above_the_upper_bound.edit: refused, as it must be: note: src/lib.rt:24:5: it is not proved
rt: must-fail flow_clamp/leaves_the_first_arc.edit: refused, as it must be
rt: must-fail desk/no_refusal.edit: NOT REFUSED: the crate is still proved with this edit
rt: must-fail desk/gone.edit: BAD EDIT: an 'old:' text is in src/lib.rt 0 times, and not once
rt: ways ran, and wrote what its file stdout has
rt: FAILED: demands desk/no_refusal.edit
5 passed, 2 failed""")) for line in lines.split("\n")]
TABLE = """seconds
      4  flow_clamp
     21  desk
     21  flow_clamp (tests)
     30  demands
     31  in all, 4 crates proved, 2 must-fail edits refused
"""


class Seconds(unittest.TestCase):
    def test_table(self):
        self.assertEqual(seconds.table(*seconds.measured(GATE), 31), TABLE)

    def test_nothing(self):
        self.assertEqual(seconds.measured([(0, "rt: laws is kept: an earlier run on this machine proved the same files over the same libraries"), (0, "0 passed, 0 failed")]), ([], []))


# lines as `rt check --allow-holes` prints them
CHECK = """rt: chose --jobs 2 for flow_clamp
./proofs/write_within/Answers.antt:3:5: `same-length` is not admitted: has-holes
./proofs/write_within/Answers.antt:4:17: goal ? in `same-length`
    c : goal.After-loop Rattle.flow_clamp.proofs.write_within.Invariants.invariant-loop
  ⊢ mathlib.Core.Path.◌≡◌ (lib.ListN.length c.loop.flow) (length c.args.flow.now)
  names you can use, by step:
    c: .lifetimes, .well_formed, .requires
    c.args: .flow {.ref_ptr, .now}
  the newest fields, with their types:
    c.requires : Unit {0}
note: src/lib.rt:24:5: it is not proved that what the function ensures holds when it returns (`returns`)
fn flow_clamp::clamped: no proof: expected answers in ./proofs/clamped/Answers.antt; `search` did not prove `returns`
help: write ./proofs/clamped/Answers.antt with these lines, and check again: each hole's goal is what is left to show there
    use Rattle.flow_clamp.proofs.clamped.Goals as goal

    -- src/lib.rt:24:5
    pub returns : goal.returns
    returns c = ?
note: `returns` of proofs/clamped/Answers.antt must prove: c.max.result ≡ c.args.low
  names you can use, by step:
  | c: .lifetimes, .requires
  | c.args: .low
fn flow_clamp::write_within: depends on a hole in `Rattle.flow_clamp.proofs.write_within.Answers.same-length`
crate flow_clamp: modules loaded=112 checked=9
holes=1
"""


class Dev(unittest.TestCase):
    lines = CHECK.split("\n")

    def test_summary(self):
        self.assertEqual(list(dev.summary(self.lines)), [
            "fn flow_clamp::clamped: no proof: expected answers in ./proofs/clamped/Answers.antt; `search` did not prove `returns`",
            "fn flow_clamp::write_within: depends on a hole in `same-length`"])

    def test_goals(self):
        goal = ["./proofs/write_within/Answers.antt:4:17: goal ? in `same-length`", "    c : goal.After-loop invariant-loop",
                "  ⊢ ◌≡◌ (length c.loop.flow) (length c.args.flow.now)"]
        self.assertEqual(list(dev.goals(self.lines, "")), goal)
        self.assertEqual(list(dev.goals(self.lines, "same-length")), goal)
        self.assertEqual(list(dev.goals(self.lines, "returns")), [])

    def test_skeletons(self):
        self.assertEqual(list(dev.skeletons(self.lines)), [(pathlib.Path("proofs/clamped/Answers.antt"),
            "use Rattle.flow_clamp.proofs.clamped.Goals as goal\n\n-- src/lib.rt:24:5\npub returns : goal.returns\nreturns c = ?\n")])

    def test_places(self):
        self.assertEqual(list(dev.places(self.lines, "write_within")), [
            "./proofs/write_within/Answers.antt:4:17: goal ? in `same-length`", "    c: .lifetimes, .well_formed, .requires", "    c.args: .flow {.ref_ptr, .now}"])
        self.assertEqual(list(dev.places(self.lines, "clamped")), [
            "note: `returns` of proofs/clamped/Answers.antt must prove: c.max.result ≡ c.args.low", "    c: .lifetimes, .requires", "    c.args: .low"])


if __name__ == "__main__":
    unittest.main()
