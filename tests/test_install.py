"""The Makefile: what it installs and takes away again, and that a C program and a person find all they need there."""
import os
import pathlib
import re
import subprocess
import tempfile
import unittest

from desk_library import ROOT, make
from test_c_programs import EXAMPLES, HEADER, STRICT, listed, printed, run
from test_way_trial import examples

FILES = ["bin/ways", "include/desk.h", "lib/libdesk.a", "lib/pkgconfig/desk.pc", "share/man/man1/ways.1", "share/man/man3/desk.3"]
MANUALS = FILES[-2:]
VERSION = re.search(r'^#define DESK_VERSION "([0-9.]+)"$', HEADER.read_text(), re.M)[1]


def files(folder):
    return sorted(str(p.relative_to(folder)) for p in folder.rglob("*") if not p.is_dir())


class Install(unittest.TestCase):
    @classmethod
    def setUpClass(cls):
        dir = tempfile.TemporaryDirectory()
        cls.addClassCleanup(dir.cleanup)
        cls.folder = pathlib.Path(dir.name)
        cls.prefix, cls.stage = cls.folder / "prefix", cls.folder / "stage"
        make("install", "PREFIX=%s" % cls.prefix)
        make("install", "PREFIX=/usr", "DESTDIR=%s" % cls.stage, "libdir=/usr/lib/here")

    def test_files(self):
        """These files and no others, the program alone to be run."""
        self.assertEqual(files(self.prefix), FILES)
        self.assertEqual([f for f in FILES if os.access(self.prefix / f, os.X_OK)], ["bin/ways"])
        self.assertEqual((self.prefix / "include/desk.h").read_bytes(), HEADER.read_bytes())
        self.assertEqual((self.prefix / "lib/libdesk.a").read_bytes(), (ROOT / "target/staticlib/libdesk.a").read_bytes())

    def test_stage(self):
        """DESTDIR goes before every path and into no file."""
        self.assertEqual(files(self.stage), sorted("usr/" + f.replace("lib/", "lib/here/") for f in FILES))
        for f in files(self.stage): self.assertNotIn(str(self.folder).encode(), (self.stage / f).read_bytes(), f)
        self.assertIn("\nlibdir=/usr/lib/here\n", (self.stage / "usr/lib/here/pkgconfig/desk.pc").read_text())

    def test_pkg_config(self):
        """A program is compiled by what pkg-config says, of the installed library and of the staged one, and lists ways."""
        wanted = listed((EXAMPLES / "ballet.listing").read_bytes())
        installed = {"PKG_CONFIG_PATH": self.prefix / "lib/pkgconfig"}
        staged = {"PKG_CONFIG_PATH": self.stage / "usr/lib/here/pkgconfig", "PKG_CONFIG_SYSROOT_DIR": self.stage}
        for place in installed, staged:
            words = subprocess.run(["pkg-config", "--cflags", "--libs", "desk"], env=os.environ | place, check=True, stdout=subprocess.PIPE, text=True).stdout.split()
            program, strict = self.folder / "list_ways", [w for w in STRICT if w not in ("-I", HEADER.parent)]
            subprocess.run(["cc", *strict, "-o", program, ROOT / "examples/c/list_ways.c", *words], check=True)
            status, out, complaint = run([program, EXAMPLES / "ballet.book"])
            self.assertEqual((status, printed(out, (EXAMPLES / "ballet.book").read_bytes()), complaint), (0, wanted, ""))

    def test_version(self):
        """The header's version, and no other, is in all that says one; it is the last of CHANGELOG.md."""
        told = subprocess.run(["pkg-config", "--modversion", "desk"], env=os.environ | {"PKG_CONFIG_PATH": self.prefix / "lib/pkgconfig"}, check=True, stdout=subprocess.PIPE, text=True).stdout
        self.assertEqual(told, VERSION + "\n")
        self.assertEqual(re.search(r"^## (.*)$", (ROOT / "CHANGELOG.md").read_text(), re.M)[1], VERSION)
        for f in MANUALS: self.assertIn(' "Rutcurfew %s" ' % VERSION, (self.prefix / f).read_text().split("\n")[0])
        for f in MANUALS + ["lib/pkgconfig/desk.pc"]: self.assertNotIn("@", (self.prefix / f).read_text())

    def test_program(self):
        """The installed program prints the stored listings."""
        for name, book, listing in examples():
            self.assertEqual(run([self.prefix / "bin/ways"], book), (0, listing.decode(), ""), name)

    def test_manuals(self):
        """Both pages are rendered without a warning."""
        for f in MANUALS:
            self.assertEqual(run(["groff", "-man", "-ww", "-z", self.prefix / f]), (0, "", ""))
            status, page, complaint = run(["env", "LC_ALL=C.UTF-8", "MANWIDTH=80", "man", "--warnings", "-l", self.prefix / f])
            self.assertEqual((status, complaint), (0, ""))
            self.assertIn("Rutcurfew " + VERSION, page)

    def test_prototypes(self):
        """desk(3) has the declarations of the header, word by word."""
        page = (self.prefix / "share/man/man3/desk.3").read_text()
        synopsis = page[page.index(".SH SYNOPSIS"):page.index(".SH DESCRIPTION")]
        shown = re.sub(r'^\.(BI?|PP|nf|fi|SH)|["\s]', "", synopsis, flags=re.M)
        text = re.sub(r"/\*.*?\*/", "", HEADER.read_text(), flags=re.S)
        declared = re.findall(r"^typedef struct \{.*?\} \w+;|^\w+ desk_\w+\(.*?\);", text, re.M | re.S)
        self.assertEqual(len(declared), 16)
        self.assertEqual(shown, "SYNOPSIS#include<desk.h>" + re.sub(r"\s", "", "".join(declared)))

    def test_listing_room(self):
        """The room for the longest listing is one number: in the header, in the library, where it is proved, and in desk(3)."""
        room = re.search(r"^#define DESK_LISTING_ROOM (\d+)$", HEADER.read_text(), re.M)[1]
        library, page = ROOT / "crates/call_listing/src/lib.rt", self.prefix / "share/man/man3/desk.3"
        self.assertEqual(re.findall(r"^pub const LISTING_ROOM: usize = (\d+);$", library.read_text(), re.M), [room])
        self.assertEqual(re.findall(r"^\.B DESK_LISTING_ROOM\n\((\d+)\) bytes", page.read_text(), re.M), [room])

    def test_sheets_room(self):
        """The room in which the sheets of any way fit is one number, in the header and in desk(3)."""
        room = re.search(r"^#define DESK_SHEETS_ROOM (\d+)$", HEADER.read_text(), re.M)[1]
        page = (self.prefix / "share/man/man3/desk.3").read_text()
        self.assertEqual(re.findall(r"at most (\d+) for each entry, so at most\n\.B DESK_SHEETS_ROOM\n\((\d+)\)\.$", page, re.M), [(str(int(room) // 28), room)])

    def test_build(self):
        """Installing builds what is not there, the library first and the program after it."""
        told = make("-n", "-W", "crates.txt", "install", "DESTDIR=%s" % self.folder)
        places = [told.index(words) for words in ("cd crates/desk_c && rt lib\n", "cd crates/ways && rt run ", "install -d ")]
        self.assertEqual(places, sorted(places))

    def test_uninstall(self):
        """Nothing that was installed stays, and nothing else goes."""
        with tempfile.TemporaryDirectory() as dir:
            stage = pathlib.Path(dir)
            make("install", "DESTDIR=" + dir)
            (stage / "usr/local/lib/libother.a").write_bytes(b"")
            self.assertEqual(len(files(stage)), len(FILES) + 1)
            make("uninstall", "DESTDIR=" + dir)
            self.assertEqual(files(stage), ["usr/local/lib/libother.a"])

    def test_examples(self):
        make("examples")
        self.assertEqual(run([ROOT / "target/examples/solve_network"])[0], 0)
        self.assertEqual(run([ROOT / "target/examples/list_ways", EXAMPLES / "document.book"])[0], 0)
        self.assertEqual(run([ROOT / "target/examples/print_sheets", EXAMPLES / "document.book"])[0], 0)
        self.assertEqual(run([ROOT / "target/examples/tell_spare", EXAMPLES / "document.book", "1", "2"])[0], 0)


if __name__ == "__main__":
    unittest.main()
