"""The tools that ./test runs over the sources, on what they must find: contracts that say too little or too much in a line, chains of `.before` in a proof, names in a document that the project does not have."""
import importlib.machinery
import importlib.util
import pathlib
import unittest

TOOLS = pathlib.Path(__file__).parent.parent / "tools"


def tool(name):
    loader = importlib.machinery.SourceFileLoader(name, str(TOOLS / name))
    module = importlib.util.module_from_spec(importlib.util.spec_from_loader(name, loader))
    loader.exec_module(module)
    return module


contracts, chains, names = tool("contracts"), tool("chains"), tool("names")

ENTRY = """
#[unsafe(no_mangle)]
pub extern "C" fn copy(from: &[u8], to: &mut [u8]) -> usize
    %s
{
    0
}
"""
SAID = "ensures { Copies from.now to.old result to.new }"


def told(contract):
    """What is found wrong in an entry with this contract."""
    return [fault for name, entry, head in contracts.public_functions(ENTRY % contract) for fault in contracts.faults(head, entry)]


class Contracts(unittest.TestCase):
    def test_enough(self):
        self.assertEqual(told(SAID), [])

    def test_too_little(self):
        for contract, fault in (
            ("", ["has no ensures"]),
            ("requires { 0 ≤ length to.old }\n    " + SAID, ["has a requires"]),
            (SAID.replace(" result", ""), ["does not name its result"]),
            (SAID.replace("to.new", "to.old"), ["does not say what to then holds"]),
            ("ensures { to.new ≡ to.new }", ["does not name its result", "says that to.new is to.new"]),
            ("ensures same { result ≡ result }\n    ensures list { to.new ≡ to.old }", ["says that result is result"]),
        ):
            self.assertEqual(told(contract), fault, contract)

    def test_result(self):
        """A function that hands back nothing, and a method whose contract leaves its result out."""
        head = "pub fn clear(list: &mut [u8])\n    ensures { list.new ≡ zeros }\n{"
        self.assertEqual(list(contracts.faults(head, False)), [])
        head = "    pub fn cost(self) -> u32\n        ensures { self.cost ≡ 3 }\n    {"
        self.assertEqual(list(contracts.faults(head, False)), ["does not name its result"])

    def test_long_lines(self):
        """Lines of a contract, of a private function too; not of the code or of a comment."""
        said = lambda n: "    ensures { ".ljust(n - 2, "r") + " }"
        source = "fn f() -> u32\n%s\n{\n    // %s\n    0\n}\n"
        self.assertEqual(list(contracts.long_lines(source % (said(200), "r" * 300))), [])
        self.assertEqual(list(contracts.long_lines(source % (said(201), ""))), [(2, 201)])
        self.assertEqual(list(contracts.long_lines(source % ("    requires {\n" + "r" * 250 + " }", ""))), [(3, 252)])


NEED = "returns : goal.returns\nreturns c = c%s.requires\n"
HEAD = "-- the entry\nabbrev begin : goal.Loop → goal.Start\nbegin c =\n    c%s\n\n"


class Chains(unittest.TestCase):
    def test_chains(self):
        five, six = ".before" * 5, ".before" * 6
        self.assertEqual(list(chains.long_chains(NEED % five)), [])
        self.assertEqual(list(chains.long_chains("-- c%s\n" % six + NEED % six)), [(3, 6)])
        self.assertEqual(list(chains.long_chains(NEED % (five + "\n   " + five))), [(2, 10)])
        self.assertEqual(list(chains.long_chains(NEED % (five + ".loop" + five))), [])

    def test_head(self):
        """An abbreviation at the head may hold a chain; one behind a need may not, and a lemma may not."""
        long = ".before" * 20
        self.assertEqual(list(chains.long_chains(HEAD % long + NEED % "")), [])
        self.assertEqual(list(chains.long_chains("module _ (t : ℕ) where\n" + (HEAD % long).replace("\n", "\n  "))), [])
        self.assertEqual(list(chains.long_chains(NEED % "" + HEAD % long)), [(6, 20)])
        self.assertEqual(list(chains.long_chains(HEAD.replace("abbrev ", "") % long)), [(4, 20)])


class Names(unittest.TestCase):
    def test_missing(self):
        known = names.words()
        text = "`run_is_read`, `desk_first`, crates/laws/specs/Run.antt, flow_order/end_untried, crates/call_reply/must-fail/ (says_end, cost_zero: a word)"
        self.assertEqual(list(names.missing(text, known)), [])
        wrong = "`run_is_" + "written`, crates/laws/specs/Runs.antt, flow_order/end_tried, crates/call_reply/must-fail/ (says_nothing, cost_zero)"
        self.assertEqual(list(names.missing(wrong, known)), ["`run_is_" + "written`: run_is_" + "written", "crates/laws/specs/Runs.antt", "crates/call_reply/must-fail/says_nothing", "flow_order/end_tried"])


if __name__ == "__main__":
    unittest.main()
