"""The networks of document 01, as listed in networks.txt, beside the search by trial."""
import pathlib
import unittest

import trial

LIST = pathlib.Path(__file__).with_name("networks.txt")


def networks():
    """Each network of the list: name, balances, arcs, cost, flows, prices."""
    text = "\n".join(l for l in LIST.read_text().split("\n") if not l.startswith("#"))
    for block in (b.strip() for b in text.split("\n\n")):
        if not block: continue
        name, *lines = block.split("\n")
        words = [(l.split()[0], tuple(map(int, l.split()[1:]))) for l in lines]
        one = lambda key: next((v for k, v in words if k == key), None)
        every = lambda key: [v for k, v in words if k == key]
        assert {k for k, v in words} <= {"balances", "arc", "none", "cost", "flow", "prices"}, name
        yield name, one("balances"), every("arc"), (one("cost") or (0,))[0], every("flow"), one("prices")


class Networks(unittest.TestCase):
    def test_all_are_there(self):
        self.assertEqual(len(list(networks())), 9)

    def test_trial(self):
        for name, balances, arcs, cost, flows, prices in networks():
            with self.subTest(name):
                self.assertEqual(trial.full_list(balances, arcs), (flows, cost))
                if flows:
                    self.assertEqual(trial.prices(balances, arcs, flows[0]), list(prices))

    def test_is_first(self):
        for name, balances, arcs, cost, flows, prices in networks():
            with self.subTest(name):
                everything = list(trial.flows(balances, arcs))
                self.assertEqual([f for f in everything if trial.is_first(balances, arcs, f)], flows[:1])


if __name__ == "__main__":
    unittest.main()
