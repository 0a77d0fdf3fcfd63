"""Questions 1 to 6: the reader at every limit, and desk_network_count beside it on thousands of damaged networks. Deterministic."""
import random
import unittest

import network_library
import trial
from flow_networks import damaged, limits


class Questions(unittest.TestCase):
    def test_limits(self):
        """The reader refuses what document 01 refuses. test_network_calls puts the same networks to every entry."""
        for name, net, verdict in limits():
            with self.subTest(name): self.assertEqual(trial.refusal(*net), verdict)

    def test_damaged(self):
        desk, seen = network_library.load(), {}
        for net in damaged(random.Random(20261115), 20000):
            (code, value), wanted = desk.count(net, 0), trial.refusal(*net)
            self.assertEqual(code if code in range(1, 7) else 0, wanted, net)
            seen[wanted] = seen.get(wanted, 0) + 1
        self.assertTrue(all(seen[question] > 50 for question in range(7)), seen)


if __name__ == "__main__":
    unittest.main()
