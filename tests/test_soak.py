"""A round of the soak (tests/run --soak) with a fixed seed."""
import unittest

import soak


class Soak(unittest.TestCase):
    def test_round(self):
        soak.play(1)

    def test_seed(self):
        """A seed gives the same round again, and another seed another."""
        rounds = [soak.Round(seed).rng.randbytes(8) for seed in (1, 1, 2)]
        self.assertEqual([rounds[0] == rounds[1], rounds[0] == rounds[2]], [True, False])


if __name__ == "__main__":
    unittest.main()
