"""The solver of wide networks beside the search by trial."""
import random
import unittest

import flow_solver
import trial
from desk_library import numbers
from flow_networks import small, wide
from network_library import network


class FlowSolver(unittest.TestCase):
    def test_lines(self):
        """First, each line after another, and the count: those that are tried."""
        rng, lengths = random.Random(31), set()
        for _ in range(150):
            balances, arcs = small(rng)
            lines, cost = trial.full_list(balances, arcs)
            lines = lines[:12]
            self.assertEqual(flow_solver.first(balances, arcs), lines[0] if lines else None)
            for line, after in zip(lines, lines[1:]): self.assertEqual(flow_solver.following(balances, arcs, line), after)
            lengths.add(len(lines))
            if 0 < len(lines) < 12:
                self.assertIsNone(flow_solver.following(balances, arcs, lines[-1]))
                self.assertEqual(flow_solver.narrowed(balances, arcs), [(t, h, min(f[a] for f in lines), max(f[a] for f in lines), c) for a, (t, h, l, u, c) in enumerate(arcs)])
        self.assertTrue({0, 1, 2, 3, 4, 12} <= lengths, lengths)

    def test_reader(self):
        """The two readers answer alike, whatever is given."""
        rng, codes = random.Random(32), set()
        for _ in range(150):
            net = network(*small(rng))
            tried, solved = trial.Reader(*net), flow_solver.Reader(*net)
            m = tried.m
            lent, room = rng.randbytes(4 * m + 4), rng.randbytes(4 * tried.n)
            self.assertEqual(tried.first(lent, room), solved.first(lent, room))
            for given in [*tried.lines[:3], *tried.lines[-1:], *(numbers([rng.randint(0, 3) for _ in range(m)]) for _ in range(4)), b"\0" * (4 * m + 4)]:
                if given in tried.place: tried.finger = tried.place[given]
                answer = tried.next(given, lent)
                self.assertEqual(answer, solved.next(given, lent))
                self.assertEqual(tried.priced(given, room), solved.priced(given, room))
                codes.add(answer[0][0])
            for cap in (0, 1, 5, 65535): self.assertEqual(tried.count(cap), solved.count(cap))
        self.assertEqual(codes, {trial.Reader.OK, trial.Reader.END, trial.Reader.WRONG})

    def test_is_first(self):
        """The flow found is first by the other test of that, on wide networks too."""
        rng = random.Random(33)
        for _ in range(60):
            balances, arcs = wide(rng)
            flow = flow_solver.first(balances, arcs)
            self.assertTrue(trial.is_first(balances, arcs, flow))


if __name__ == "__main__":
    unittest.main()
