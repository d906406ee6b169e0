"""Estimates of the time of a build, and the order of its proofs."""
import unittest

from progress import BUSY, SPEED, Estimate, chains, in_words
from shared import TOP, load_script, text_of

BELOW = {"low": set(), "side": set(), "middle": {"low"}, "top": {"low", "side", "middle"}}
WEIGHTS = {"low": 150, "side": 30, "middle": 300, "top": 60}


class Estimates(unittest.TestCase):
    def test_a_chain_is_the_longest_way_up(self):
        self.assertEqual(chains(BELOW, WEIGHTS), {"top": 60, "middle": 360, "side": 90, "low": 510})

    def test_the_chain_or_all_processors_bound_the_time(self):
        self.assertAlmostEqual(Estimate(BELOW, WEIGHTS, 4).whole, 510 / SPEED)
        self.assertAlmostEqual(Estimate(BELOW, WEIGHTS, 1).whole, 540 / BUSY)

    def test_the_pace_of_the_run_moves_the_estimate(self):
        estimate = Estimate(BELOW, WEIGHTS, 4)
        as_measured = estimate.left(100, {"low", "side"}, {})
        self.assertAlmostEqual(as_measured, 360 / SPEED)
        self.assertGreater(estimate.left(300, {"low", "side"}, {}), 2 * as_measured)
        self.assertLess(estimate.left(20, {"low", "side"}, {}), 0.6 * as_measured)

    def test_what_runs_counts_in_part_and_what_is_done_in_whole(self):
        estimate = Estimate(BELOW, WEIGHTS, 4)
        lefts = [estimate.left(100, {"low", "side"}, {"middle": since}) for since in (0, 50, 100, 1000)]
        self.assertEqual(lefts, sorted(lefts, reverse=True))
        self.assertEqual(len(set(lefts)), 4)
        self.assertGreater(lefts[-1], 0)
        self.assertEqual(estimate.left(400, set(WEIGHTS), {}), 0)

    def test_times_are_in_words(self):
        self.assertEqual(
            [in_words(it) for it in (1500, 90, 60, 10)],
            ["about 25 min left", "about 2 min left", "about a minute left", "less than a minute left"],
        )


class Weights(unittest.TestCase):
    def setUp(self):
        self.build, self.rt = load_script("build"), load_script("rt").toolchain()
        top = self.rt.rtlib.Crate(f"{TOP}/crates/jentry", TOP, {})
        self.crates = {it.name: it for it in [*top.below(), top]}

    def test_each_crate_has_a_weight_and_each_measured_one_is_a_crate(self):
        weights = self.build.weights_of(self.rt, self.crates.values())
        self.assertEqual(set(weights), set(self.crates))
        self.assertGreater(min(weights.values()), 0)
        rows = [
            line.split()[0] for line in text_of(f"{TOP}/bin/proof-seconds").splitlines() if not line.startswith("#")
        ]
        self.assertGreater(len(rows), 20)
        self.assertEqual(set(rows) - set(self.crates), set())

    def test_a_crate_without_a_measure_is_weighed_by_its_lines(self):
        bench = self.rt.rtlib.Crate(f"{TOP}/crates/bench", TOP, {})
        weights = self.build.weights_of(self.rt, [self.crates["machine"], bench])
        lines = {it.name: self.build.lines_of(self.rt, it) for it in (self.crates["machine"], bench)}
        self.assertAlmostEqual(weights["bench"], 1 + weights["machine"] * lines["bench"] / lines["machine"])

    def test_memory_is_what_was_measured_with_a_margin(self):
        """A crate that wasn't measured needs what rt estimates."""
        bench = self.rt.rtlib.Crate(f"{TOP}/crates/bench", TOP, {})
        needs = self.build.needs_of(self.rt, [self.crates["verify"], bench])
        took = self.build.measured()["verify"][1]
        self.assertGreater(took, 500_000_000)
        self.assertEqual(needs, {"verify": self.build.MARGIN * took, "bench": self.rt.need(bench)})

    def test_slots_is_urgent_beside_what_runs_when_it_can_begin(self):
        """slots can start once verdict is proved, together with soundness and vmcode; machine needs all of them."""
        weights = self.build.weights_of(self.rt, self.crates.values())
        longest = chains({name: {it.name for it in crate.below()} for name, crate in self.crates.items()}, weights)
        beside = max(longest[it] for it in ("slots", "soundness", "vmcode", "explain"))
        self.assertGreaterEqual(longest["slots"], self.build.URGENT * beside)
