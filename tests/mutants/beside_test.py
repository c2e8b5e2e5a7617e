#!/usr/bin/env python3
"""Tests what must-fail edits wait for beside a run of `rt ci`: lines as the kit writes them, one after the other.

    tests/mutants/beside_test.py"""

import sys
import tempfile
import unittest
from pathlib import Path

sys.path.insert(0, str(Path(__file__).resolve().parents[1]))
from lib.edits import beside

beside.EVERY = 0.01
PROVED = "== simplex_types\nrt: simplex_types proved\n"
KEPT = "rt: simplex_types is kept: an earlier run on this machine proved the same files over the same libraries\n"
REFUSED = "rt: simplex_types NOT PROVED\n"
TESTS_ALONE = "rt: simplex_types: its tests are proved\n"
ENDED = "the run has ended\n"


class Beside(unittest.TestCase):
    def unproved(self, *lines):
        with tempfile.TemporaryDirectory() as room:
            file = Path(room, "gate")
            file.write_text("".join(lines))
            return beside.Gate(file, 4).unproved(["simplex_types"])

    def test_a_proof_of_this_run_counts_and_so_does_one_that_is_kept(self):
        self.assertIsNone(self.unproved(PROVED, ENDED))
        self.assertIsNone(self.unproved(KEPT, ENDED))

    def test_what_is_refused_or_never_judged_is_unproved(self):
        self.assertEqual(self.unproved(REFUSED), "simplex_types")
        self.assertEqual(self.unproved(TESTS_ALONE, ENDED), "simplex_types")

    def test_a_run_is_at_work_until_its_last_line(self):
        with tempfile.TemporaryDirectory() as room:
            file = Path(room, "gate")
            gate = beside.Gate(file, 4)
            self.assertTrue(gate.is_at_work())
            file.write_text(PROVED)
            self.assertTrue(gate.is_at_work())
            file.write_text(PROVED + ENDED)
            self.assertFalse(gate.is_at_work())

    def test_without_a_run_nothing_is_waited_for(self):
        gate = beside.Gate(None, 4)
        self.assertIsNone(gate.unproved(["simplex_types"]))
        self.assertFalse(gate.is_at_work())


if __name__ == "__main__":
    unittest.main()
