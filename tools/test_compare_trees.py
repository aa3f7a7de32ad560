"""Tests of tools/compare-trees and tools/tree_counts.py: run with python3 tools/test_compare_trees.py. They need neither rt nor
the oracle."""
import pathlib
import sys
import tempfile
import unittest

sys.dont_write_bytecode = True
import scripts

import recording
import tree_counts

compare_trees = scripts.load("compare-trees")

SAID = (
    "9 recorded, 5 trees (4 written, 3 of them for a batch, 1 without room), 2 read back in both modes, 2 too deep, 1 too long, "
    "1 refused for the root, 3 for a row (kind: 0, mark: 0, unused: 1, missing: 0, later: 0, next: 0, outside: 0, twice: 1, slot: 0, "
    "several: 1)"
)
READ = (
    "3 recorded, {} strict, 2 by model and original, 1 by the model alone (1: 0, 2: 1, 3: 0, 4: 0, 30: 0), "
    "0 with rows enough, wrong signs by form (call: 0, while: 0, foreach: 0, finally: 0)"
)
RETRACED = "9 retraced, 0 differing"
REPLAYED = "3 replayed, 0 differing, 0 skipped"


def shell(text):
    return ["sh", "-c", text]


def saying(said):
    return f"cat; echo '{said}' >&2"


def part(
    record=f"echo records; echo '{SAID}' >&2",
    retrace=f"cat >/dev/null; echo '{RETRACED}'",
    old=saying(READ.format(0)),
    strict=saying(READ.format(3)),
    replay=f"cat >/dev/null; echo '{REPLAYED}'",
    count=9,
):
    """What comes of a part of nine cases whose programs are these; as they stand, all is right."""
    readers = {"old": old, "strict": strict}

    def commands(mode):
        return shell("cat"), shell(readers[mode]), shell(replay)

    with tempfile.TemporaryDirectory() as folder:
        path = pathlib.Path(folder) / "records"
        return compare_trees.compared(shell(record), shell(retrace), commands, path, count)


class Counts(unittest.TestCase):
    def test_the_line_is_read(self):
        count = tree_counts.of(f"something before\n{SAID}\n")
        found = [count[key] for key in tree_counts.KEYS]
        self.assertEqual(found, [9, 5, 4, 3, 1, 2, 2, 1, 1, 3, 0, 0, 1, 0, 0, 0, 0, 1, 0, 1])

    def test_any_other_line_counts_nothing(self):
        for said in ("", "oracle: case 7 differs", SAID + ".", SAID + "\noracle: case 7 differs"):
            self.assertEqual(sum(tree_counts.of(said).values()), 0)


class Parts(unittest.TestCase):
    def test_all_right(self):
        found, told, right = part()
        self.assertTrue(right)
        self.assertEqual([found[key] for key in compare_trees.COLUMNS], [9, 5, 4, 1, 1, 3, 3, 2, 1, 0])
        self.assertIn(RETRACED, told)
        self.assertIn("2 with the original", told)
        self.assertTrue(part(count=None)[2])

    def test_a_program_that_fails_is_noticed(self):
        self.assertFalse(part(record=f"echo '{SAID}' >&2; exit 1")[2])
        self.assertFalse(part(retrace=f"cat >/dev/null; echo '{RETRACED}'; exit 1")[2])
        self.assertFalse(part(replay=f"cat >/dev/null; echo '{REPLAYED}'; exit 1")[2])
        for mode, strict in (("old", 0), ("strict", 3)):
            self.assertFalse(part(**{mode: saying(READ.format(strict)) + "; exit 1"})[2])

    def test_a_case_that_differs_or_lacks_is_noticed(self):
        self.assertFalse(part(retrace="cat >/dev/null; echo '9 retraced, 1 differing'")[2])
        self.assertFalse(part(retrace="cat >/dev/null; echo '8 retraced, 0 differing'")[2])
        self.assertFalse(part(replay="cat >/dev/null; echo '3 replayed, 1 differing, 0 skipped'")[2])
        self.assertFalse(part(replay="cat >/dev/null; echo '2 replayed, 0 differing, 0 skipped'")[2])
        self.assertFalse(part(count=10)[2])
        self.assertFalse(part(record="true", count=None)[2])

    def test_modes_that_read_otherwise_are_noticed(self):
        other = READ.replace("2 by model and original, 1 by", "3 by model and original, 0 by").replace("2: 1", "2: 0")
        found, told, right = part(strict=saying(other.format(3)))
        self.assertFalse(right)
        self.assertEqual(sum(found.values()), 0)
        self.assertFalse(part(strict=saying(READ.format(0)))[2])

    def test_what_the_oracle_says_is_told(self):
        _, told, _ = part(record="echo 'oracle: case 7 differs: X' >&2; exit 1")
        self.assertIn("case 7 differs: X", told)


class Wishes(unittest.TestCase):
    def test_each_part_has_a_seed_of_its_own(self):
        wishes = [wish for _, _, wish in recording.parts(compare_trees.KINDS, 5)]
        self.assertEqual(len(set(wishes)), len(wishes))
        self.assertIn("grown --seed 5 --count 100000", wishes)
        self.assertIn("grown --seed 7 --count 100000", wishes)

    def test_there_are_as_many_trees_and_damaged_pools_as_are_asked_for(self):
        cases = {kind: (count or 0) * times for kind, count, times in compare_trees.KINDS}
        self.assertGreaterEqual(cases["grown"], 200000)
        self.assertGreaterEqual(cases["broken"], 500000)


if __name__ == "__main__":
    unittest.main()
