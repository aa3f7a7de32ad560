"""Tests of tools/compare and tools/counts.py: run with python3 tools/test_compare.py. They need neither rt nor the oracle."""
import sys
import unittest

sys.dont_write_bytecode = True
import scripts

import counts

compare = scripts.load("compare")

SAID = (
    "9 recorded, 0 strict, 4 by model and original, 5 by the model alone (1: 0, 2: 1, 3: 4, 4: 0, 30: 0), "
    "3 with rows enough, wrong signs by form (call: 0, while: 0, foreach: 0, finally: 0)"
)
STRICT = (
    "9 recorded, 9 strict, 2 by model and original, 7 by the model alone (1: 0, 2: 1, 3: 0, 4: 0, 30: 6), "
    "0 with rows enough, wrong signs by form (call: 1, while: 2, foreach: 3, finally: 0)"
)
REPLAYED = "9 replayed, 0 differing, 0 skipped"


def shell(text):
    return ["sh", "-c", text]


def recording(said):
    return f"cat; echo '{said}' >&2"


def part(generate="echo cases", record=recording(SAID), replay=f"cat >/dev/null; echo '{REPLAYED}'", mode="old"):
    """What comes of a part of nine cases whose programs are these; as they stand, all is right."""
    return compare.compared(mode, 9, [shell(text) for text in (generate, record, replay)])


class Counts(unittest.TestCase):
    def test_the_line_is_read(self):
        count = counts.of(f"something before\n{SAID}\n")
        self.assertEqual([count[key] for key in counts.KEYS], [9, 0, 4, 0, 1, 4, 0, 0, 3, 0, 0, 0, 0])
        count = counts.of(STRICT)
        self.assertEqual([count[key] for key in counts.KEYS], [9, 9, 2, 0, 1, 0, 0, 6, 0, 1, 2, 3, 0])

    def test_any_other_line_counts_nothing(self):
        for said in ("", "oracle: case 7 differs", SAID + ".", SAID + "\noracle: case 7 differs"):
            self.assertEqual(sum(counts.of(said).values()), 0)


class Parts(unittest.TestCase):
    def test_all_right(self):
        found, told, right = part()
        self.assertTrue(right)
        self.assertEqual((found["cases"], found["three"], found[3]), (9, 4, 4))
        self.assertIn("4 with the original", told)

    def test_a_program_that_fails_is_noticed(self):
        self.assertFalse(part(generate="echo cases; exit 1")[2])
        self.assertFalse(part(replay=f"cat >/dev/null; echo '{REPLAYED}'; exit 1")[2])
        found, told, right = part(record="cat; echo 'oracle: case 7 differs: X' >&2; exit 1")
        self.assertFalse(right)
        self.assertIn("case 7 differs: X", told)

    def test_a_status_alone_is_noticed(self):
        found, _, right = part(record=f"{recording(SAID)}; exit 1")
        self.assertFalse(right)
        self.assertEqual(sum(found.values()), 0)

    def test_a_case_that_differs_or_lacks_is_noticed(self):
        self.assertFalse(part(replay="cat >/dev/null; echo '9 replayed, 1 differing, 0 skipped'")[2])
        self.assertFalse(part(replay="cat >/dev/null; echo '8 replayed, 0 differing, 0 skipped'")[2])
        self.assertFalse(part(record=recording(SAID.replace("9", "8")))[2])
        self.assertFalse(part(record="cat")[2])

    def test_another_mode_is_noticed(self):
        found, told, right = part(record=recording(STRICT), mode="strict")
        self.assertTrue(right)
        self.assertEqual((found["strict"], found[30]), (9, 6))
        self.assertIn("30: 6", told)
        self.assertFalse(part(record=recording(SAID), mode="strict")[2])
        self.assertFalse(part(record=recording(STRICT), mode="old")[2])
        self.assertFalse(part(record=recording(STRICT.replace("9 strict", "8 strict")), mode="strict")[2])

    def test_a_writer_ends_with_its_reader(self):
        statuses, _, _ = compare.pipeline(shell("yes"), shell("exit 1"), shell("cat"))
        self.assertNotEqual(statuses[0], 0)
        self.assertEqual(statuses[1:], [1, 0])


class Wishes(unittest.TestCase):
    def test_every_kind_comes_with_plenty_and_with_few_rows_in_both_modes(self):
        wishes = [wish for _, _, wish in compare.parts(5)]
        self.assertEqual(sum("--rows scarce" in wish for wish in wishes), 14)
        self.assertEqual(sum("--rows edge" in wish for wish in wishes), 2)
        self.assertEqual(len(set(wishes)), 38)
        for mode in ("old", "strict"):
            self.assertIn(f"valid --seed 5 --count 200000 --mode {mode}", wishes)
            self.assertIn(f"valid --seed 6 --count 200000 --rows scarce --mode {mode}", wishes)

    def test_a_part_says_its_mode(self):
        for mode, _, wish in compare.parts(5):
            self.assertTrue(wish.endswith(f" --mode {mode}"))

    def test_more_than_half_a_million_random_arrays_are_there_in_each_mode(self):
        for mode in compare.MODES:
            counts = [count for of, count, wish in compare.parts(5) if of == mode and "--seed" in wish]
            self.assertGreater(sum(counts), 500000)


if __name__ == "__main__":
    unittest.main()
