"""Tests of tools/widened and tools/batch.py: run with python3 tools/test_widened.py. They need neither rt nor the oracle."""
import pathlib
import struct
import subprocess
import sys
import tempfile
import unittest

sys.dont_write_bytecode = True
import scripts

import batch

widened = scripts.load("widened")

TREE = [(2, 0, 0, 0, 0, 0, 0, 0), (2, 0, 2, 0, 0, 0, 0, 0), (12, 0, 1, 1, 2, 0, 0, 0)]
ENDS = [0, 2, 3]
TOKENS = [0x700, 0x801, 0x700, 0x80B, 0x200]
REFUSED = (3, 2, 0, 0, 1)


def record(rows, pool, entry=0, start=0, tokens=TOKENS, answer=None):
    """A case with its answer: that it is accepted with these rows, or another."""
    head = batch.HEAD.pack(entry, start, pool & 0xFFFF, pool >> 16, len(tokens))
    words = answer or (0, len(rows), len(rows), 3, 1)
    body = struct.pack(f"<{len(tokens)}H", *tokens) + batch.ANSWER.pack(*words)
    return head + body + b"".join(struct.pack(f"<{len(row)}I", *row) for row in rows)


def wide(rows):
    """Rows with their ends."""
    return [(*row, end) for row, end in zip(rows, ENDS)]


OLD = record(TREE, 8 * 3 + 7) + record([], 8 * 2, answer=REFUSED)
NEW = record(wide(TREE), 9 * 3 + 8) + record([], 9 * 2, answer=REFUSED)


class Records(unittest.TestCase):
    def test_a_record_comes_back(self):
        first, second = batch.records(NEW)
        self.assertEqual((first.entry, first.start, first.pool), (0, 0, 35))
        self.assertEqual(first.tokens, struct.pack("<5H", *TOKENS))
        self.assertEqual((first.answer, first.rows), ((0, 3, 3, 3, 1), wide(TREE)))
        self.assertEqual((second.answer, second.rows), (REFUSED, []))

    def test_a_long_pool_comes_back(self):
        (only,) = batch.records(record([], 589_824, answer=REFUSED))
        self.assertEqual(only.pool, 589_824)

    def test_a_list_that_is_cut_short_is_noticed(self):
        whole = {0, len(record(wide(TREE), 0)), len(NEW)}
        for length in range(len(NEW) + 1):
            if length in whole:
                list(batch.records(NEW[:length]))
            else:
                with self.assertRaises(ValueError):
                    list(batch.records(NEW[:length]))


class Comparing(unittest.TestCase):
    def differing(self, new, old=OLD):
        """The lines of what differs; none if all is right."""
        lines, is_right = widened.compare(old, new)
        self.assertEqual(is_right, len(lines) == 1)
        return lines[:-1]

    def test_the_same_cases(self):
        lines, is_right = widened.compare(OLD, NEW)
        self.assertEqual(lines, ["2 compared, with 3 rows, 0 differing; 0 more behind them"])
        self.assertTrue(is_right)

    def test_other_ends_are_no_difference(self):
        rows = [(*row, 77) for row in TREE]
        self.assertEqual(self.differing(record(rows, 27) + NEW[len(record(rows, 27)) :]), [])

    def test_each_part_that_differs_is_named(self):
        rest = record([], 18, answer=REFUSED)
        for part, given in {
            "entry": {"entry": 3},
            "start": {"start": 1},
            "pool": {"pool": 9 * 4},
            "tokens": {"tokens": [*TOKENS[:3], 0x803, 0x200]},
            "answer": {"answer": (0, 3, 3, 2, 1)},
        }.items():
            new = record(wide(TREE), **{"pool": 27, **given}) + rest
            self.assertEqual(self.differing(new), [f"case 0: other {part}"])

    def test_each_old_word_of_a_row_counts(self):
        for index in range(8):
            rows = [list(row) for row in wide(TREE)]
            rows[1][index] += 1
            new = record(rows, 27) + record([], 18, answer=REFUSED)
            self.assertEqual(self.differing(new), ["case 0: other rows"])

    def test_a_case_that_lacks_is_noticed(self):
        first = record(wide(TREE), 27)
        self.assertEqual(self.differing(first), ["case 1: it lacks"])
        self.assertEqual(len(self.differing(b"")), 2)

    def test_more_cases_are_counted(self):
        lines, is_right = widened.compare(OLD, NEW + NEW)
        self.assertTrue(is_right)
        self.assertTrue(lines[-1].endswith("; 2 more behind them"))

    def test_an_old_list_without_a_case_is_not_right(self):
        self.assertFalse(widened.compare(b"", NEW)[1])

    def test_the_command(self):
        def status(old, new):
            with tempfile.TemporaryDirectory() as folder:
                paths = [pathlib.Path(folder) / name for name in ("old", "new")]
                for path, stream in zip(paths, (old, new)):
                    path.write_bytes(stream)
                return subprocess.run([scripts.path_of("widened"), *paths], stdout=subprocess.DEVNULL).returncode

        self.assertEqual(status(OLD, NEW), 0)
        self.assertEqual(status(OLD, NEW[:-1]), 1)
        self.assertEqual(status(OLD + OLD, NEW), 1)
        self.assertEqual(status(NEW, NEW), 1)


if __name__ == "__main__":
    unittest.main()
