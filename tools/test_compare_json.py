"""Tests of tools/compare-json, tools/record-json and what they go by: run with python3 tools/test_compare_json.py. They need
neither rt nor the oracle."""
import collections
import contextlib
import io
import pathlib
import sys
import tempfile
import unittest
from unittest import mock

sys.dont_write_bytecode = True
import scripts

import json_counts
import recording

compare_json = scripts.load("compare-json")
record_json = scripts.load("record-json")

SAID = (
    "9 recorded, 3 texts (2 with payloads, 170 bytes), refused (6: 0, 5: 1, 33: 1, 38: 2, 34: 1, 32: 1), "
    "38 by what is wrong (root: 0, row: 1, field: 0, class: 1, several: 0)"
)
RETOLD = "9 retold, 0 differing"


def shell(text):
    return ["sh", "-c", text]


def part(record=f"echo records; echo '{SAID}' >&2", retell=f"cat >/dev/null; echo '{RETOLD}'", count=9):
    """What comes of a part of nine cases whose programs are these; as they stand, all is right."""
    with tempfile.TemporaryDirectory() as folder:
        return compare_json.compared(shell(record), shell(retell), pathlib.Path(folder) / "records", count)


def quietly(work, *arguments):
    """What a function answers, and what it prints."""
    with contextlib.redirect_stdout(io.StringIO()) as printed:
        return work(*arguments), printed.getvalue()


class Counts(unittest.TestCase):
    def test_the_line_is_read(self):
        count = json_counts.of(f"something before\n{SAID}\n")
        self.assertEqual([count[key] for key in json_counts.KEYS], [9, 3, 2, 170, 0, 1, 1, 2, 1, 1, 0, 1, 0, 1, 0])
        self.assertEqual(json_counts.unmet(count), [6, "root", "field", "several"])

    def test_any_other_line_counts_nothing(self):
        for said in ("", "oracle: case 7 differs", SAID + ".", SAID + "\noracle: case 7 differs"):
            self.assertEqual(sum(json_counts.of(said).values()), 0)


class Parts(unittest.TestCase):
    def test_all_right(self):
        found, told, right = part()
        self.assertTrue(right)
        self.assertEqual(found["payloads"], 2)
        self.assertIn(RETOLD, told)
        self.assertTrue(part(count=None)[2])

    def test_a_program_that_fails_is_noticed(self):
        self.assertFalse(part(record=f"echo '{SAID}' >&2; exit 1")[2])
        self.assertFalse(part(retell=f"cat >/dev/null; echo '{RETOLD}'; exit 1")[2])

    def test_a_case_that_differs_or_lacks_is_noticed(self):
        for written in ("9 retold, 1 differing", "8 retold, 0 differing", "case 3 differs\n9 retold, 0 differing", ""):
            found, _, right = part(retell=f"cat >/dev/null; echo '{written}'")
            self.assertFalse(right)
            self.assertEqual(sum(found.values()), 0)
        self.assertFalse(part(count=10)[2])
        self.assertFalse(part(record="true", count=None)[2])

    def test_what_the_oracle_says_is_told(self):
        self.assertIn("case 7 differs: X", part(record="echo 'oracle: case 7 differs: X' >&2; exit 1")[1])


class Whole(unittest.TestCase):
    def status(self, found, right=True):
        """The status of a comparison each part of which is this."""
        with mock.patch.object(compare_json, "compared", return_value=(found, "", right)):
            return quietly(compare_json.main, "folder", 1)

    def test_every_answer_must_be_met(self):
        full = collections.Counter({key: 1 for key in json_counts.KEYS})
        self.assertEqual(self.status(full)[0], 0)
        self.assertEqual(self.status(full, right=False)[0], 1)
        for key in json_counts.KEYS:
            status, printed = self.status(collections.Counter({**full, key: 0}))
            self.assertEqual(status, 1)
            self.assertIn(f"no case of {key}", printed)


class Wishes(unittest.TestCase):
    def test_each_part_has_a_seed_of_its_own(self):
        wishes = [wish for _, _, wish in recording.parts(compare_json.KINDS, 5)]
        self.assertEqual(len(set(wishes)), len(wishes))
        self.assertIn("grown --seed 5 --count 100000", wishes)
        self.assertIn("grown --seed 6 --count 100000", wishes)

    def test_each_kind_but_the_large_one_is_in_the_list(self):
        kinds = {kind for kind, _, _ in compare_json.KINDS}
        self.assertEqual(kinds - {wish.split()[0] for wish in record_json.PARTS}, {"large"})


class Lists(unittest.TestCase):
    def made(self, command, wishes):
        """What a list is made of by a command, and the list."""
        with tempfile.TemporaryDirectory() as name:
            folder = pathlib.Path(name)
            total, _ = quietly(recording.make_list, shell(command), wishes, json_counts, folder, "retold")
            return total, (folder / "stdin").read_bytes(), (folder / "stdout").read_text()

    def test_parts_stand_one_behind_the_other(self):
        total, stream, expected = self.made(f"printf $0; echo '{SAID}' >&2", ["one", "two"])
        self.assertEqual((stream, expected), (b"onetwo", "18 retold, 0 differing\n"))
        self.assertEqual(total["texts"], 6)

    def test_it_ends_where_the_oracle_fails(self):
        with self.assertRaises(SystemExit):
            self.made("exit 1", ["one"])


if __name__ == "__main__":
    unittest.main()
