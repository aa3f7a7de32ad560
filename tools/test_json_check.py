"""Tests of tools/json-check, tools/schema.py and docs/tree.schema.json: run with python3 tools/test_json_check.py. They
need jq, and neither rt nor the oracle."""
import contextlib
import copy
import io
import json
import pathlib
import sys
import tempfile
import unittest

sys.dont_write_bytecode = True
import scripts

import batch
import schema

json_check = scripts.load("json-check")

TREE = schema.Schema(json.loads((json_check.HERE / "docs/tree.schema.json").read_text()))


def row(kind, *slots, mark=0, place=0, **payload):
    """The object of a row, with what is in its slots."""
    return {"kind": kind, "mark": mark, "place": place, **payload, **{f"c{at}": slot for at, slot in enumerate(slots)}}


def text_of(value):
    return json.dumps(value, ensure_ascii=False, separators=(",", ":")).encode()


NAME = row("identifier", payload="a")
BLOCK = row("block", [])
# A tree of every kind.
ALL = [
    row("none", mark=256),
    NAME,
    row("int", payload=-(2**63)),
    row("float", payload="3FF8000000000000"),
    row("char", payload="\U0001f600"),
    row("string", payload=""),
    row("bool", mark=257),
    row("array", [NAME, NAME]),
    row("hash", [row("pair", NAME, NAME)]),
    row("index", NAME, NAME),
    row("call", NAME, [], mark=259),
    row("infix", NAME, NAME, mark=278),
    row("prefix", NAME, mark=3),
    row("suffix", NAME, mark=1),
    row("lambda", [NAME], NAME),
    row("shell", NAME, mark=1),
    row("attribute", NAME, [row("name", payload="b")]),
    row("break", place=2**32 - 1),
    row("continue"),
    row("var", None, payload="a"),
    row("const", NAME, payload="a"),
    row("return", None),
    row("throw", NAME),
    row("expression", NAME),
    row("try", BLOCK, NAME, BLOCK, None),
    row("function", [NAME], BLOCK, payload="a"),
    row("for", NAME, NAME, BLOCK),
    row("while", NAME, BLOCK),
    row("assert", NAME, NAME),
    row("if", NAME, BLOCK, BLOCK),
    row("foreach", NAME, NAME, NAME, BLOCK),
    row("block", [row("break"), row("return", NAME)]),
]


def wrong(*texts):
    """What is wrong with texts, by their numbers."""
    with contextlib.redirect_stdout(io.StringIO()):
        return json_check.wrongs(list(texts), TREE)[0]


def record(number, text=b"", value=0, pool=9, file=b"\x07\x00\x01a"):
    head = batch.TEXT_HEAD.pack(1, pool, len(file), 99, number, len(text) if number == 0 else value, 0)
    return head + bytes(4 * pool) + file + text


class Trees(unittest.TestCase):
    def refused(self, value):
        self.assertIsNotNone(TREE.refusal(value), value)

    def test_every_kind_is_taken(self):
        for value in ALL:
            self.assertIsNone(TREE.refusal(value))

    def test_every_member_is_needed_and_no_other(self):
        for value in ALL:
            for name in value:
                self.refused({key: inner for key, inner in value.items() if key != name})
            for name in ("payload", "c0", "c1", "c2", "c3", "next", "end"):
                if name not in value:
                    self.refused({**value, name: None})

    def test_payloads_are_of_the_kinds_class(self):
        of = {"int": [1.5, "1", 2**63, -(2**63) - 1, True, None], "char": ["", "ab", 1], "string": [1, None]}
        of["float"] = ["3ff8000000000000", "3FF800000000000", "3FF80000000000000", "3FF8000000000000\n", 1.5]
        of["identifier"] = [1, ["a"]]
        for kind, payloads in of.items():
            for payload in payloads:
                self.refused(row(kind, payload=payload))

    def test_slots_take_what_they_take(self):
        name, pair = row("name", payload="b"), row("pair", NAME, NAME)
        for value in (
            name,
            pair,
            row("array", NAME),
            row("array", [BLOCK]),
            row("array", [None]),
            row("array", [[NAME]]),
            row("hash", [NAME]),
            row("infix", NAME, None),
            row("infix", NAME, [NAME]),
            row("infix", NAME, row("break")),
            row("lambda", [], NAME),
            row("attribute", row("identifier", payload="a", mark=256), [name]),
            row("attribute", NAME, []),
            row("attribute", NAME, [NAME]),
            row("const", None, payload="a"),
            row("while", NAME, NAME),
            row("block", [BLOCK]),
            row("block", [NAME]),
            row("try", BLOCK, NAME, BLOCK, NAME),
            row("var", BLOCK, payload="a"),
        ):
            self.refused(value)

    def test_marks_and_places_are_in_their_ranges(self):
        for value in ALL:
            for mark in (-1, 23, 255, 279, 512, 1.5, "0", None, True):
                self.refused({**value, "mark": mark})
            for place in (-1, 2**32, 0.5, "0", None, False):
                self.refused({**value, "place": place})
        self.refused(row("break", mark=256))
        self.refused(row("prefix", NAME, mark=4))
        self.refused({**NAME, "kind": "Identifier"})

    def test_a_keyword_that_is_not_known_is_no_leave(self):
        with self.assertRaises(ValueError):
            schema.Schema({"multipleOf": 2}).refusal(4)


class Texts(unittest.TestCase):
    def test_right_ones(self):
        strings = ['"\\/\b\t\n\f\r\0\x1f', "\x7f\u2028\ufeff", "\\u001f", "\ud7ff\uffff\U0010ffff"]
        values = ALL + [row("string", payload=one) for one in strings]
        self.assertEqual(wrong(*(json_check.plain(text_of(value).decode()).encode() for value in values)), {})

    def test_damaged_ones(self):
        good = text_of(row("string", payload="a\n\x1f")).replace(b"1f", b"1F")
        self.assertEqual(wrong(good), {})
        for old, new in (
            (b"1F", b"1f"),
            (b"\\n", b"\\u000A"),
            (b"\\n", b"\n"),
            (b"a", b"\\u0061"),
            (b"a", b"\xff"),
            (b":0", b": 0"),
            (b":0", b":00"),
            (b":0", b":0.0"),
            (b'"mark":0', b'"mark":0,"mark":0'),
            (b"}", b""),
            (b"}", b"}\n"),
            (b"}", b"}}"),
        ):
            self.assertEqual(list(wrong(good, good.replace(old, new, 1), good)), [1], new)

    def test_numbers_that_are_no_doubles(self):
        texts = [text_of(row("int", payload=number)) for number in (2**53, 2**53 + 1, 2**63 - 1, -(2**63))]
        found, values = json_check.wrongs(texts, TREE)
        self.assertEqual(found, {})
        self.assertEqual([json_check.is_exact(value) for value in values.values()], [True, False, False, False])
        self.assertTrue(json_check.is_same(texts[1].decode(), texts[0].decode(), values[1]))
        self.assertFalse(json_check.is_same(texts[2].decode(), texts[0].decode(), values[2]))

    def test_the_deepest_text_that_jq_reads(self):
        deep = NAME
        for _ in range(127):
            deep = row("prefix", deep, mark=2)
        deeper = copy.deepcopy(deep)
        inner = deeper
        while "c0" in inner["c0"]:
            inner = inner["c0"]
        inner["c0"] = row("array", [])
        self.assertEqual([json_check.stacked(value) for value in (deep, deeper)], [254, 256])
        self.assertEqual(wrong(text_of(deep), text_of(deeper)), {})
        with contextlib.redirect_stdout(io.StringIO()) as printed:
            lines = json_check.jq_lines([text_of(NAME), text_of(deep), text_of(deeper)])
        self.assertEqual(lines[:2], [text_of(NAME).decode(), text_of(deep).decode()])
        # A later version than 1.6 has a higher limit.
        self.assertIn(lines[2], ["", text_of(deeper).decode()])
        self.assertEqual("depth" in printed.getvalue(), lines[2] == "")


class Lists(unittest.TestCase):
    def status(self, stream):
        """The status for a list, and what is printed."""
        with tempfile.TemporaryDirectory() as folder:
            (pathlib.Path(folder) / "stdin").write_bytes(stream)
            with contextlib.redirect_stdout(io.StringIO()) as printed:
                return json_check.main([pathlib.Path(folder)]), printed.getvalue()

    def test_only_accepted_cases_have_a_text(self):
        good = record(38, value=7) + record(0, text_of(NAME)) + record(32)
        self.assertEqual(self.status(good), (0, "1 texts, 0 wrong; 0 with numbers beyond 2^53, 0 too deep for jq\n"))
        status, printed = self.status(good + record(0, text_of(NAME)[:-1]))
        self.assertEqual(status, 1)
        self.assertIn("text 1:", printed)

    def test_an_empty_list_is_noticed(self):
        self.assertEqual(self.status(record(38))[0], 1)

    def test_a_list_that_ends_within_a_case_is_noticed(self):
        with self.assertRaises(ValueError):
            self.status(record(0, text_of(NAME))[:-1])


if __name__ == "__main__":
    unittest.main()
