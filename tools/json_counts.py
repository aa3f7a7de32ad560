"""The counts that the oracle's `json-record` prints at its end, for scripts that show and sum them.

A count has these keys: "cases"; "texts", those with a text; "payloads", the texts with a payload; "bytes", those of all
texts; the refusals by number; and those with 38 by what is wrong: "root", there is no such row; "row", the row that is
refused is bad; "field" or "class", its place is no field's number, or that of a field of another class; "several", it is
bad and has no field of the right class.
"""
import re

import counts

NUMBERS = [6, 5, 33, 38, 34, 32]
WRONGS = ["root", "row", "field", "class", "several"]
LINE = re.compile(
    r"(\d+) recorded, (\d+) texts \((\d+) with payloads, (\d+) bytes\), refused \("
    + ", ".join(rf"{number}: (\d+)" for number in NUMBERS)
    + r"\), 38 by what is wrong \("
    + ", ".join(rf"{wrong}: (\d+)" for wrong in WRONGS)
    + r"\)"
)
KEYS = ["cases", "texts", "payloads", "bytes", *NUMBERS, *WRONGS]


def of(said):
    """The counts in the last line of what the oracle said; none at all if it isn't such a line."""
    return counts.last(said, LINE, KEYS)


def shown(count):
    """Counts in words."""
    refused = ", ".join(f"{number}: {count[number]}" for number in NUMBERS)
    wrong = ", ".join(f"{wrong}: {count[wrong]}" for wrong in WRONGS)
    return f"{count['texts']} texts, {count['payloads']} with payloads, {refused}; 38 by what is wrong: {wrong}"


def unmet(count):
    """The answers, and what may be wrong, that no case has."""
    return [key for key in KEYS if not count[key]]
