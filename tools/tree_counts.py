"""The counts that the oracle's `trees-record` prints at its end, for scripts that show and sum them.

A count has these keys: "cases"; "trees", those whose rows are a tree; "written", the trees for which there is room; "forms",
those of them that a batch can hold; 32, the others; "back", the trees that model and original read back as the same tree in
both modes; "deep" and "long", those that are refused with 2 and 1; "root" and "row", the refusals with 38 at 0 and at a row;
and the refusals at a row by its fault, where it has just one, "several" where it has more.
"""
import re

import counts

FAULTS = ["kind", "mark", "unused", "missing", "later", "next", "outside", "twice", "slot", "several"]
LINE = re.compile(
    r"(\d+) recorded, (\d+) trees \((\d+) written, (\d+) of them for a batch, (\d+) without room\), "
    r"(\d+) read back in both modes, (\d+) too deep, (\d+) too long, (\d+) refused for the root, (\d+) for a row "
    r"\(" + ", ".join(rf"{fault}: (\d+)" for fault in FAULTS) + r"\)"
)
KEYS = ["cases", "trees", "written", "forms", 32, "back", "deep", "long", "root", "row", *FAULTS]


def of(said):
    """The counts in the last line of what the oracle said; none at all if it isn't such a line."""
    return counts.last(said, LINE, KEYS)


def shown(count):
    """Counts in words."""
    return (
        f"{count['trees']} trees, {count['written']} written, 32: {count[32]}, 38 at 0: {count['root']}, at a row: {count['row']}; "
        f"{count['back']} read back, {count['deep']} too deep, {count['long']} too long"
    )


def faults(count):
    """The refusals at a row by fault."""
    return ", ".join(f"{fault}: {count[fault]}" for fault in FAULTS)
