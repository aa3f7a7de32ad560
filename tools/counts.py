"""The counts that the oracle's `record` prints at its end, for scripts that show and sum them.

A count has these keys: "cases"; "strict", those in strict mode; "three", the cases whose answer model and original both
give, so that with the reader they are three; 1 to 4 and 30, the refusals that the original doesn't know, given by the model
alone; "roomy", those of refusal 3 for which model and original agree once there are rows enough; and "call", "while",
"foreach" and "finally", those of refusal 30 by what lacks its sign.
"""
import collections
import re

OURS = [1, 2, 3, 4, 30]
FORMS = ["call", "while", "foreach", "finally"]
LINE = re.compile(
    r"(\d+) recorded, (\d+) strict, (\d+) by model and original, \d+ by the model alone "
    r"\(1: (\d+), 2: (\d+), 3: (\d+), 4: (\d+), 30: (\d+)\), (\d+) with rows enough, "
    r"wrong signs by form \(call: (\d+), while: (\d+), foreach: (\d+), finally: (\d+)\)"
)
KEYS = ["cases", "strict", "three", *OURS, "roomy", *FORMS]


def last(said, line, keys):
    """The counts in the last line of what the oracle said, in the order of the keys; none if it is another line."""
    lines = said.splitlines()
    found = line.fullmatch(lines[-1]) if lines else None
    return collections.Counter(dict(zip(keys, map(int, found.groups())))) if found else collections.Counter()


def of(said):
    """The counts in the last line of what the oracle said; none at all if it isn't such a line."""
    return last(said, LINE, KEYS)


def shown(count):
    """Counts in words."""
    others = ", ".join(f"{number}: {count[number]}" for number in OURS)
    forms = ", ".join(f"{form}: {count[form]}" for form in FORMS)
    return f"{count['three']} with the original, {others}; {count['roomy']} of 3 with rows enough; 30 by form: {forms}"
