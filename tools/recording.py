"""Cases that the oracle records and a program goes through, for the scripts that compare them or make the program's list.

A kind of cases is its name, how many cases are in a part (None: all that there are), and how many parts, each of which
has a seed of its own. Counts are those that the oracle prints at its end.
"""
import collections
import pathlib
import subprocess
import sys
import tempfile
import time

HERE = pathlib.Path(__file__).resolve().parent.parent


def oracle(source):
    """The words that run the oracle over the original's source."""
    return [str(HERE / "oracle/run"), source]


def program(name):
    """The words that run a program."""
    return [str(HERE / "tools/run-program"), name]


def parts(kinds, seed):
    """Each part: its kind, how many cases it must have, and what the oracle is to record."""
    for kind, count, times in kinds:
        for number in range(times):
            options = f" --seed {seed + number} --count {count}" if count else ""
            yield kind, count, kind + options


def recorded(command, path, counted):
    """Has the oracle record into a file: the counts, none if it fails, and what it says."""
    with open(path, "wb") as out:
        done = subprocess.run(command, stdout=out, stderr=subprocess.PIPE, text=True)
    return counted(done.stderr) if done.returncode == 0 else collections.Counter(), done.stderr.strip()


def gone_through(command, path, count, word):
    """What the program writes that goes through a file of so many records, and whether that is as it must be."""
    with open(path, "rb") as records:
        done = subprocess.run(command, stdin=records, stdout=subprocess.PIPE, text=True)
    written = done.stdout.strip()
    return written, done.returncode == 0 and written == f"{count} {word}, 0 differing"


def compare(kinds, seed, compared):
    """Compares part after part, and prints each: the counts by kind, and how many parts differ.

    `compared` is given what the oracle is to record, a path for the records, and how many cases there must be. It answers
    the counts, none if something differs; what is to be told; and whether all is as it must be.
    """
    by_kind, wrong = {kind: collections.Counter() for kind, _, _ in kinds}, 0
    with tempfile.TemporaryDirectory() as folder:
        path = pathlib.Path(folder) / "records"
        for kind, count, wish in parts(kinds, seed):
            began = time.monotonic()
            found, told, right = compared(wish.split(), path, count)
            print(f"{wish}: {told} ({time.monotonic() - began:.0f} s)", flush=True)
            by_kind[kind].update(found)
            wrong += not right
    return by_kind, wrong


def row(name, count, columns):
    """Counts as a row of a table."""
    return f"| {name} | " + " | ".join(f"{count[key]:,}" if count[key] else "" for key in columns) + " |"


def table(heads, columns, by_kind):
    """Prints the counts by kind and their sums as a table; the sums."""
    total = sum(by_kind.values(), collections.Counter())
    print(f"| {heads} |\n" + "|---" * (len(columns) + 1) + "|")
    print("\n".join(row(f"`{kind}`", count, columns) for kind, count in by_kind.items()))
    print(row("together", total, columns))
    return total


def make_list(command, wishes, counts, folder, word):
    """Has the oracle record what is wished into the list of a program, and prints the counts of each part and of all.

    Answers the sums, and ends here if the oracle fails. `counts` is the module for what it counts; `word` is the program's
    for a case that it has gone through.
    """
    stream, total = b"", collections.Counter()
    for wish in wishes:
        done = subprocess.run([*command, *wish.split()], capture_output=True)
        if done.returncode:
            sys.exit(f"{pathlib.Path(sys.argv[0]).name}: {wish}: {done.stderr.decode().strip()}")
        found = counts.of(done.stderr.decode())
        total.update(found)
        print(f"{command[-1]} {wish}: {found['cases']} cases, {len(done.stdout)} bytes; {counts.shown(found)}")
        stream += done.stdout
    (folder / "stdin").write_bytes(stream)
    (folder / "stdout").write_text(f"{total['cases']} {word}, 0 differing\n")
    print(f"together: {total['cases']} cases, {len(stream)} bytes; {counts.shown(total)}")
    return total
