#!/usr/bin/env python3
"""Prints in which functions the program spends the processor time of a shared lap, as a table of percentages.

    python3 bench/where.py                           ./cjoin over 1,000,000 sales, for bursts of 1, 16 and 64 queries
    python3 bench/where.py --rows 200000             smaller
    python3 bench/where.py --functions 20            the 20 functions with the most samples, in place of parts of a lap
    python3 bench/where.py --program FILE            another program, which must have its symbols

Linux `perf` samples the program while it runs a script of `bench/burst.py` with many bursts, and then the same script
with one burst. The samples of a function in the first, less those in the second, belong to the bursts between them:
so loading drops out. Python's standard library and `perf` are all this needs; the kernel has to allow sampling
(`kernel.perf_event_paranoid`).
"""

import argparse
import collections
import subprocess
import tempfile
from pathlib import Path

from run import PROGRAM, Burst

# The parts of a lap, and the function of each.
PARTS = (
    ("finding the kind or the group of each row, and adding to kinds", "Distributor::take_in"),
    ("adding rows to groups, for a query that shares kinds with no other", "take_rows_in_way"),
    ("conditions on the fact table, and the bits of rows", "stamping::batch_of"),
    ("filters", "FilterTable::pass"),
    ("codes of the values that queries group by", "RowCodes::add_columns"),
)


def sampled(program, script):
    """How many samples each function has in one run of a script."""
    with tempfile.TemporaryDirectory() as folder:
        source, data = Path(folder, "script"), Path(folder, "data")
        source.write_text(script)
        with open(source) as given:
            words = ["perf", "record", "-q", "-e", "cpu-clock", "-F", "4000", "-o", str(data), program]
            subprocess.run(words, stdin=given, stdout=subprocess.DEVNULL, stderr=subprocess.DEVNULL, check=True)
        words = ["perf", "script", "-i", str(data), "-F", "ip,sym"]
        told = subprocess.run(words, check=True, stdout=subprocess.PIPE, stderr=subprocess.DEVNULL, text=True).stdout
    found = (line.split(None, 1) for line in told.splitlines())
    return collections.Counter(words[1].strip() for words in found if len(words) == 2)


def of_bursts(program, load, count):
    """How many samples each function has in the bursts alone."""
    found = sampled(program, load.script(count, max(32, 256 // count) + 1))
    found.subtract(sampled(program, load.script(count, 1)))
    return found


def of_parts(found):
    """The percentage of each part, and of all other functions."""
    all_of_it = sum(found.values())
    parts = [sum(samples for name, samples in found.items() if function in name) for _, function in PARTS]
    return [100 * samples / all_of_it for samples in [*parts, all_of_it - sum(parts)]]


def print_parts(counts, profiles):
    """Prints a row for each part, with a column for each number of queries."""
    print("| part | function | " + " | ".join(map(str, counts)) + " |\n" + "|---" * (2 + len(counts)) + "|")
    columns = [of_parts(found) for found in profiles]
    names = [(part, f"`{function}`") for part, function in PARTS] + [("everything else", "")]
    for (part, function), *shares in zip(names, *columns):
        print(f"| {part} | {function} | " + " | ".join(f"{share:.0f}" for share in shares) + " |")


def print_functions(most, counts, profiles):
    """Prints a row for each of the functions with the most samples."""
    for count, found in zip(counts, profiles):
        all_of_it = sum(found.values())
        print(f"\n| function | of 100, for {count} at once |\n|---|---|")
        for name, samples in found.most_common(most):
            print(f"| `{name}` | {100 * samples / all_of_it:.1f} |")


def main():
    """Reads the words, and prints the tables."""
    reader = argparse.ArgumentParser(description=__doc__, formatter_class=argparse.RawDescriptionHelpFormatter)
    reader.add_argument("--rows", type=int, default=1_000_000, help="the sales (1,000,000)")
    reader.add_argument("--queries", default="1,16,64", help="the numbers of queries (1,16,64)")
    reader.add_argument("--functions", type=int, help="print so many functions for each number of queries")
    reader.add_argument("--program", default=PROGRAM, help="the program that is measured (./cjoin)")
    words = reader.parse_args()
    load, counts = Burst(words.rows), [int(count) for count in words.queries.split(",")]
    profiles = [of_bursts(words.program, load, count) for count in counts]
    if words.functions:
        print_functions(words.functions, counts, profiles)
    else:
        print_parts(counts, profiles)


if __name__ == "__main__":
    main()
