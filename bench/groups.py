#!/usr/bin/env python3
"""Measures queries that group by one column with many values, or writes such a script to the standard output.

    python3 bench/groups.py                                      measures ./cjoin, and prints a table
    python3 bench/groups.py --rows 30000 --program FILE          measures a smaller script, and another program
    python3 bench/groups.py --write ROWS GROUPS QUERIES [TIMES]  writes one script

The queries of a burst group by the same column, and each sees the sales below a bound of its own. The time of a burst
is the processor time of a script with many bursts less that of the same script with one, divided by the number of
further bursts; the table has medians. All numbers are drawn by one linear congruence, so the same arguments write the
same bytes. Python's standard library is all that this needs.
"""

import argparse
import statistics
import sys

from burst import Draws, load
from run import PROGRAM, seconds_of_a_burst

HEAD = """dimension store (id int key, city text)
fact sales (store_id int references store, code int, units int)
"""
# The bursts that are measured: so many queries over so many groups.
MEASURED = ((1, 100), (16, 100), (1, 1_000), (16, 1_000), (1, 10_000), (16, 10_000))


def sale(groups, draws):
    """A row of the fact table: its store, its code, of so many, and its units."""
    return draws.pick(40), ((draws.pick(32768) << 15) + draws.pick(32768)) % groups, draws.pick(1000)


def script(rows, groups, queries, times=1):
    """The text of a script with so many bursts."""
    draws = Draws(7)
    loads = load("store", [(key, f"C{key % 8}") for key in range(40)])
    loads += load("sales", (sale(groups, draws) for _ in range(rows))) + "wait\n"
    query = "select code, count(*), sum(units) from sales where units < {} group by code\n"
    burst = "".join(query.format(500 + draws.pick(500)) for _ in range(queries)) + "wait\n"
    return HEAD + loads + burst * times


def measure(words):
    """Prints the table."""
    print("| queries at once | groups | milliseconds of processor time |\n|---|---|---|")
    for queries, groups in MEASURED:
        bursts = max(8, 64 // queries)
        scripts = [script(words.rows, groups, queries, times) for times in (1, bursts + 1)]
        seconds = [seconds_of_a_burst([words.program], *scripts, bursts) for _ in range(words.repetitions)]
        print(f"| {queries} | {groups:,} | {statistics.median(seconds) * 1000:.0f} |", flush=True)


def main():
    """Measures, or writes a script."""
    parser = argparse.ArgumentParser(description=__doc__, formatter_class=argparse.RawDescriptionHelpFormatter)
    parser.add_argument("--write", nargs="+", type=int, metavar="N", help="ROWS GROUPS QUERIES [TIMES] of a script")
    parser.add_argument("--rows", type=int, default=300_000, help="the number of sales that are measured (300,000)")
    parser.add_argument("--repetitions", type=int, default=5, help="repetitions of each figure (5)")
    parser.add_argument("--program", default=PROGRAM, help="the program to measure (./cjoin)")
    words = parser.parse_args()
    if not words.write:
        measure(words)
    elif len(words.write) in (3, 4):
        sys.stdout.write(script(*words.write))
    else:
        parser.error("--write takes ROWS GROUPS QUERIES [TIMES]")


if __name__ == "__main__":
    main()
