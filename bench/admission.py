#!/usr/bin/env python3
"""Measures what it takes that queries enter and leave, or writes such a script to the standard output.

    python3 bench/admission.py                                   measures ./cjoin, and prints a table
    python3 bench/admission.py --program FILE                    measures another program
    python3 bench/admission.py --write QUERIES PERCENT [TIMES]   writes one script, with a condition on integers

The script has a dimension of 262,144 rows, 64 sales, and queries over both. Each query selects so many of a hundred
rows of the dimension, by bounds of its own. A lap over 64 sales takes next to no time: what a burst of queries takes
is that each query enters the filter of the dimension and leaves it. The time of a burst is the processor time of a
script with many bursts less that of the same script with one, divided by the number of further bursts. In the mode
`serve` one client asks the same bursts, and the processor time of the server counts. The table has medians. All
numbers are drawn by one linear congruence, so the same arguments write the same bytes. Python's standard library and
a Linux with /proc are all that this needs.
"""

import argparse
import statistics
import sys

from burst import Draws
from run import PROGRAM, seconds_of_a_burst
from serving import Fault, Link, insist, serving

SALES = 64
SIZES = 30000
QUERIES = 64
# What is measured: how many of a hundred rows each query selects, and by a column of which kind.
MEASURED = ((5, "int"), (50, "int"), (95, "int"), (50, "text"))
# A size as a literal, by the kind of its column.
LITERALS = {"int": "{}", "text": "'S{:05}'"}
# How many further bursts are asked, by the kind of the column: one by a text takes much longer.
BURSTS = {"int": 16, "text": 3}
GOAL = "a lap of 64 over 1,000,000 sales"


def query(width, draws, kind):
    """A query over so many consecutive sizes."""
    low, literal = draws.pick(SIZES - width + 1), LITERALS[kind]
    bounds = f"{literal.format(low)} and {literal.format(low + width - 1)}"
    return f"select count(*) from sales, store where store_id = id and size between {bounds}"


def loads(rows, draws, kind):
    """The lines of the declarations and the loads."""
    field = LITERALS[kind].strip("'")
    yield f"dimension store (id int key, size {kind})"
    yield "fact sales (store_id int references store, units int)"
    yield "load store"
    for key in range(rows):
        yield f"{key},{field.format(draws.pick(SIZES))}"
    yield ".\nload sales"
    for _ in range(SALES):
        yield f"{draws.pick(min(rows, SIZES))},{1 + draws.pick(20)}"
    yield ".\nwait"


def burst(queries, percent, draws, kind):
    """The lines of a burst."""
    return [*(query(SIZES * percent // 100, draws, kind) for _ in range(queries)), "wait"]


def text(lines):
    """Some lines as one text."""
    return "".join(line + "\n" for line in lines)


def in_a_run(words, percent, kind):
    """The seconds of a burst in a run."""
    draws = Draws(7)
    once = text(loads(words.rows, draws, kind)) + text(burst(QUERIES, percent, draws, kind))
    further = "".join(text(burst(QUERIES, percent, draws, kind)) for _ in range(BURSTS[kind]))
    return seconds_of_a_burst([words.program], once, once + further, BURSTS[kind])


def in_a_server(words, percent, kind):
    """The seconds of a burst of one client in a server."""
    draws = Draws(7)
    with serving(words.program) as server:
        server.play(text(loads(words.rows, draws, kind)))
        link = Link(server, quick=True)
        server.settle()
        before = server.used()
        for _ in range(BURSTS[kind]):
            link.send(text(burst(QUERIES, percent, draws, kind)))
            replies = [link.reply()[0][0] for _ in range(QUERIES + 1)]
            insist(replies == [b"answer"] * QUERIES + [b"waited"], "the replies to a burst are", replies)
        server.settle()
        used = server.used() - before
        link.close()
    return used / BURSTS[kind]


def measure(words):
    """Prints the table."""
    seconds = ("seconds, 1 seat (`run`)", "seconds, 65 seats (`serve`)")
    head = ("rows that each selects, of 100", "column", *seconds, "goal")
    print(f"| {' | '.join(head)} |\n" + "|---" * len(head) + "|")
    for it in MEASURED:
        columns = zip(*((in_a_run(words, *it), in_a_server(words, *it)) for _ in range(words.repetitions)))
        cells = " | ".join(f"{statistics.median(column):.3f}" for column in columns)
        print(f"| {it[0]} | {it[1]} | {cells} | {GOAL} |", flush=True)


def main():
    """Measures, or writes a script."""
    parser = argparse.ArgumentParser(description=__doc__, formatter_class=argparse.RawDescriptionHelpFormatter)
    parser.add_argument("--write", nargs="+", type=int, metavar="N", help="QUERIES PERCENT [TIMES] of a script")
    parser.add_argument("--rows", type=int, default=262_144, help="the rows of the dimension (262,144)")
    parser.add_argument("--repetitions", type=int, default=7, help="repetitions of each figure (7)")
    parser.add_argument("--program", default=PROGRAM, help="the program to measure (./cjoin)")
    words = parser.parse_args()
    if not words.write:
        try:
            measure(words)
        except Fault as fault:
            sys.exit(f"admission: {fault}")
        return
    if len(words.write) not in (2, 3):
        parser.error("--write takes QUERIES PERCENT [TIMES]")
    queries, percent, times = [*words.write, 1][:3]
    draws = Draws(7)
    sys.stdout.write(text(loads(words.rows, draws, "int")))
    for _ in range(times):
        sys.stdout.write(text(burst(queries, percent, draws, "int")))


if __name__ == "__main__":
    main()
