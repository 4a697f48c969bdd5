#!/usr/bin/env python3
"""Measures what a server keeps in memory after waves of clients with large answers, by settings of malloc.

    python3 bench/waves.py                                 16 waves of 20 clients, MALLOC_ARENA_MAX unset, 1, 2, 4 and 8
    python3 bench/waves.py --program FILE                  the same of another program
    python3 bench/waves.py --arenas 0,4 --trims 0,131072   with MALLOC_TRIM_THRESHOLD_ unset, and then with a value
    python3 bench/waves.py --waves 48 --clients 10         other waves
    python3 bench/waves.py --groups 30000 --rows 100000    smaller answers, over fewer rows
    python3 bench/waves.py --scattered                     the rows of a group lie far apart

In a wave each client connects, asks a query with so many groups, reads its answer and leaves. All clients of a wave ask
at one moment. Each row of the table is a server of its own. `kept` is the resident memory after the last wave, and
`most` the greatest during the waves, both above what the server had once its tables were loaded. Seconds are of all
waves together, by the clock and of the server's processors. 0 leaves a variable unset; `./cjoin` then sets it, so
measure the program itself, `out/cjoin_unproved` or `crates/star_main/out/star_main`.

The answers to a query must be the same in each wave; else the status is 1. Python's standard library and a Linux with
/proc are all that this needs.
"""

import argparse
import itertools
import os
import selectors
import sys
import time
import zlib
from pathlib import Path

from serving import CHUNK, PATIENCE, Fault, Link, insist, serving, status_of

TOP = Path(__file__).resolve().parent.parent
ARENAS, TRIM = "MALLOC_ARENA_MAX", "MALLOC_TRIM_THRESHOLD_"


def tables(given):
    """The script that declares and loads the fact table."""
    groups, rows = given.groups, given.rows
    places = (row * 7919 % groups if given.scattered else row * groups // rows for row in range(rows))
    sales = "".join(f"{place},{row % 100},{row % 997}\n" for row, place in enumerate(places))
    return f"fact sales (place int, units int, price int)\nload sales\n{sales}.\n"


def query(client):
    """The query of one client of a wave. Each has all groups, and no two are the same."""
    return f"select place, count(*) from sales where price < {10_000 + client} group by place\n"


class Answer:
    """Takes an answer from a connection. It counts the rows, and does not cut them apart."""

    def __init__(self, link):
        self.link, self.head, self.left, self.sum = link, b"", None, 0

    def take(self):
        """Takes what came, and returns whether the answer is whole."""
        piece = self.link.socket.recv(CHUNK)
        insist(piece, "a connection was closed before its answer was whole")
        self.sum = zlib.crc32(piece, self.sum)
        if self.left is None:
            piece = self.take_head(piece)
        if self.left is not None:
            self.left -= piece.count(b"\n")
        return self.left == 0

    def take_head(self, piece):
        """Takes the line before the rows, and returns what came after it."""
        self.head += piece
        line, feed, rest = self.head.partition(b"\n")
        if feed:
            words = line.split(b" ")
            insist(words[0] == b"answer", line.decode(), "came in place of an answer")
            self.left = int(words[3])
        return rest


def wave(server, queries):
    """Asks all queries at one moment, each over a connection of its own, and returns a check sum of each answer."""
    answers = [Answer(Link(server)) for _ in queries]
    for answer, text in zip(answers, queries):
        answer.link.send(text)
    with selectors.DefaultSelector() as waiting:
        for answer in answers:
            waiting.register(answer.link, selectors.EVENT_READ, answer)
        while waiting.get_map():
            ready = waiting.select(server.patience)
            insist(ready, len(waiting.get_map()), "answers do not come")
            for key, _ in ready:
                if key.data.take():
                    waiting.unregister(key.fileobj)
    for answer in answers:
        answer.link.rest()
        answer.link.close()
    return [answer.sum for answer in answers]


def set_variable(name, value):
    """Sets a variable for the servers that are started, or leaves it unset."""
    os.environ.pop(name, None)
    if value:
        os.environ[name] = str(value)


def measure(given, arenas, trim, script):
    """Prints the row of one value of each variable."""
    set_variable(ARENAS, arenas)
    set_variable(TRIM, trim)
    queries = [query(client) for client in range(given.clients)]
    with serving(given.program, f"--workers={given.workers}", patience=given.patience) as server:
        server.begin(script, 2)
        server.settle()
        before, used, began = server.memory(), server.used(), time.monotonic()
        sums = [wave(server, queries) for _ in range(given.waves)]
        clock = time.monotonic() - began
        server.settle()
        kept, most = server.memory() - before, status_of(server.process.pid, "VmHWM") - before
        used = server.used() - used
    insist(sums == sums[:1] * len(sums), "the answers to a query differ from wave to wave")
    figures = f"{before:.0f} | {kept:.0f} | {most:.0f} | {clock:.1f} | {used:.1f}"
    print(f"| {arenas or 'unset'} | {trim or 'unset'} | {figures} |", flush=True)


def words():
    """What the words of the command line say."""
    parser = argparse.ArgumentParser(description=__doc__, formatter_class=argparse.RawDescriptionHelpFormatter)
    add = parser.add_argument
    add("--program", default=str(TOP / "cjoin"), help="the program to run (./cjoin)")
    add("--waves", type=int, default=16, help="how many waves there are (16)")
    add("--clients", type=int, default=20, help="how many clients a wave has, at most 64 (20)")
    add("--groups", type=int, default=60_000, help="how many groups each answer has (60,000)")
    add("--rows", type=int, default=200_000, help="how many rows the fact table has (200,000)")
    add("--arenas", default="0,1,2,4,8", help=f"the values of {ARENAS}, 0 for unset (0,1,2,4,8)")
    add("--trims", default="0", help=f"the values of {TRIM}, 0 for unset (0)")
    add("--scattered", action="store_true", help="the rows of a group lie far apart")
    add("--workers", type=int, default=0, help="passed to the program (0)")
    add("--patience", type=float, default=PATIENCE, help="the seconds in which each reply must come (60)")
    given = parser.parse_args()
    given.program = os.path.abspath(given.program)
    given.arenas, given.trims = ([int(it) for it in text.split(",")] for text in (given.arenas, given.trims))
    return given


def main():
    """Prints a row for each pair of values."""
    given = words()
    print(f"{given.waves} waves of {given.clients} clients, {given.groups:,} groups each over {given.rows:,} rows\n")
    print(f"| {ARENAS} | {TRIM} | tables, MB | kept, MB | most, MB | clock, s | processors, s |")
    print("|---|---|---|---|---|---|---|", flush=True)
    try:
        script = tables(given)
        for arenas, trim in itertools.product(given.arenas, given.trims):
            measure(given, arenas, trim, script)
    except (Fault, OSError) as fault:
        print(f"waves: {fault}", flush=True)
        return 1
    return 0


if __name__ == "__main__":
    sys.exit(main())
