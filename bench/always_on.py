#!/usr/bin/env python3
"""Measures what the program keeps of statements that were answered, and whether chosen keys make it slow.

    python3 bench/always_on.py                     all of the following, with ./cjoin, as one table
    python3 bench/always_on.py statements          2,400,000 counts in one script
    python3 bench/always_on.py refused             33,554,432 lines of one byte that is not text
    python3 bench/always_on.py connections         5,000 connections of ten queries to one server
    python3 bench/always_on.py connections 100000  another number of connections
    python3 bench/always_on.py crafted             keys that collide in a hash without a secret key, and drawn ones
    python3 bench/always_on.py --part 100 ..       a hundredth of the lines
    python3 bench/always_on.py --program FILE ..   another program

A row for lines has the greatest resident memory and the processor time of the run: first for a tenth of the lines,
then for all of them. A row for connections has the resident memory of the server after so many, of which the first 64
come at once and the others one after another. A row for keys has the processor time of a load of 65,536 of them. The
memory includes the tables, which take less than a megabyte. Python's standard library, `cc` and a Linux with /proc
are all that this needs.
"""

import argparse
import subprocess
import sys

from launch import Launcher
from program import CJOIN, chosen
from serving import Fault, Link, insist, serving, told_rows

TABLES = b"""dimension store (id int key, city text)
fact sales (store_id int references store, units int)
load store
1,Bern
.
load sales
1,2
.
"""
COUNT = b"select count(*) from sales\n"
STATEMENTS = 2_400_000
REFUSED = 33_554_432
CONNECTIONS = 5_000
KEYS = 65_536
AT_ONCE = 64
QUERIES = 10

# Prints integer keys whose hashes by the fixed start of std's default hasher end in the same 15 bits.
CRAFT = r"""
#include <stdint.h>
#include <stdio.h>
#include <stdlib.h>
static const uint64_t START = 0x243f6a8885a308d3ULL, MULTIPLIER = 0x9e3779b97f4a7c15ULL;
int main(int argc, char **argv) {
    uint64_t wanted = strtoull(argv[1], 0, 10), found = 0;
    for (uint64_t key = 1; found < wanted; key++) {
        __uint128_t product = (__uint128_t)(key ^ START) * (MULTIPLIER ^ 16);
        uint64_t hash = (uint64_t)product ^ (uint64_t)(product >> 64);
        if (((hash ^ hash >> 32) & 0x7fff) == 0) { printf("%llu\n", (unsigned long long)key); found++; }
    }
    return 0;
}
"""


def print_row(name, memory="", seconds=""):
    """Prints a row of the table."""
    print(f"| {name} | {memory} | {seconds} |", flush=True)


def lines(launcher, words, name, tables, line, count):
    """Prints the rows of a tenth of some equal lines, and of all of them."""
    for part in (count // 10, count):
        ran = launcher.run(words.program, [], [tables, line * part])
        print_row(f"{part:,} {name}", f"{ran.megabytes:.1f} MB", f"{ran.seconds:.2f}")


def statements(launcher, words):
    """Prints the rows of counts."""
    lines(launcher, words, "counts in one script", TABLES, COUNT, STATEMENTS // words.part)


def refused(launcher, words):
    """Prints the rows of lines that are refused."""
    lines(launcher, words, "refused lines of one byte", b"", b"\xff\n", REFUSED // words.part)


def asking(server):
    """A connection that has sent its queries."""
    link = Link(server, quick=True)
    link.send((COUNT * QUERIES).decode())
    return link


def end(link):
    """Ends a connection, and checks its replies."""
    numbers = [told_rows(reply, [b"1"]) for reply in link.rest()]
    insist(numbers == [2] * QUERIES, "the answers of a connection are at", numbers)
    link.close()


def connections(_, words):
    """Prints the resident memory of a server after the first 100 connections, a tenth of all, and all of them."""
    with serving(words.program) as server:
        server.begin(TABLES.decode(), 4)
        # As many as are served at once come together, so that each thread has served one before memory is read.
        for link in [asking(server) for _ in range(min(words.count, AT_ONCE))]:
            end(link)
        for number in range(AT_ONCE + 1, words.count + 1):
            end(asking(server))
            if number in (100, words.count // 10, words.count):
                name = f"{number:,} connections of {QUERIES} queries, mode `serve`"
                print_row(name, f"{server.memory():.1f} MB", f"{server.used():.2f}")


def load_of(keys):
    """A script that loads a dimension of these keys."""
    rows = b"".join(b"%d,x\n" % key for key in keys)
    return b"dimension d (id int key, name text)\nfact f (d int references d)\nload d\n" + rows + b".\n"


def crafted_keys(launcher):
    """Keys that collide in a hash without a secret key."""
    source, made = launcher.folder / "craft.c", launcher.folder / "craft"
    source.write_text(CRAFT)
    subprocess.run(["cc", "-O2", "-o", made, source], check=True)
    return map(int, subprocess.run([made, str(KEYS)], check=True, stdout=subprocess.PIPE).stdout.split())


def crafted(launcher, words):
    """Prints the rows of a load of crafted keys and of one of drawn keys."""
    drawn = ((number * 2_654_435_761) % (1 << 40) for number in range(1, KEYS + 1))
    sorts = {"that collide in a hash without a secret key": crafted_keys(launcher), "that are drawn": drawn}
    for name, keys in sorts.items():
        ran = launcher.run(words.program, [], [load_of(keys)])
        print_row(f"a load of {KEYS:,} integer keys {name}", f"{ran.megabytes:.1f} MB", f"{ran.seconds:.2f}")


WAYS = {"statements": statements, "connections": connections, "refused": refused, "crafted": crafted}


def main():
    """Reads the words, and prints the table."""
    parser = argparse.ArgumentParser(description=__doc__, formatter_class=argparse.RawDescriptionHelpFormatter)
    parser.add_argument("what", nargs="?", default="all", choices=["all", *WAYS])
    parser.add_argument("count", nargs="?", type=int, default=CONNECTIONS, help="the connections (5,000)")
    parser.add_argument("--part", type=int, default=1, metavar="N", help="use one N-th of the lines")
    parser.add_argument("--program", default=str(CJOIN), help="the program to measure (./cjoin)")
    words = parser.parse_args()
    words.program = chosen(words.program)
    print("| input | memory | seconds |\n|---|---|---|")
    with Launcher() as launcher:
        try:
            for name in WAYS if words.what == "all" else [words.what]:
                WAYS[name](launcher, words)
        except Fault as fault:
            sys.exit(f"always_on: {fault}")
    return 0


if __name__ == "__main__":
    sys.exit(main())
