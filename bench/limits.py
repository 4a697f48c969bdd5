#!/usr/bin/env python3
"""Runs scripts near the limits of the program, and prints their processor time and greatest memory as tables.

    python3 bench/limits.py bounds               scripts at the bounds of docs/LIMITS.md
    python3 bench/limits.py worst                the scripts that are known to take the most
    python3 bench/limits.py queries              the queries that are known to take the most
    python3 bench/limits.py bounds --part 100    the same with a hundredth of the bytes and rows
    python3 bench/limits.py bounds --write 4     writes the fourth script to the standard output, and runs nothing
    python3 bench/limits.py .. --program FILE    another program than ./cjoin

The seconds are those of the user and of the system together. In `bounds` and `worst` they are of the whole run, in
`queries` of one query, or of one burst: the difference of a script that asks it once and one that asks it more often,
divided by the number of times more. Scripts are in temporary files, of which the largest has 90 MB. Python's
standard library, `cc` and a Linux with /proc are all that this needs.
"""

import argparse
import sys

from launch import Launcher
from program import CJOIN, chosen
from serving import Fault, Link, insist, serving

SCRIPT, LINE = 67_108_864, 65_536
SIXTEEN = "a full fact table of 16 columns, of which 8 are references, and a query"
# The most memory that a script should take.
GOALS = {SIXTEEN: "700 MB"}
DIMENSION_ROWS, FACT_ROWS = 262_144, 1_048_576
TABLES = "dimension store (id int key, city text)\nfact sales (store_id int references store, units int)\n"
ROW_OF_TEXTS = ",".join(["x" * 252] * 16) + "\n"
ROWS_OF_A_CLIENT, CLIENTS = 16_000, 4
HEAD = "| script | status | seconds | memory | goal |\n|---|---|---|---|---|"


def repeated(line, size):
    """A line again and again, cut off at a size in bytes."""
    whole, rest = divmod(size, len(line))
    return (line * whole + line[:rest]).encode()


def block(table, records):
    """A load of some records."""
    return f"load {table}\n" + "".join(record + "\n" for record in records) + ".\n"


def full_tables(part):
    """A full dimension, a full fact table and ten queries."""
    keys, rows = DIMENSION_ROWS // part, FACT_ROWS // part
    yield (TABLES + block("store", (f"{key},City{key % 1000}" for key in range(keys)))).encode()
    yield block("sales", (f"{row * 7919 % keys},{row % 100}" for row in range(rows))).encode()
    query = "select count(*) from sales, store where sales.store_id = store.id and city = 'City{}'\n"
    yield "".join(query.format(number) for number in range(10)).encode()


def sixteen_columns(part):
    """A full fact table of sixteen columns, of which eight are references, and a query."""
    yield "".join(f"dimension d{table} (id int key, t text)\n" for table in range(8)).encode()
    columns = [f"r{table} int references d{table}" for table in range(8)] + [f"c{number} int" for number in range(8)]
    yield f"fact f ({', '.join(columns)})\n".encode()
    yield "".join(block(f"d{table}", ["1,a"]) for table in range(8)).encode()
    yield block("f", ["1,1,1,1,1,1,1,1,1,2,3,4,5,6,7,8"] * (FACT_ROWS // part)).encode()
    yield b"select count(*), sum(c0) from f\n"


def seven_integers(part):
    """A fact table of seven integers."""
    yield b"fact t (a int, b int, c int, d int, e int, f int, g int)\n"
    rows = range(1_000_000 // part)
    yield block("t", (f"{r},{r * 7},{r % 100},{-r},{r * 13 % 997},{r % 3},{r % 1000003}" for r in rows)).encode()


def many_loads(part):
    """Loads of one row each."""
    yield TABLES.encode()
    yield "".join(f"load store\n{key},City\n.\n" for key in range(100_000 // part)).encode()


def unbound(part):
    """Selects that are statements, and that the schema refuses."""
    yield TABLES.encode()
    line = "select city, sum(units) from sales, store where store_id = id and units = 1\n"
    yield repeated(line, 67_000_000 // part)


def wide_declaration(word):
    """A declaration as long as a line may be, whose last column has the name of the first."""
    line = word + " t (id int" + (" key" if word == "dimension" else "")
    for column in range(LINE):
        if len(line) >= LINE - 36:
            break
        line += f",c{column} int"
    return [(line + ",id int)").ljust(LINE).encode() + b"\n"]


def long_from():
    """A select with 20,000 names of one table in FROM."""
    return [b"fact t (id int)\nselect count(*) from " + b",".join([b"t"] * 20_000) + b"\n"]


def commas(part):
    """A load of one record that has commas alone."""
    yield (TABLES + "load store\n").encode()
    yield b"," * (67_000_000 // part) + b"\n.\n"


def many_groups(part, others):
    """A query with as many groups as sales, and so many others by the same column, with a thousand groups each."""
    rows = 1_000_000 // part
    yield b"fact sales (code int, units int)\n"
    yield block("sales", (f"{row},{row % 100}" for row in range(rows))).encode()
    query = "select code, count(*), sum(units) from sales{} group by code\n"
    yield query.format("").encode()
    ranges = (f" where code between {number * 1000} and {number * 1000 + 999}" for number in range(others))
    yield "".join(map(query.format, ranges)).encode()


def bounds(part):
    """What the table of bounds has: for each row its name, the script, and the words of the command line."""
    yield f"{SCRIPT // part:,} line feeds", [b"\n" * (SCRIPT // part)], []
    yield f"{SCRIPT + 1:,} line feeds", [b"\n" * (SCRIPT + 1)], []
    yield f"{SCRIPT // part:,} bytes of comments", [repeated("-- a comment of a line\n", SCRIPT // part)], []
    yield "a full dimension, a full fact table and ten queries", full_tables(part), []
    yield SIXTEEN, sixteen_columns(part), []
    yield f"{1_000_000 // part:,} records of seven integers", seven_integers(part), []
    made = ["--mode", "make", "--rows", str(1_000_000 // part)]
    yield f"`{' '.join(made)}`: twelve loads, 60 queries and a delete", [], made
    yield f"{100_000 // part:,} loads of one row", many_loads(part), []
    yield (f"{SCRIPT // part:,} bytes of lines with a syntax error",
           [repeated("select count(*) form sales\n", SCRIPT // part)], [])
    yield f"{67_000_000 // part:,} bytes of selects that the schema refuses", unbound(part), []
    wide = "a `dimension` line of 65,536 bytes, whose last column has the name of the first"
    yield wide, wide_declaration("dimension"), []
    yield "the same as a `fact` line", wide_declaration("fact"), []
    yield "a select with 20,000 names of one table in FROM", long_from(), []


def worst(part):
    """What the table of the worst has, as `bounds` does."""
    yield f"a load of one record of {67_000_000 // part:,} commas", commas(part), []
    yield f"{SCRIPT // part // 2:,} lines of the byte 0xFF", [b"\xff\n" * (SCRIPT // part // 2)], []
    groups = f"a query with {1_000_000 // part:,} groups"
    yield groups, many_groups(part, 0), []
    yield f"{groups}, and 63 with 1,000 groups each", many_groups(part, 63), []
    yield "the same with `--workers 3`", many_groups(part, 63), ["--workers", "3"]


def print_runs(words, scripts):
    """Runs each script, and prints its row."""
    with Launcher() as launcher:
        for name, pieces, more in scripts:
            ran = launcher.run(words.program, more, pieces)
            goal = GOALS.get(name, "")
            print(f"| {name} | {ran.status} | {ran.seconds:.2f} | {ran.megabytes:.0f} MB | {goal} |", flush=True)


def print_server(words):
    """Prints the row of a server whose clients fill one table with texts."""
    rows = ROWS_OF_A_CLIENT // words.part
    columns = ", ".join(f"t{number} text" for number in range(16))
    with serving(words.program) as server:
        server.play(f"fact f ({columns})\n")
        before = server.memory()
        for _ in range(CLIENTS):
            link = Link(server)
            reply, _ = link.ask(f"load f\n{ROW_OF_TEXTS * rows}.\n")
            insist(reply[0] == b"commit", "a load was not accepted:", reply)
            link.close()
        memory, all_rows = server.memory(), rows * CLIENTS
        each = (memory - before) * 1024 / all_rows
        name = f"mode `serve`: {all_rows:,} rows of 16 texts of 252 bytes by {CLIENTS} clients, {each:.1f} KB a row"
        print(f"| {name} | | {server.used():.2f} | {memory:.0f} MB | |", flush=True)


def print_bounds(words):
    """Prints the table of bounds."""
    print(HEAD)
    print_runs(words, bounds(words.part))


def print_worst(words):
    """Prints the table of the worst that is known."""
    print(HEAD)
    print_runs(words, worst(words.part))
    print_server(words)


def queries():
    """The measured bursts: a name, the rows of the table, the lines, and how many further times they are asked."""
    count, rows = "select count(*) from t", 1_000_000
    yield "one without a condition", rows, [count], 16
    integers = ", ".join(str(3 * n) for n in range(256))
    yield "one with an IN of 256 integers", rows, [f"{count} where code in ({integers})"], 8
    texts = ", ".join(f"'N{3 * n}'" for n in range(256))
    yield "one with an IN of 256 texts", rows, [f"{count} where name in ({texts})"], 8
    tests = " or ".join(f"code = {1_000 + n}" for n in range(4_000))
    yield "one with 4,000 tests joined by `or`, none of which holds", rows // 100, [f"{count} where {tests}"], 1
    yield "64 at once of these", rows // 100, [f"{count} where {tests}"] * 64, 1


def print_queries(words):
    """Prints the table of queries."""
    print("| queries | rows | seconds |\n|---|---|---|")
    with Launcher() as launcher:
        for name, all_rows, lines, times in queries():
            rows = all_rows // words.part
            records = (f"{row % 1000},N{row % 1000}" for row in range(rows))
            load = "fact t (code int, name text)\n" + block("t", records) + "wait\n"
            burst = "".join(line + "\n" for line in lines) + "wait\n"
            runs = [launcher.run(words.program, [], [(load + burst * count).encode()]) for count in (1, times + 1)]
            insist(all(ran.status == 0 for ran in runs), "a run ended with", *(ran.status for ran in runs))
            once, often = (ran.seconds for ran in runs)
            print(f"| {name} | {rows:,} | {(often - once) / times:.3f} |", flush=True)


TABLES_OF = {"bounds": print_bounds, "worst": print_worst, "queries": print_queries}
SCRIPTS_OF = {"bounds": bounds, "worst": worst}


def main():
    """Reads the words, and prints a table or writes a script."""
    parser = argparse.ArgumentParser(description=__doc__, formatter_class=argparse.RawDescriptionHelpFormatter)
    parser.add_argument("table", choices=TABLES_OF)
    parser.add_argument("--part", type=int, default=1, metavar="N", help="use one N-th of the bytes and rows")
    parser.add_argument("--write", type=int, metavar="N", help="write the N-th script of `bounds` or `worst`")
    parser.add_argument("--program", default=str(CJOIN), help="the program to measure (./cjoin)")
    words = parser.parse_args()
    if words.write:
        scripts = list(SCRIPTS_OF.get(words.table, lambda part: [])(words.part))
        if words.write > len(scripts):
            parser.error(f"there are {len(scripts)} scripts")
        sys.stdout.buffer.writelines(scripts[words.write - 1][1])
        return 0
    words.program = chosen(words.program)
    try:
        TABLES_OF[words.table](words)
    except Fault as fault:
        sys.exit(f"limits: {fault}")
    return 0


if __name__ == "__main__":
    sys.exit(main())
