#!/usr/bin/env python3
"""Runs malicious scripts: at each limit and one past it, and scripts that are long, deep, cut up or endless.

    python3 bench/malicious.py                     ./cjoin: the limits, a small stack, and sizes of 1, 4 and 16 MiB
    python3 bench/malicious.py --sizes 4,16,64     other sizes, in MiB
    python3 bench/malicious.py --program FILE ..   another program

First come the limits. A script at each limit is accepted, and a script one past it is refused in the words of
docs/LANGUAGE.md, in the modes `run` and `alone` and with two workers. Then the same runs with a stack of 256 KiB,
which all further scripts have, too. These are of growing sizes and of one kind each. Their replies have to be the
right ones, and a row of the table has the processor time of each size in seconds, and the greatest resident memory of
the last. A kind is WRONG if a byte takes more than three times as long in the largest script as in the smallest. In
the rows `in pieces of one byte` each call of `read` and `write` moves one byte. Python's standard library and `cc`
are all that this needs.
"""

import argparse
import sys

from launch import Launcher
from program import CJOIN, chosen

MIB = 1 << 20
SCRIPT, LINE, NAME, TEXT, OPEN, NOTS, LITERALS = 64 * MIB, 65_536, 63, 255, 64, 64, 256
DIMENSIONS, COLUMNS, ITEMS, GROUPS = 8, 16, 64, 16
KEYS, FACTS = 262_144, 1_048_576
GREATEST = 2**63 - 1
STACK = 256 * 1024

PIECES = r"""
#include <sys/syscall.h>
#include <unistd.h>
ssize_t read(int file, void *into, size_t bytes) { return syscall(SYS_read, file, into, bytes ? 1 : 0); }
ssize_t write(int file, const void *from, size_t bytes) { return syscall(SYS_write, file, from, bytes ? 1 : 0); }
"""

TABLES = """dimension store (id int key, city text)
fact sales (store_id int references store, units int)
"""
BASE = TABLES + """load store
1,Oslo
2,Rome
.
load sales
1,5
2,1
.
"""
MADE = ["table store", "table sales"]
LOADED = [*MADE, "commit 1 rows 2", "commit 2 rows 2"]
LIMIT = "refused 12 limit"
BAD = "refused 9 bad record"


def listed(form, count):
    """A list of so many forms, each with its number."""
    return ", ".join(form.format(number) for number in range(count))


def block(table, records):
    """A load of some records."""
    return f"load {table}\n" + "".join(record + "\n" for record in records) + ".\n"


def tables_of(columns):
    """The declaration of a dimension of so many columns."""
    return "dimension t (" + ", ".join(["id int key", *(f"c{number} int" for number in range(1, columns))]) + ")\n"


def over_fact(columns, text):
    """The declaration of a fact table of so many columns, and a statement."""
    return "fact f (" + listed("c{} int", columns) + ")\n" + text + "\n"


def limits_of_lines():
    """For each limit of a line its name, a script at the limit with its replies, and one past it with its replies."""
    count, one = BASE + "select count(*) from sales where ", [*LOADED, "answer 2 rows 1", "2"]
    refused = [*LOADED, LIMIT]
    query = "select count(*) from sales where units = 1"
    yield ("bytes of a line", BASE + query.ljust(LINE) + "\n", [*LOADED, "answer 2 rows 1", "1"],
           BASE + query.ljust(LINE + 1) + "\n", refused)
    yield ("bytes of a name", f"dimension {'n' * NAME} (id int key)\n", [f"table {'n' * NAME}"],
           f"dimension {'n' * (NAME + 1)} (id int key)\n", [LIMIT])
    city = BASE + "select count(*) from sales, store where store_id = id and city = '{}'\n"
    yield ("bytes of a text in a line", city.format("x" * TEXT), [*LOADED, "answer 2 rows 1", "0"],
           city.format("x" * (TEXT + 1)), refused)
    nested = {
        "open parentheses": lambda depth: "(" * depth + "units > 0" + ")" * depth,
        "words `not`": lambda depth: "not " * depth + "units > 0",
        "open parentheses and words `not` together": lambda depth: "not (" * depth + "units > 0" + ")" * depth,
        "literals of a list": lambda length: f"units in ({listed('{}', length)})",
    }
    for name, most in zip(nested, (OPEN, NOTS, OPEN, LITERALS)):
        yield name, count + nested[name](most) + "\n", one, count + nested[name](most + 1) + "\n", refused
    yield ("an integer of a line", over_fact(1, f"select count(*) from f where c0 in ({GREATEST}, {-GREATEST - 1})"),
           ["table f", "answer 0 rows 1", "0"],
           over_fact(1, f"select count(*) from f where c0 = {GREATEST + 1}"), ["table f", None])


def limits_of_schemas():
    """The same for the limits of declarations and of select lists."""
    dimensions = "".join(f"dimension d{number} (id int key)\n" for number in range(DIMENSIONS))
    tables = [f"table d{number}" for number in range(DIMENSIONS)]
    yield "dimensions", dimensions, tables, dimensions + "dimension d8 (id int key)\n", [*tables, LIMIT]
    yield "columns", tables_of(COLUMNS), ["table t"], tables_of(COLUMNS + 1), [LIMIT]
    select, answer = "select {} from f", ["answer 0 rows 1", ",".join(["null"] * ITEMS)]
    yield ("items of a select", over_fact(1, select.format(listed("sum(c0)", ITEMS))), ["table f", *answer],
           over_fact(1, select.format(listed("sum(c0)", ITEMS + 1))), ["table f", LIMIT])
    select = f"select count(*) from f group by {listed('c{}', GROUPS)}"
    yield ("columns of a group", over_fact(16, select), ["table f", "answer 0 rows 0"],
           over_fact(16, select + ", c0"), ["table f", LIMIT])


def limits_of_tables():
    """The same for the limits of tables and records."""
    yield ("bytes of a text of a record", TABLES + block("store", ["1," + "x" * TEXT]), [*MADE, "commit 1 rows 1"],
           TABLES + block("store", ["1," + "x" * (TEXT + 1)]), [*MADE, BAD])
    store, stores = TABLES + block("store", [f"{key},x" for key in range(KEYS)]), [*MADE, f"commit 1 rows {KEYS}"]
    yield "rows of a dimension", store, stores, store + block("store", ["-1,x"]), [*stores, LIMIT]
    fact, facts = over_fact(1, "") + block("f", ["1"] * FACTS), ["table f", f"commit 1 rows {FACTS}"]
    yield "rows of the fact table", fact, facts, fact + block("f", ["1"]), [*facts, LIMIT]
    deleted, less = fact + "delete from f\n", [*facts, f"commit 2 rows {FACTS}"]
    yield ("rows of the fact table, all deleted", deleted + block("f", []), [*less, "commit 3 rows 0"],
           deleted + block("f", ["1"]), [*less, LIMIT])
    yield ("an integer of a record", over_fact(2, "") + block("f", [f"{GREATEST},{-GREATEST - 1}"]),
           ["table f", "commit 1 rows 1"],
           over_fact(2, "") + block("f", [f"{GREATEST + 1},0"]) + block("f", [f"0,{-GREATEST - 2}"]),
           ["table f", BAD, BAD])


def is_due(line, want):
    """Whether a line of replies is the wanted one, or any refusal where none is named."""
    return line.startswith("refused ") if want is None else line == want


def fault_at_limit(ran, due):
    """What is wrong with a run at a limit, or nothing."""
    lines = ran.replies.decode().splitlines()
    same = len(lines) == len(due) and all(map(is_due, lines, due))
    refused = any(line.startswith("refused ") for line in lines)
    if same and ran.status == refused:
        return None
    return f"status {ran.status}, {lines[-1:]} in place of {due[-1:]}"


def check_limits(launcher, program, stack):
    """Checks each limit at its border and one past it, and returns how many runs are wrong."""
    wrong = 0
    for name, at, due_at, past, due_past in [*limits_of_lines(), *limits_of_schemas(), *limits_of_tables()]:
        for script, due in ((at, due_at), (past, due_past)):
            for words in ([], ["--mode", "alone"], ["--workers", "2"]):
                fault = fault_at_limit(launcher.run(program, words, [script.encode()], stack), due)
                if fault:
                    wrong += 1
                    print(f"WRONG {name} {' '.join(words)}: {fault}")
    for more, status in ((0, 0), (1, 6)):
        ran = launcher.run(program, [], [b"\n" * (SCRIPT + more)], stack)
        if ran.status != status or ran.replies:
            wrong += 1
            print(f"WRONG bytes of a script, {more} more: status {ran.status}")
    told = " with a stack of 256 KiB" if stack else ""
    print(f"limits{told}: {'all are right' if not wrong else f'{wrong} are wrong'}", flush=True)
    return wrong


def filled(first, unit, size):
    """Some first bytes, and then a unit again and again, up to a size."""
    return first + unit * ((size - len(first)) // len(unit))


def in_block(table, first, unit, size):
    """A load of a table whose block begins with some bytes and goes on with a unit, up to a size."""
    return filled(f"{TABLES}load {table}\n{first}".encode(), unit, size - 3) + b"\n.\n"


def nested(size):
    """Selects with 64 nested words `not`."""
    line = b"select count(*) from sales where " + b"not (" * 64 + b"units > 0" + b")" * 64 + b"\n"
    return filled(TABLES.encode(), line, size)


def wide(size):
    """Selects with 5,000 tests."""
    line = b"select count(*) from sales where units = 1" + b" or units = 1" * 5000 + b"\n"
    return filled(TABLES.encode(), line, size)


OPEN_LOAD = TABLES.encode() + b"load sales\n"
SYNTAX = "refused 1 syntax at "
UNKNOWN = "refused 2 unknown name"
# Each kind of script by its name: the script of a size, and how each reply begins, or nothing where there is none.
KINDS = {
    "one line without a line feed": (lambda size: b"x" * size, LIMIT),
    "one `load` line without a line feed": (lambda size: filled(b"load ", b"x", size), LIMIT),
    "one comment without a line feed": (lambda size: filled(b"--", b"x", size), None),
    "blanks without a line feed": (lambda size: b" " * size, None),
    "a block without its dot line": (lambda size: filled(OPEN_LOAD, b"1,5\n", size), SYNTAX + "10"),
    "the same, of lines with a dot and a blank": (lambda size: filled(OPEN_LOAD, b". \n", size), SYNTAX + "10"),
    "the same, of one line": (lambda size: filled(OPEN_LOAD, b"1", size), SYNTAX + "10"),
    "the same, after a `load` without a table": (lambda size: filled(b"load\n", b"select\n", size), SYNTAX + "4"),
    "a block with a quote that is not closed": (lambda size: in_block("store", '1,"', b"x\n", size), BAD),
    "a block of quotes": (lambda size: in_block("store", "1,", b'"', size), BAD),
    "a block of commas": (lambda size: in_block("store", "", b",", size), BAD),
    "blocks without records": (lambda size: filled(TABLES.encode(), b"load sales\n.\n", size), "commit"),
    "blocks of an unknown table": (lambda size: filled(TABLES.encode(), b"load nothing\n.\n", size), UNKNOWN),
    "lines of one byte": (lambda size: filled(b"", b"x\n", size), SYNTAX + "0"),
    "lines of the byte 0xFF": (lambda size: filled(b"", b"\xff\n", size), "refused 14 not UTF-8"),
    "lines of 64 open parentheses": (lambda size: filled(b"", b"(" * 64 + b"\n", size), SYNTAX + "0"),
    "selects with 64 nested `not (`": (nested, "answer"),
    "selects with 5,000 tests": (wide, "answer"),
    "lines of 65,536 zeros": (lambda size: filled(b"", b"0" * LINE + b"\n", size), SYNTAX + "0"),
    "names of 65,536 bytes": (lambda size: filled(b"", b"n" * LINE + b"\n", size), LIMIT),
    "waits": (lambda size: filled(b"", b"wait\n", size), "waited"),
}
IN_PIECES = ("a block without its dot line", "lines of one byte", "selects with 5,000 tests")


def fault_of(ran, due):
    """What is wrong with a run, or nothing. All replies but those to declarations, and rows of answers, begin alike."""
    lines = [line for line in ran.replies.splitlines() if line != b"0" and not line.startswith(b"table ")]
    status = 1 if due and due.startswith("refused") else 0
    right = all(line.startswith(due.encode()) for line in lines) if due else not lines
    if ran.status == status and right and (not due or lines):
        return None
    return f"status {ran.status}, {lines[:1]}"


def check_kind(launcher, program, name, sizes, library="", told=None):
    """Runs scripts of a kind and of growing sizes, prints their row, and returns how many are wrong."""
    make, due = KINDS[name]
    each, wrong = [], []
    for size in sizes:
        script = make(size)
        ran = launcher.run(program, [], [script], STACK, library)
        fault = fault_of(ran, due)
        if fault:
            wrong.append(fault)
        each.append((len(script), ran.seconds, ran.megabytes))
    if each[-1][1] / each[-1][0] > 3 * max(each[0][1], 0.01) / each[0][0]:
        wrong.append("not linear")
    cells = " | ".join(f"{seconds:.2f}" for _, seconds, _ in each)
    faults = "".join(f" WRONG: {it}" for it in wrong)
    print(f"| {told or name} | {cells} | {each[-1][2]:.0f} MB |{faults}", flush=True)
    return len(wrong)


def check_kinds(launcher, program, sizes):
    """Runs scripts of all kinds, prints the table, and returns how many are wrong."""
    print("\n| script | " + " | ".join(f"{size / MIB:g} MiB" for size in sizes) + " | memory |")
    print("|" + "---|" * (len(sizes) + 2))
    wrong = sum(check_kind(launcher, program, name, sizes) for name in KINDS)
    library = launcher.library("pieces", PIECES)
    for name in IN_PIECES:
        told = f"{name}, in pieces of one byte, a quarter of each size"
        wrong += check_kind(launcher, program, name, [size // 4 for size in sizes], library, told)
    return wrong


def main():
    """Reads the words, and runs all scripts."""
    parser = argparse.ArgumentParser(description=__doc__, formatter_class=argparse.RawDescriptionHelpFormatter)
    parser.add_argument("--program", default=str(CJOIN), help="the program to run (./cjoin)")
    parser.add_argument("--sizes", default="1,4,16", help="the sizes of scripts in MiB (1,4,16)")
    words = parser.parse_args()
    program = chosen(words.program)
    sizes = [int(float(size) * MIB) for size in words.sizes.split(",")]
    with Launcher() as launcher:
        wrong = sum(check_limits(launcher, program, stack) for stack in (0, STACK))
        wrong += check_kinds(launcher, program, sizes)
    print("\nall are right" if not wrong else f"\n{wrong} are wrong")
    return 1 if wrong else 0


if __name__ == "__main__":
    sys.exit(main())
