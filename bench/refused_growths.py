#!/usr/bin/env python3
"""Refuses the calls for memory of a run, one in each run, and checks the replies.

    python3 bench/refused_growths.py                   ./cjoin, in each mode, without workers and with two
    python3 bench/refused_growths.py --rest            refuses all calls from the K-th on, in place of the K-th alone
    python3 bench/refused_growths.py --program FILE    another program

The scripts are the first example, and one that has each form of a statement. For each K from 1 on there is a run in
which the K-th call for memory fails (`refused_growths.c`, compiled by `cc`), until a run ends before such a call.
Each run has to end within ten seconds with status 0, 1 or 5. At 0 and 1 there is a reply to each statement. The
statements whose reply is `memory` changed nothing: the other replies have to be those of the program to a script
without these statements, and the status is 1 if a reply is `memory` or a refusal. At 5 the bytes written have to be a
prefix of such replies. In the mode `make` the line has to report as many `memory` replies as the status asks for, and
at 5 there is no line. Each row of the table is a script and the words of the command line: the calls that were
refused, how many runs ended with each status, how many replies were `memory`, and how many runs were wrong. Python's
standard library and `cc` are all that this needs.
"""

import argparse
import collections
import functools
import os
import re
import subprocess
import sys
import tempfile

from program import CJOIN, TOP, chosen

SECONDS = 10
ENDS = (0, 1, 5)

FORMS = """-- each form of a statement
dimension store (id int key, city text)
dimension day (id text key, month int)
fact sales (store_id int references store, day_id text references day, units int, note text)
load store
1,Oslo
2,Rome
3,Bern
.
load day header
id,month
mon,1
"tue,sday",2
.
load sales
1,mon,5,a
2,mon,1,b
.
select count(*), sum(units), min(note), max(units) from sales
select city, month, count(*), sum(units) from sales, store, day where store_id = store.id and day_id = day.id group by city, month
select city, count(*) from sales, store where store_id = id and (city = 'Oslo' or not id between 2 and 3) group by city
load sales
1,"tue,sday",10,c
3,"tue,sday",9223372036854775807,d
2,mon,3,e
.
select city, sum(units) from sales, store where store_id = id and city in ('Oslo', 'Rome') and units > 1 group by city
wait
delete from sales where units = 1 or note = 'c'
select sum(units) from sales
select month, count(note) from sales, day where day_id = id and month >= 1 group by month
delete from sales
select city, count(*) from sales, store where store_id = id group by city
select count(*) form sales
select count(*) from sales, store
load sales
1,x,1,a
.
load store
1,Oslo
.
dimension late (id int key)
load sales
1,mon,1,end
.
select min(note), max(note) from sales where units <> 2
"""


def statements_of(script):
    """The text of each statement, with its block."""
    found, lines, at = [], script.splitlines(keepends=True), 0
    while at < len(lines):
        first = at
        at += 1
        words = lines[first].split()
        if not words or lines[first].lstrip().startswith("--"):
            continue
        if words[0] == "load":
            while lines[at] != ".\n":
                at += 1
            at += 1
        found.append("".join(lines[first:at]))
    return found


def replies_of(text):
    """The replies that make up a text, of which the last may be cut off."""
    found, lines, at = [], text.splitlines(keepends=True), 0
    while at < len(lines):
        rows = re.fullmatch(r"answer \d+ rows (\d+)\n", lines[at])
        end = at + 1 + (int(rows[1]) if rows else 0)
        found.append("".join(lines[at:end]))
        at = end
    return found


class Run:
    """A program whose calls for memory may be refused."""

    def __init__(self, program, library, rest):
        self.program, self.library, self.rest = program, library, rest
        self.known = {}

    def plain(self, statements):
        """The replies to statements if no call is refused, each query alone."""
        script = "".join(statements)
        if script not in self.known:
            words = [self.program, "--mode", "alone"]
            done = subprocess.run(words, input=script.encode(), stdout=subprocess.PIPE, check=False)
            self.known[script] = replies_of(done.stdout.decode())
        return self.known[script]

    def refused(self, words, script, at):
        """A run in which a call is refused: its status, what it wrote, and how many calls were refused."""
        with tempfile.TemporaryFile() as told:
            more = {"LD_PRELOAD": self.library, "REFUSE_AT": str(at), "REFUSED_FD": str(told.fileno())}
            if self.rest:
                more["REFUSE_REST"] = "1"
            done = subprocess.run(
                [self.program, *words], input=script.encode(), stdout=subprocess.PIPE, stderr=subprocess.DEVNULL,
                env={**os.environ, **more}, pass_fds=[told.fileno()], timeout=SECONDS, check=False,
            )
            return done.returncode, done.stdout.decode(), os.fstat(told.fileno()).st_size

    def wanted(self, statements, places):
        """The right replies if the statements at these places ran out of memory."""
        others = iter(self.plain([s for place, s in enumerate(statements) if place not in places]))
        return ["memory\n" if place in places else next(others) for place in range(len(statements))]

    def fault(self, statements, status, text):
        """What is wrong with what a run wrote, or nothing."""
        if status not in ENDS:
            return f"status {status}"
        replies = replies_of(text)
        places = {place for place, reply in enumerate(replies) if reply == "memory\n"}
        wanted = "".join(self.wanted(statements, places))
        if status == 5:
            return None if wanted.startswith(text) else "no prefix of the replies"
        if text != wanted:
            return "other replies"
        some = any(reply == "memory\n" or reply.startswith("refused ") for reply in replies)
        return None if status == some else f"status {status}"


def made_fault(status, text):
    """What is wrong with the line of the mode `make`, or nothing."""
    if status == 5:
        return None if text == "" else "a line at 5"
    numbers = r"commits \d+ answers \d+ rows \d+ overflows 0 refused (\d+) memory (\d+) bytes \d+ sum \d+"
    told = re.fullmatch(rf"summary statements 85 {numbers}\n", text)
    if not told:
        return "no line"
    return None if status == (int(told[1]) + int(told[2]) > 0) else f"status {status}"


def refuse_each(run, name, words, script, check):
    """Refuses each call for memory of a run in turn, prints a row, and returns what was refused and what is wrong."""
    statuses, memory, at, faults = collections.Counter(), 0, 1, []
    while True:
        try:
            status, text, refused = run.refused(words, script, at)
        except subprocess.TimeoutExpired:
            faults.append((at, f"no end within {SECONDS} seconds"))
            at += 1
            continue
        fault = check(status, text)
        if fault:
            faults.append((at, fault))
        if not refused:
            break
        statuses[status] += 1
        memory += text.count("memory\n")
        at += 1
    ends = [f"{statuses[status]:,}" for status in ENDS]
    cells = [name, f"`{' '.join(words)}`", f"{at - 1:,}", *ends, f"{memory:,}", str(len(faults))]
    print(f"| {' | '.join(cells)} |", flush=True)
    for place, fault in faults[:20]:
        told = f"WRONG where call {place} of {name} {' '.join(words)} is refused: {fault}"
        print(told, file=sys.stderr, flush=True)
    return at - 1, len(faults)


def tries(run):
    """What is run: a name, the words, the script, and how a run is checked."""
    example = (TOP / "examples" / "stores.cjoin").read_text()
    for name, script in {"`examples/stores.cjoin`": example, "each form of a statement": FORMS}.items():
        check = functools.partial(run.fault, statements_of(script))
        for words in (["--workers", "0"], ["--workers", "0", "--slots", "1", "--batch", "1"], ["--workers", "2"],
                      ["--workers", "2", "--slots", "2", "--batch", "1"], ["--mode", "alone"]):
            yield name, words, script, check
    for words in (["--mode", "make", "--rows", "0"], ["--mode", "make", "--rows", "0", "--workers", "2"]):
        yield "none", words, "", made_fault


def main():
    """Reads the words, and prints the table."""
    parser = argparse.ArgumentParser(description=__doc__, formatter_class=argparse.RawDescriptionHelpFormatter)
    parser.add_argument("--program", default=str(CJOIN), help="the program to run (./cjoin)")
    parser.add_argument("--rest", action="store_true", help="refuse all calls from the K-th on")
    options = parser.parse_args()
    calls, wrong = 0, 0
    ends = [f"ended with {status}" for status in ENDS]
    head = ["script", "words", "calls refused", *ends, "`memory` replies", "wrong"]
    print(f"| {' | '.join(head)} |\n" + "|---" * len(head) + "|")
    with tempfile.TemporaryDirectory() as folder:
        library = os.path.join(folder, "refused_growths.so")
        source = TOP / "bench" / "refused_growths.c"
        subprocess.run(["cc", "-O2", "-shared", "-fPIC", "-o", library, source], check=True)
        run = Run(chosen(options.program), library, options.rest)
        for it in tries(run):
            refused, faults = refuse_each(run, *it)
            calls, wrong = calls + refused, wrong + faults
    print(f"| all | | {calls:,} |" + " |" * (len(ENDS) + 1) + f" {wrong} |")
    return 1 if wrong else 0


if __name__ == "__main__":
    sys.exit(main())
