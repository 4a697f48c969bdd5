#!/usr/bin/env python3
"""Compares the processor time of a shared lap with that of a shared pass in C (`bench/bound.c`), and prints a table.

    ./cjoin --prove                                      first, so that the proved program is measured
    python3 bench/ratio.py                               ./cjoin over 1,000,000 sales, for 1, 4, 16 and 64 queries
    python3 bench/ratio.py --rows 100000 --queries 1,64  a smaller run
    python3 bench/ratio.py --program FILE                another program

The queries are those of `bench/burst.py`. The program runs a script with one load and many bursts, and the same
script with one burst. The time of a burst is the difference of the two processor times, divided by the number of
further bursts; so the load, which varies by more than a burst takes, is in both. The pass in C is timed in the same
repetition, without its load, and the faster of its two ways counts. The columns are medians of the repetitions, and
`times` is the median of the ratios. Every answer of the program is compared with that of both ways. Python's standard
library and `cc` are all that this needs.
"""

import argparse
import os
import statistics
import subprocess
import sys
import tempfile
from collections import namedtuple

import burst
from run import PROGRAM, TOP, Burst, answers_in, run

# The columns of a sale by their numbers: the keys of five dimensions, and two integers with the values that they take.
COLUMNS = {"store": 0, "product": 1, "customer": 2, "day": 3, "promo": 4, "units": 5, "price": 6}
RANGES = {"units": range(1, 21), "price": range(1, 1001)}
PASSES = 5
# How many times as long as the pass in C a lap should take at most.
GOALS = {1: "3", 16: "2.2", 64: "2.5"}

# A form of a query, in the order of burst.FORMS. `accepts` has a test for each column that is tested: whether a query
# with its numbers accepts a row of the dimension, or an integer. `groups` are columns of dimensions, each as a place in
# its rows. `sum` and `extreme` are columns; the extreme is the greatest value if `sign` is 1, the least if it is -1.
# `cells` makes the cells of an answer's row from the count, the sum and the extreme of a group.
Form = namedtuple("Form", "accepts groups sum extreme sign cells")
FORMS = (
    Form({"store": lambda row, bound: row[2] < bound}, [("store", 1)], "units", None, 1,
         lambda count, total, extreme: (count, total)),
    Form({"product": lambda row, most: 100 <= row[2] <= most}, [("product", 1)], "price", "units", 1,
         lambda count, total, extreme: (total, extreme)),
    Form({"customer": lambda row, least: row[2] >= least}, [("day", 1)], None, None, 1,
         lambda count, total, extreme: (count,)),
    Form({"units": lambda units, bound: units > bound}, [], "units", "price", -1,
         lambda count, total, extreme: (count, total, extreme)),
    Form({"promo": lambda row, channel, most: row[1] in ("P0", f"P{channel}"),
          "price": lambda price, channel, most: price <= most}, [("promo", 1), ("store", 1)], "price", None, 1,
         lambda count, total, extreme: (total,)),
)


class Plan:
    """What `bound.c` is to compute: a burst of queries, each with a bit. The bits of a form are consecutive."""

    def __init__(self, tables, count):
        self.tables, self.queries = tables, burst.drawn_queries(count)
        # The place in the burst of the query with each bit.
        self.places = sorted(range(count), key=lambda place: self.queries[place][0])
        self.asked = sorted({form for form, _ in self.queries})
        self.groups = {form: self.groups_of(form) for form in self.asked}

    def labels(self, dimension, place):
        """The values of a column of a dimension, in order."""
        return sorted({row[place] for row in self.tables[dimension]})

    def groups_of(self, form):
        """The values of the group columns of each group of a form, by the number of the group."""
        found = [()]
        for column in FORMS[form].groups:
            found = [(*before, value) for before in found for value in self.labels(*column)]
        return found

    def accepts(self, bit, column, value):
        """Whether the query with a bit accepts a value of a column."""
        form, numbers = self.queries[self.places[bit]]
        test = FORMS[form].accepts.get(column)
        return test is None or test(value, *numbers)

    def test(self, column):
        """The line of a tested column: its number, its least value, and for each value the bits that accept it."""
        words = []
        for value in RANGES.get(column) or self.tables[column]:
            word = sum(1 << bit for bit in range(len(self.places)) if self.accepts(bit, column, value))
            # The words have 64 bits, and are read as integers with a sign.
            words.append(word - (1 << 64) if word >> 63 else word)
        return [COLUMNS[column], min(RANGES.get(column, (0,))), len(words), *words]

    def form(self, form):
        """The line of a form, in the order of `read_form`."""
        of_form, stride = FORMS[form], len(self.groups[form])
        bits = [bit for bit, place in enumerate(self.places) if self.queries[place][0] == form]
        columns = [COLUMNS.get(name, -1) for name in (of_form.sum, of_form.extreme)]
        line = [bits[0], len(bits), stride, *columns, of_form.sign, len(of_form.groups)]
        for dimension, place in of_form.groups:
            labels = self.labels(dimension, place)
            stride //= len(labels)
            codes = [labels.index(row[place]) * stride for row in self.tables[dimension]]
            line += [COLUMNS[dimension], len(codes), *codes]
        return line

    def text(self):
        """The plan, as `read_plan` reads it."""
        tested = {column for form in self.asked for column in FORMS[form].accepts}
        tests = [self.test(column) for column in sorted(tested, key=COLUMNS.get)]
        forms = [self.form(form) for form in self.asked]
        lines = [[len(self.queries)], [len(tests)], *tests, [len(forms)], *forms]
        return "".join(" ".join(map(str, line)) + "\n" for line in lines)

    def answers(self, cells):
        """The rows of each answer, from the lines of `bound.c`: a bit, a group, and its count, sum and extreme."""
        found = [[] for _ in self.queries]
        for bit, group, *numbers in cells:
            form = self.queries[self.places[bit]][0]
            row = [*self.groups[form][group], *FORMS[form].cells(*numbers)]
            found[self.places[bit]].append(",".join(map(str, row)))
        for place, (form, _) in enumerate(self.queries):
            # A query without GROUP BY has a row, also where no sale is left.
            if not found[place] and not FORMS[form].groups:
                found[place] = ["0,null,null"]
        return [sorted(rows) for rows in found]


class Bound:
    """The pass in C, compiled in a folder, with the sales that it reads."""

    def __init__(self, folder, tables):
        self.folder = folder
        source = os.path.join(TOP, "bench", "bound.c")
        subprocess.run(["cc", "-O3", "-march=native", "-o", self.path("bound"), source], check=True)
        with open(self.path("sales"), "w") as file:
            file.writelines(",".join(map(str, row)) + "\n" for row in tables["sales"])

    def path(self, name):
        """The path of a file in the folder."""
        return os.path.join(self.folder, name)

    def measure(self, plan):
        """The seconds of processor time of the faster way, and the rows of each answer."""
        with open(self.path("plan"), "w") as file:
            file.write(plan.text())
        words = [self.path("bound"), self.path("sales"), self.path("plan"), str(PASSES)]
        told = subprocess.run(words, check=True, stdout=subprocess.PIPE, universal_newlines=True).stdout
        seconds, cells = {}, {}
        for first, *rest in map(str.split, told.splitlines()):
            if first.startswith("by_"):
                way = first
                seconds.setdefault(way, []).append(float(rest[0]))
            else:
                cells.setdefault(way, []).append([int(first), *map(int, rest)])
        answers = [plan.answers(cells.get(way, [])) for way in seconds]
        if answers[0] != answers[1]:
            sys.exit("the two ways of the pass in C disagree")
        return min(map(statistics.median, seconds.values())), answers[0]


def lap(program, load, count, wanted):
    """The seconds of processor time of one shared lap of so many queries. Its answers must be those that are wanted."""
    bursts, seconds = max(16, 128 // count), []
    for times in (bursts + 1, 1):
        written, used = run([program], load.script(count, times))
        seconds.append(used)
        if answers_in(written) != wanted * times:
            sys.exit(f"{program} and the pass in C disagree over {load.rows} rows and {count} queries")
    return (seconds[0] - seconds[1]) / bursts


def row(count, pairs):
    """A row of the table, from the seconds of the pass and of the lap in each repetition."""
    least, lasted = map(statistics.median, zip(*pairs))
    times = statistics.median(own / bound for bound, own in pairs)
    return f"| {count} | {least:.4f} | {lasted:.4f} | {times:.1f} | {GOALS.get(count, '')} |"


def main():
    """Reads the words, and prints the table."""
    parser = argparse.ArgumentParser(description=__doc__, formatter_class=argparse.RawDescriptionHelpFormatter)
    parser.add_argument("--rows", type=int, default=1_000_000, help="the number of sales (1,000,000)")
    parser.add_argument("--queries", default="1,4,16,64", help="numbers of queries, each at most 64 (1,4,16,64)")
    parser.add_argument("--repetitions", type=int, default=7, help="repetitions of each figure (7)")
    parser.add_argument("--program", default=PROGRAM, help="the program to measure (./cjoin)")
    words = parser.parse_args()
    load = Burst(words.rows)
    with tempfile.TemporaryDirectory() as folder:
        bound = Bound(folder, load.tables())
        print("| queries at once | the pass in C | one shared lap | times | goal |\n|---|---|---|---|---|")
        for count in map(int, words.queries.split(",")):
            plan, pairs = Plan(load.tables(), count), []
            for _ in range(words.repetitions):
                least, wanted = bound.measure(plan)
                pairs.append((least, lap(words.program, load, count, wanted)))
            print(row(count, pairs), flush=True)


if __name__ == "__main__":
    main()
