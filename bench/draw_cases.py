#!/usr/bin/env python3
"""Draws random cases for `crates/star_cases`: scripts, and their replies as sqlite3 computes them over the same rows.

    python3 bench/draw_cases.py                        writes all cases into crates/star_cases/data
    python3 bench/draw_cases.py NAME ..                writes the cases with these names
    python3 bench/draw_cases.py --check                prints the files there that differ, and writes nothing
    python3 bench/draw_cases.py --seed 1 --folder DIR  writes other cases of the same sorts into a folder

Tables, conditions, groups and items are drawn, so that many queries share a lap whose rows differ in the slots that
get them, and in the values by which these slots group. A query of the language becomes a query in SQL by adding joins
and `order by`. sqlite3 gives up if a sum leaves 64 bits, even on the way. Then the sums are computed with Python's
integers, and the reply is `overflow` if one has no 64 bits in the end. All numbers are drawn by one linear
congruence, so the same arguments write the same bytes. A new case needs its line in crates/star_cases/stdout, too.
Python's standard library is all that this needs.
"""

import argparse
import re
import sqlite3
import sys
from pathlib import Path

from burst import Draws

DATA = Path(__file__).resolve().parent.parent / "crates" / "star_cases" / "data"
LEAST, GREATEST = -(2**63), 2**63 - 1
LONGEST_TEXT, LONGEST_LINE = 255, 65536
IN_QUOTES = re.compile("'(?:[^']|'')*'")


class WholeSum:
    """The exact sum of a group, as a text, because sqlite3 has no integer of more than 64 bits."""

    def __init__(self):
        self.sum, self.is_some = 0, False

    def step(self, number):
        self.sum, self.is_some = self.sum + number, True

    def finalize(self):
        return str(self.sum) if self.is_some else None


class Overflow(Exception):
    """The sum of a group has more than 64 bits."""


def in_64_bits(text):
    """The integer of a text that WholeSum wrote."""
    if text is None or LEAST <= int(text) <= GREATEST:
        return text if text is None else int(text)
    raise Overflow


def literal(value):
    """A value in a statement, and in a reply."""
    if value is None:
        return "null"
    return str(value) if isinstance(value, int) else "'" + value.replace("'", "''") + "'"


def field(value):
    """A value in a block of CSV."""
    text = str(value)
    return '"' + text.replace('"', '""') + '"' if any(sign in text for sign in ',"') else text


class Case:
    """A script and its replies, as they are drawn, and its tables in sqlite3."""

    def __init__(self, comment, seed):
        self.draws = Draws(seed)
        self.lines, self.replies, self.commits = [f"-- Drawn by chance: {comment}"], [], 0
        self.table_of, self.values, self.joins = {}, {}, {}
        self.base = sqlite3.connect(":memory:")
        self.base.create_aggregate("whole_sum", 1, WholeSum)

    # Draws.

    def pick(self, bound):
        return self.draws.pick(bound)

    def one_of(self, members):
        return members[self.pick(len(members))]

    def some_of(self, members, count):
        """So many members, each at most once, in a drawn order."""
        left = list(members)
        return [left.pop(self.pick(len(left))) for _ in range(min(count, len(left)))]

    def wide(self):
        """An integer of 64 bits."""
        bits = 0
        for _ in range(5):
            bits = bits << 13 | self.pick(1 << 13)
        return bits % 2**64 - 2**63

    # Statements.

    def say(self, line, reply):
        assert len(line.encode()) <= LONGEST_LINE
        self.lines.append(line)
        self.replies.append(reply)

    def declare(self, sort, name, columns):
        """Declares a table by its columns: each is a name, a kind, and for a foreign key the dimension."""
        own, in_sql = [], []
        for place, (column, kind, *target) in enumerate(columns):
            is_key = sort == "dimension" and place == 0
            own.append(f"{column} {kind}" + (" key" if is_key else "") + "".join(f" references {it}" for it in target))
            in_sql.append(f"{column} {'integer' if kind == 'int' else 'text'}" + (" primary key" if is_key else ""))
            self.table_of[column], self.values[column] = name, []
            for dimension in target:
                self.joins[dimension] = f"{column} = {self.key_of(dimension)}"
        self.base.execute(f"create table {name} ({', '.join(in_sql)})")
        self.say(f"{sort} {name} ({', '.join(own)})", f"table {name}")

    def key_of(self, dimension):
        return next(column for column, table in self.table_of.items() if table == dimension)

    def dimension(self, name, *columns):
        self.declare("dimension", name, columns)

    def fact(self, name, *columns):
        self.declare("fact", name, columns)

    def load(self, name, rows):
        """Loads rows, none of which is refused."""
        for row in rows:
            for value in row:
                assert LEAST <= value <= GREATEST if isinstance(value, int) else len(value.encode()) <= LONGEST_TEXT
        columns = [column for column, table in self.table_of.items() if table == name]
        for column, added in zip(columns, zip(*rows)):
            self.values[column] = sorted({*self.values[column], *added})
        self.base.executemany(f"insert into {name} values ({', '.join('?' * len(columns))})", rows)
        self.commits += 1
        self.lines += [f"load {name}", *(",".join(map(field, row)) for row in rows), "."]
        self.replies.append(f"commit {self.commits} rows {len(rows)}")

    def delete(self, name, condition=""):
        where = f" where {condition}" if condition else ""
        ended = self.base.execute(f"delete from {name}{where}").rowcount
        self.commits += 1
        self.say(f"delete from {name}{where}", f"commit {self.commits} rows {ended}")

    def wait(self):
        self.say("wait", "waited")

    def ask(self, items, conditions=(), groups=()):
        """A query over the fact table, joined with each dimension whose columns it names."""
        asked = IN_QUOTES.sub("", " ".join([*items, *conditions, *groups]))
        named = {self.table_of[word] for word in re.findall(r"\w+", asked) if word in self.table_of}
        fact = next(reversed(self.table_of.values()))
        joined = [dimension for dimension in self.joins if dimension in named]
        tests = [*(self.joins[dimension] for dimension in joined), *conditions]
        query = f"select {', '.join(items)} from {', '.join([fact, *joined])}"
        query += f" where {' and '.join(tests)}" if tests else ""
        query += f" group by {', '.join(groups)}" if groups else ""
        try:
            rows = self.rows_of(query + (f" order by {', '.join(groups)}" if groups else ""), items)
        except Overflow:
            self.say(query, f"overflow {self.commits}")
            return
        self.say(query, f"answer {self.commits} rows {len(rows)}")
        self.replies += [",".join(map(literal, row)) for row in rows]

    def rows_of(self, query, items):
        """The rows of an answer whose sums all have 64 bits in the end."""
        try:
            return self.base.execute(query).fetchall()
        except sqlite3.OperationalError as error:
            if "integer overflow" not in str(error):
                raise
        summed = [item.startswith("sum(") for item in items]
        rows = self.base.execute(query.replace("sum(", "whole_sum(")).fetchall()
        return [[in_64_bits(cell) if is_sum else cell for cell, is_sum in zip(row, summed)] for row in rows]

    # Conditions.

    def test(self, column):
        """A test of a column with some of its values, mostly a range."""
        values = self.values[column]
        low, high = sorted((self.pick(len(values)), self.pick(len(values))))
        low, high, form = literal(values[low]), literal(values[high]), self.pick(10)
        if form < 4:
            return f"{column} between {low} and {high}"
        if form < 6:
            return f"{column} {self.one_of(('<', '<=', '>', '>='))} {self.one_of((low, high))}"
        if form == 6:
            return f"{column} not between {low} and {high}"
        if form == 7:
            return f"{column} {self.one_of(('<>', '!='))} {low}"
        members = ", ".join(map(literal, self.some_of(values, 1 + self.pick(max(1, min(12, len(values) // 2))))))
        return f"{column} in ({members})" if form == 8 else f"{column} not in ({members})"

    def conjunct(self, columns):
        """A condition on the table of one of these columns."""
        first = self.one_of(columns)
        second = self.one_of([column for column in columns if self.table_of[column] == self.table_of[first]])
        form = self.pick(6)
        if form == 0:
            return f"({self.test(first)} or {self.test(second)})"
        if form == 1:
            return f"not ({self.test(first)} and {self.test(second)})"
        return self.test(first)

    def conjuncts(self, columns, most=2):
        """Up to so many conditions."""
        return [self.conjunct(columns) for _ in range(self.pick(most + 1))]

    def share_of(self, column, percent):
        """A range of so many of a hundred values of a column."""
        values = self.values[column]
        width = max(1, len(values) * percent // 100)
        low = self.pick(len(values) - width + 1)
        return f"{column} between {literal(values[low])} and {literal(values[low + width - 1])}"

    def mixed(self, groups, items):
        """The items of a query with most of its group columns among them."""
        plain = [column for column in groups if self.pick(8) > 0]
        return plain + list(items) if self.pick(4) > 0 else list(items) + plain


# Texts.

PLACE = "Llanfairpwllgwyngyllgogerychwyrndrobwllllantysiliogogogoch, "
SIGNS = "abcdefghijklmnopqrstuvwxyzABCDEFGHIJ0123456789 .'-"


def of_length(length):
    """A text of so many bytes. Each is a prefix of the longer ones."""
    return (PLACE * 5)[:length]


def ending(number):
    """A few bytes that differ from number to number."""
    return SIGNS[number % len(SIGNS)] + (ending(number // len(SIGNS)) if number >= len(SIGNS) else "")


def short_text(number):
    """The text with a number, of 0 to 15 bytes. Some have a letter outside ASCII."""
    if number == 0:
        return ""
    text = ("é" if number % 7 == 3 else "") + ending(number)
    return (text + of_length(number * 5 % 15))[:15] if number % 7 != 3 else text


def alike(number):
    """The text with a number. All of these have the same first 16 bytes."""
    return of_length(16) + (ending(number - 1) if number else "")


def near_ends(case):
    """An integer at or near an end of 63 or 64 bits, or near 0, or anywhere."""
    form, near = case.pick(8), case.pick(4)
    if form == 7:
        return case.wide()
    middle = (LEAST, GREATEST, -(2**62), 2**62, 0, -(2**32), 2**31)[form]
    return max(LEAST, min(GREATEST, middle + (near - 2 if form > 1 else near * (1 - 2 * form))))


# Cases.

CASES = {}


def named(case):
    """Keeps a case by its name. A seed other than 0 draws another case of the same sort."""
    CASES[case.__name__] = case
    return case


@named
def groups_by_a_text_of_each_length(seed):
    case = Case("a text of each length that a text may have, and some that differ in their last byte.", 11 + seed)
    case.dimension("word", ("id_word", "int"), ("one", "text"), ("whole", "text"))
    case.fact("said", ("to_word", "int", "word"), ("times", "int"))
    whole = [of_length(length) for length in range(256)]
    whole += [of_length((13, 16, 31, 253)[number // 3]) + "#" + ending(number) for number in range(12)]
    case.load("word", [(key, "of", whole[key]) for key in case.some_of(range(268), 268)])
    words = case.some_of(range(268), 100)
    case.load("said", [(key, case.pick(50) - 20) for key in words + case.some_of(words, 20)])
    case.ask(["sum(times)"], [], ["whole"])
    for groups in (["whole"], ["one", "whole"], ["one", "whole"]):
        case.ask([groups[-1], "sum(times)"], [case.share_of("id_word", 12)], groups)
    return case


@named
def groups_by_short_texts_and_by_pairs(seed):
    case = Case("texts of at most 15 bytes in 1, 16, 100 and 300 groups, each by itself and beside another.", 12 + seed)
    case.dimension("shop", ("id_shop", "text"), ("one", "text"), ("sixteen", "text"), ("hundred", "text"))
    case.fact("sales", ("to_shop", "text", "shop"), ("units", "int"))
    keys = [short_text(number) for number in range(300)]
    case.load("shop", [(keys[it], "", keys[it % 16], keys[it % 100]) for it in case.some_of(range(300), 300)])
    case.load("sales", [(keys[it], case.pick(2000) - 1000) for it in case.some_of(range(300), 300)])
    case.ask(["count(*)", "to_shop"], [], ["to_shop"])
    for groups in (["sixteen"], ["one", "hundred"], ["to_shop"], ["sixteen"], ["one", "hundred"]):
        few = [] if groups == ["sixteen"] else [case.share_of("id_shop", 30)]
        items = case.mixed(groups, case.one_of((["count(*)"], ["sum(units)"])))
        case.ask(items, case.conjuncts(["units"], 1) + few, groups)
    return case


@named
def groups_by_texts_of_the_same_16_bytes(seed):
    case = Case("texts that differ behind their first 16 bytes alone, among rows with short ones.", 13 + seed)
    case.dimension("road", ("id_road", "int"), ("road", "text"), ("town", "text"))
    case.fact("walks", ("to_road", "int", "road"), ("walker", "text"), ("miles", "int"))
    text = lambda number: short_text(number) if number < 20 else alike(number - 20)
    case.load("road", [(key, text(key), alike(key % 16)) for key in range(40)])
    case.load("walks", [(case.pick(40), text(case.pick(40)), case.pick(30)) for _ in range(60)])
    for number in range(9):
        groups = (["road"], ["walker"], ["town", "walker"])[number % 3]
        items = case.mixed(groups, case.one_of((["count(*)"], ["sum(miles)"], ["count(miles)", "sum(miles)"])))
        case.ask(items, case.conjuncts(["walker", "miles"], 1) + [case.share_of("id_road", 50)], groups)
    return case


@named
def least_and_greatest_near_the_ends_of_64_bits(seed):
    what = "integers at and near both ends of 63 and of 64 bits, as keys, groups, bounds, least and greatest."
    case = Case(what, 14 + seed)
    case.dimension("shop", ("id_shop", "int"), ("town", "text"), ("size", "int"))
    case.fact("sales", ("to_shop", "int", "shop"), ("sort", "int"), ("units", "int"), ("price", "int"))
    keys = sorted({near_ends(case) for _ in range(20)})
    case.load("shop", [(key, f"T{case.pick(4)}", near_ends(case)) for key in case.some_of(keys, len(keys))])
    sorts = [LEAST, -(2**62) - 1, -(2**62), 2**62, GREATEST]
    case.load("sales", [(case.one_of(keys), case.one_of(sorts), near_ends(case), near_ends(case)) for _ in range(40)])
    extremes = (["min(units)", "max(units)"], ["max(price)"], ["min(price)", "max(size)"],
                ["max(units)", "min(units)", "max(price)", "min(price)"])
    for number in range(12):
        groups = (["town"], [], ["sort", "town"], ["town"])[number % 4]
        items = case.mixed(groups, case.one_of((["count(*)"], [])) + extremes[number // 4 + (number % 4 == 2)])
        case.ask(items, case.conjuncts(["units", "price", "size", "id_shop", "sort"]), groups)
    return case


@named
def least_and_greatest_of_texts_at_once(seed):
    what = "least and greatest texts, short, long and of the same first bytes, beside sums and least integers."
    case = Case(what, 15 + seed)
    case.dimension("shop", ("id_shop", "int"), ("town", "text"), ("owner", "text"))
    case.fact("sales", ("to_shop", "int", "shop"), ("code", "text"), ("units", "int"))
    texts = [short_text(number) for number in range(12)] + [alike(number) for number in range(12)]
    texts += [of_length(length) for length in (15, 16, 17, 255)]
    case.load("shop", [(key, f"T{key % 4}", case.one_of(texts)) for key in range(12)])
    case.load("sales", [(case.pick(12), case.one_of(texts), case.pick(1000)) for _ in range(20)])
    case.load("sales", [(case.pick(12), case.one_of(texts[:12]), case.pick(1000)) for _ in range(20)])
    asked = (["min(code)", "max(code)"], ["min(code)", "min(units)"], ["min(units)", "sum(units)"],
             ["max(owner)", "sum(units)"])
    for number in range(14):
        groups = (["town"], [], ["town", "owner"])[number // 4 % 3]
        conditions = case.conjuncts(["units", "town", "code"])
        conditions += [case.share_of("id_shop", 40)] if len(groups) > 1 else []
        case.ask(case.mixed(groups, asked[number // 2 % 2 + number // 4]), conditions, groups)
    return case


@named
def sums_that_overflow_in_some_groups(seed):
    what = "groups whose sums are past 64 bits and groups whose are not, in queries that see parts of both."
    case = Case(what, 16 + seed)
    case.dimension("shop", ("id_shop", "int"), ("town", "text"), ("size", "int"))
    case.fact("sales", ("to_shop", "int", "shop"), ("day", "int"), ("units", "int"), ("price", "int"))
    case.load("shop", [(key, f"T{key % 9}", key * 3 % 10) for key in range(27)])
    # The sum of two sales of the town T0 has no 64 bits. Of T1 it has none, or the two cancel. All others have 64 bits.
    rows = []
    for _ in range(80):
        key, much = case.pick(27), 2**62 + case.pick(30000)
        price = (much, case.one_of((much, -much)))[key % 9] if key % 9 < 2 else case.pick(2**15) - 2**14
        rows.append((key, case.pick(12), case.pick(100), price))
    case.load("sales", rows)
    items = (["sum(price)"], ["count(*)", "sum(price)"], ["sum(price)", "sum(units)"], ["sum(units)"])
    for number in range(14):
        groups = (["town"], ["town", "size"], [], ["day"])[number % 4]
        conditions = [case.share_of("town", 60)] if case.pick(3) == 0 else []
        conditions += [case.share_of("day", 10 + case.pick(60))]
        case.ask(case.mixed(groups, items[number // 4]), conditions, groups)
    return case


@named
def sums_that_leave_64_bits_on_the_way(seed):
    case = Case("rows that make up for one another, far apart, so that sums leave 64 bits and come back.", 17 + seed)
    case.dimension("fund", ("id_fund", "int"), ("bank", "text"))
    case.fact("moves", ("to_fund", "int", "fund"), ("pair", "int"), ("step", "int"), ("amount", "int"))
    case.load("fund", [(key, f"B{key % 4}") for key in range(10)])
    rows = []
    for pair in range(40):
        fund, small = case.pick(10), case.pick(1000)
        amount = case.one_of((2**62, 2**62 + small, GREATEST, 2**61 + small, small))
        rows += [(fund, pair, 0, amount), (fund, pair, 1, small - amount if pair % 3 else -amount)]
    case.load("moves", case.some_of([row for row in rows if row[2] == 0], len(rows)))
    case.load("moves", case.some_of([row for row in rows if row[2] == 1], len(rows)))
    kinds = (["bank"], [], ["bank", "to_fund"], ["pair"])
    for number in range(14):
        groups = kinds[number % len(kinds)]
        sums = case.one_of((["sum(amount)"], ["sum(amount)", "count(*)"], ["sum(amount)", "sum(pair)"]))
        items = case.mixed(groups, sums)
        conditions = [case.share_of("pair", 30 + case.pick(70))]
        conditions += [case.test("to_fund")] if case.pick(2) else []
        conditions += [case.test("amount")] if number % 5 == 4 else []
        case.ask(items, conditions, groups)
    return case


@named
def more_kinds_of_rows_than_can_wait(seed):
    case = Case("pairs of queries by sixteen pairs of columns, of which each row goes to one or the other.", 18 + seed)
    case.dimension("shop", ("id_shop", "int"), ("town", "text"), ("size", "int"))
    case.dimension("item", ("id_item", "int"), ("brand", "text"), ("cost", "int"))
    case.fact("sales", ("to_shop", "int", "shop"), ("to_item", "int", "item"), ("units", "int"), ("price", "int"))
    case.load("shop", [(key, f"T{key}", case.pick(100)) for key in range(60)])
    case.load("item", [(key, f"B{key}", case.pick(100)) for key in range(20)])
    rows = [(case.pick(60), case.pick(20), case.pick(1000), case.pick(1000)) for _ in range(270)]
    # Some kinds return after the table of kinds is full.
    case.load("sales", rows + case.some_of(rows, 40))
    pairs = [(one, other) for one in ("town", "brand", "to_shop") for other in ("units", "price")]
    pairs += [(other, one) for one, other in pairs]
    pairs += [("town", "brand"), ("to_item", "town"), ("to_shop", "brand"), ("size", "cost")]
    for number, groups in enumerate(pairs):
        column = case.one_of(("units", "price", "size", "cost"))
        middle = case.values[column][len(case.values[column]) // 4 + case.pick(len(case.values[column]) // 2)]
        for sign in case.some_of(("<", ">="), 2):
            items = [groups[-1], "count(*)"] if number % 3 == 0 else [case.one_of(("sum(units)", "sum(price)"))]
            case.ask(items, [f"{column} {sign} {middle}"], groups)
    return case


def shops_and_items(case):
    """Declares two dimensions and a fact table, without rows."""
    case.dimension("shop", ("id_shop", "int"), ("town", "text"), ("size", "int"))
    case.dimension("item", ("id_item", "text"), ("brand", "text"), ("cost", "int"))
    case.fact("sales", ("to_shop", "int", "shop"), ("to_item", "text", "item"), ("units", "int"), ("price", "int"))


def more_shops(case, count):
    known = len(case.values["id_shop"])
    case.load("shop", [(key * 7 - 100, f"T{key % 6}", case.pick(100)) for key in range(known, known + count)])


def more_items(case, count):
    known = len(case.values["id_item"])
    brand = lambda key: alike(key % 5) if key % 3 == 0 else short_text(key % 7)
    case.load("item", [(f"i{key}", brand(key), case.pick(100)) for key in range(known, known + count)])


def more_sales(case, count):
    shops, items = case.values["id_shop"], case.values["id_item"]
    row = lambda: (case.one_of(shops), case.one_of(items), case.pick(60), case.pick(2000) - 1000)
    case.load("sales", [row() for _ in range(count)])


ITEMS = (["count(*)"], ["count(*)", "sum(units)"], ["sum(price)"], ["sum(units)", "sum(price)"],
         ["min(price)", "max(units)"], ["max(cost)", "sum(units)"], ["max(brand)"],
         ["count(*)", "min(town)", "sum(size)"])
TESTED = ["size", "units", "price", "cost", "brand", "town", "to_shop"]


def drawn_query(case, kinds, items=ITEMS):
    groups = case.one_of(kinds)
    case.ask(case.mixed(groups, case.one_of(items)), case.conjuncts(TESTED, 3), groups)


@named
def loads_and_deletes_among_queries_that_share(seed):
    case = Case("queries that share a lap and see other rows, since loads and deletes stand between them.", 20 + seed)
    shops_and_items(case)
    more_shops(case, 15)
    more_items(case, 12)
    more_sales(case, 40)
    for number in range(20):
        step = case.pick(8)
        if step == 0:
            more_sales(case, 5 + case.pick(20))
        elif step == 1:
            case.delete("sales", " and ".join([case.test("units"), case.test("price"), case.test("to_shop")]))
        elif step == 2 and number % 2:
            case.wait()
        else:
            drawn_query(case, (["town"], ["brand"]), ITEMS[:4])
    case.delete("sales")
    drawn_query(case, [["town"]])
    case.ask(["count(*)", "sum(units)", "min(price)"])
    return case


@named
def dimensions_that_grow_between_queries(seed):
    what = "each load brings rows of a dimension, or sales of the newest, and queries of both stand between."
    case = Case(what, 21 + seed)
    shops_and_items(case)
    case.ask(["town", "count(*)"], [], ["town"])
    case.ask(["count(*)", "sum(price)", "min(brand)"])
    for turn in range(4):
        more_shops(case, 1 + case.pick(25) if turn % 2 == 0 else 1)
        more_items(case, 1 + case.pick(8))
        more_sales(case, 5 + case.pick(15))
        for _ in range(3):
            drawn_query(case, (["town"], ["brand"], ["brand", "town"]), ITEMS[turn % 2 : 4])
        if turn == 2:
            case.wait()
    return case


@named
def more_than_four_items_or_two_group_columns(seed):
    what = "queries of one to nine sums, least and greatest values, by one to four of the same columns."
    case = Case(what, 22 + seed)
    case.dimension("shop", ("id_shop", "int"), ("town", "text"), ("size", "int"))
    case.fact("sales", ("to_shop", "int", "shop"), ("sort", "int"), *((f"m{number}", "int") for number in range(6)))
    case.load("shop", [(key, f"T{key % 6}", case.pick(4)) for key in range(20)])
    row = lambda: (case.pick(20), case.pick(3), *(case.pick(2000) - 1000 for _ in range(6)))
    case.load("sales", [row() for _ in range(45)])
    sums = [f"sum(m{number})" for number in range(6)]
    extremes = ["min(m0)", "max(m0)", "min(m5)", "max(size)"]
    kinds = (["town"], ["town", "sort"], ["sort", "town", "size"], ["town"], ["town", "sort", "size", "town"])
    for number in range(15):
        groups = kinds[number % len(kinds)]
        few = case.some_of(sums[:3], 1 + case.pick(3))
        many = case.some_of(sums, 2 + case.pick(4)) + case.some_of(extremes, case.pick(5))
        items = case.some_of((many if number % 4 == 3 else few) + ["count(*)"] * case.pick(3), 11)
        case.ask(case.mixed(groups, items), case.conjuncts(["m1", "m4", "size", "sort"]), groups)
    return case


def main():
    """Writes or compares the cases."""
    reader = argparse.ArgumentParser(description=__doc__, formatter_class=argparse.RawDescriptionHelpFormatter)
    reader.add_argument("names", nargs="*", metavar="NAME", help="the cases (all)")
    reader.add_argument("--check", action="store_true", help="compare, and write nothing")
    reader.add_argument("--folder", type=Path, default=DATA, help="the folder of the files (crates/star_cases/data)")
    reader.add_argument("--seed", type=int, default=0, help="draw other cases of the same sorts")
    words = reader.parse_args()
    others = 0
    for name in words.names or CASES:
        case = CASES[name](words.seed)
        for ending_of, lines in (("cjoin", case.lines), ("replies", case.replies)):
            file, made = words.folder / f"{name}.{ending_of}", "".join(line + "\n" for line in lines).encode()
            if not words.check:
                file.write_bytes(made)
            elif not file.exists() or file.read_bytes() != made:
                others += 1
                print(f"{file.name} differs from the drawn case")
    sys.exit(1 if others else 0)


if __name__ == "__main__":
    main()
