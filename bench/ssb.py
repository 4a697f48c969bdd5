#!/usr/bin/env python3
"""Writes the Star Schema Benchmark at a scale as a script with its thirteen queries, or measures and compares them.

    python3 bench/ssb.py 0.1 > benchmark               600,000 rows, and the thirteen queries after one `wait`
    python3 bench/ssb.py 0.1 --measure                 ./cjoin, sqlite3 and PostgreSQL: each query, and all at once
    python3 bench/ssb.py 0.1 --measure --program FILE  another program

The schema, the domains of the columns and the queries are those of O'Neil, O'Neil, Chen and Revilak, "The Star Schema
Benchmark and Augmented Fact Table Indexing" (TPCTC 2009), with fewer rows. A scale of 1 has 6,000,000 rows, and a
fact table here has at most 1,048,576, which is a scale of 0.174. If a query needs more than this language has, a
column holds it: a sum is over one column, so `lo_discounted` is the price times the discount, and `lo_profit` is the
revenue less the cost. Answers are sorted by the columns of `group by`, so `order by` is left out, and they are
compared as sets. All numbers are drawn by one linear congruence, so the same scale writes the same bytes. The figures
are seconds of processor time, measured as by `bench/run.py`. Python's standard library is all that this needs; a peer
is measured if it is installed.
"""

import argparse
import datetime
import functools
import sys

import run
from burst import Draws, load

MOST = 1048576  # the most rows of the fact table
ORDERED = datetime.date(1998, 8, 2)  # the last day of an order
DAYS = [datetime.date(1992, 1, 1) + datetime.timedelta(days=day) for day in range(2557)]

HEAD = """dimension dates (d_datekey int key, d_date text, d_dayofweek text, d_month text, d_year int, \
d_yearmonthnum int, d_yearmonth text, d_daynuminweek int, d_daynuminmonth int, d_daynuminyear int, \
d_monthnuminyear int, d_weeknuminyear int, d_sellingseason text)
dimension customer (c_custkey int key, c_name text, c_city text, c_nation text, c_region text, c_mktsegment text)
dimension supplier (s_suppkey int key, s_name text, s_city text, s_nation text, s_region text)
dimension part (p_partkey int key, p_name text, p_mfgr text, p_category text, p_brand1 text, p_color text, p_size int)
fact lineorder (lo_orderkey int, lo_linenumber int, lo_custkey int references customer, \
lo_partkey int references part, lo_suppkey int references supplier, lo_orderdate int references dates, \
lo_shipmode text, lo_quantity int, lo_extendedprice int, lo_discount int, lo_revenue int, lo_supplycost int, \
lo_tax int, lo_discounted int, lo_profit int)
"""

REGIONS = {
    "AFRICA": ("ALGERIA", "ETHIOPIA", "KENYA", "MOROCCO", "MOZAMBIQUE"),
    "AMERICA": ("ARGENTINA", "BRAZIL", "CANADA", "PERU", "UNITED STATES"),
    "ASIA": ("CHINA", "INDIA", "INDONESIA", "JAPAN", "VIETNAM"),
    "EUROPE": ("FRANCE", "GERMANY", "ROMANIA", "RUSSIA", "UNITED KINGDOM"),
    "MIDDLE EAST": ("EGYPT", "IRAN", "IRAQ", "JORDAN", "SAUDI ARABIA"),
}
NATIONS = [(nation, region) for region, nations in REGIONS.items() for nation in nations]
SEGMENTS = ("AUTOMOBILE", "BUILDING", "FURNITURE", "HOUSEHOLD", "MACHINERY")
COLORS = ("almond", "azure", "beige", "blue", "coral", "cream", "green", "ivory", "lemon", "olive", "plum", "red")
SHIPMODES = ("AIR", "FOB", "MAIL", "RAIL", "REG AIR", "SHIP", "TRUCK")
# The season of each month.
SEASONS = ("Winter",) * 2 + ("Spring",) * 3 + ("Summer",) * 3 + ("Fall",) * 3 + ("Christmas",)

# Each query by its number: the columns of its groups, the column that it sums, and its condition without the joins.
QUERIES = {
    "1.1": ("", "lo_discounted", "d_year = 1993 and lo_discount between 1 and 3 and lo_quantity < 25"),
    "1.2": ("", "lo_discounted", "d_yearmonthnum = 199401 and lo_discount between 4 and 6"
            " and lo_quantity between 26 and 35"),
    "1.3": ("", "lo_discounted", "d_weeknuminyear = 6 and d_year = 1994 and lo_discount between 5 and 7"
            " and lo_quantity between 26 and 35"),
    "2.1": ("d_year, p_brand1", "lo_revenue", "p_category = 'MFGR#12' and s_region = 'AMERICA'"),
    "2.2": ("d_year, p_brand1", "lo_revenue", "p_brand1 between 'MFGR#2221' and 'MFGR#2228' and s_region = 'ASIA'"),
    "2.3": ("d_year, p_brand1", "lo_revenue", "p_brand1 = 'MFGR#2239' and s_region = 'EUROPE'"),
    "3.1": ("c_nation, s_nation, d_year", "lo_revenue", "c_region = 'ASIA' and s_region = 'ASIA'"
            " and d_year between 1992 and 1997"),
    "3.2": ("c_city, s_city, d_year", "lo_revenue", "c_nation = 'UNITED STATES' and s_nation = 'UNITED STATES'"
            " and d_year between 1992 and 1997"),
    "3.3": ("c_city, s_city, d_year", "lo_revenue", "c_city in ('UNITED KI1', 'UNITED KI5')"
            " and s_city in ('UNITED KI1', 'UNITED KI5') and d_year between 1992 and 1997"),
    "3.4": ("c_city, s_city, d_year", "lo_revenue", "c_city in ('UNITED KI1', 'UNITED KI5')"
            " and s_city in ('UNITED KI1', 'UNITED KI5') and d_yearmonth = 'Dec1997'"),
    "4.1": ("d_year, c_nation", "lo_profit", "c_region = 'AMERICA' and s_region = 'AMERICA'"
            " and p_mfgr in ('MFGR#1', 'MFGR#2')"),
    "4.2": ("d_year, s_nation, p_category", "lo_profit", "c_region = 'AMERICA' and s_region = 'AMERICA'"
            " and d_year in (1997, 1998) and p_mfgr in ('MFGR#1', 'MFGR#2')"),
    "4.3": ("d_year, s_city, p_brand1", "lo_profit", "c_region = 'AMERICA' and s_nation = 'UNITED STATES'"
            " and d_year in (1997, 1998) and p_category = 'MFGR#14'"),
}
# The dimensions of a query, by the beginning of the names of their columns, and how the fact table joins them.
JOINS = {"d_": ("dates", "lo_orderdate = d_datekey"), "c_": ("customer", "lo_custkey = c_custkey"),
         "s_": ("supplier", "lo_suppkey = s_suppkey"), "p_": ("part", "lo_partkey = p_partkey")}


def query(number):
    """A query in the language of this program, which is SQL, too."""
    groups, measure, condition = QUERIES[number]
    words = f"{groups} {condition}".replace("(", " ").split()
    joined = [join for prefix, join in JOINS.items() if any(word.startswith(prefix) for word in words)]
    select = f"{groups}, sum({measure})" if groups else f"sum({measure})"
    tables = ", ".join(["lineorder", *(name for name, _ in joined)])
    where = " and ".join([*(test for _, test in joined), condition])
    return f"select {select} from {tables} where {where}" + (f" group by {groups}" if groups else "")


def wide(draws, bound):
    """The next number below a bound that may be past 32,768."""
    return ((draws.pick(32768) << 15) + draws.pick(32768)) % bound


def date_row(day):
    """A row of the dimension of dates."""
    name = day.strftime("%b")
    return (int(day.strftime("%Y%m%d")), day.strftime("%B %d %Y"), day.strftime("%A"), day.strftime("%B"), day.year,
            day.year * 100 + day.month, f"{name}{day.year}", (day.weekday() + 1) % 7 + 1, day.day,
            day.timetuple().tm_yday, day.month, (day.timetuple().tm_yday - 1) // 7 + 1, SEASONS[day.month - 1])


def place(draws):
    """A city with its nation and its region. A city has the first nine bytes of its nation's name, and a digit."""
    nation, region = NATIONS[draws.pick(len(NATIONS))]
    return f"{nation[:9]:<9}{draws.pick(10)}", nation, region


def part_row(key, draws):
    """A row of the dimension of parts: a maker has five categories, and a category has forty brands."""
    maker = f"MFGR#{1 + draws.pick(5)}"
    category = f"{maker}{1 + draws.pick(5)}"
    color = COLORS[draws.pick(len(COLORS))]
    name = f"{color} {COLORS[draws.pick(len(COLORS))]}"
    return key, name, maker, category, f"{category}{1 + draws.pick(40)}", color, 1 + draws.pick(50)


def price_of(part):
    """The price of a part in cents, by its key."""
    return 90000 + part // 10 % 20001 + 100 * (part % 1000)


def lines(count, sizes, draws):
    """The rows of the fact table: an order has one to seven lines, all of one customer and one day."""
    days = [int(day.strftime("%Y%m%d")) for day in DAYS if day <= ORDERED]
    order = 0
    while count > 0:
        order += 1
        customer, day = 1 + wide(draws, sizes["customer"]), days[draws.pick(len(days))]
        of_order = min(count, 1 + draws.pick(7))
        count -= of_order
        for number in range(1, of_order + 1):
            part, supplier = 1 + wide(draws, sizes["part"]), 1 + wide(draws, sizes["supplier"])
            quantity, discount, cost = 1 + draws.pick(50), draws.pick(11), 6 * price_of(part) // 10
            price = quantity * price_of(part)
            revenue = price * (100 - discount) // 100
            yield (order, number, customer, part, supplier, day, SHIPMODES[draws.pick(len(SHIPMODES))], quantity, price,
                   discount, revenue, cost, draws.pick(9), price * discount, revenue - cost)


@functools.lru_cache(maxsize=1)
def tables_at(scale):
    """The rows of each table at a scale by its name, in the order of their loads."""
    count = round(6000000 * scale)
    if not 0 < count <= MOST:
        sys.exit(f"the fact table has 1 to {MOST} rows, so a scale is at most 0.174")
    sizes = {"customer": max(1, round(30000 * scale)), "supplier": max(1, round(2000 * scale)),
             "part": max(1, round(200000 * scale))}
    draws, keys = Draws(7), {name: range(1, size + 1) for name, size in sizes.items()}
    return {
        "dates": [date_row(day) for day in DAYS],
        "customer": [(key, f"Customer#{key:09}", *place(draws), SEGMENTS[draws.pick(len(SEGMENTS))])
                     for key in keys["customer"]],
        "supplier": [(key, f"Supplier#{key:09}", *place(draws)) for key in keys["supplier"]],
        "part": [part_row(key, draws) for key in keys["part"]],
        "lineorder": list(lines(count, sizes, draws)),
    }


@functools.lru_cache(maxsize=1)
def loads_at(scale):
    """The declarations and the loads at a scale."""
    return HEAD + "".join(load(name, rows) for name, rows in tables_at(scale).items()) + "wait\n"


class Benchmark:
    """The benchmark at a scale, with some of its queries."""

    def __init__(self, scale, numbers):
        self.scale, self.numbers, self.rows = scale, numbers, round(6000000 * scale)

    def tables(self):
        """The rows of each table by its name, in the order of their loads."""
        return tables_at(self.scale)

    @staticmethod
    def declarations():
        """The declarations of the tables."""
        return HEAD

    def queries(self, count):
        """The first few queries, which are SQL, too."""
        return [query(number) for number in self.numbers[:count]]

    def script(self, queries, times):
        """The script that loads the tables, and asks the first few queries so many times."""
        return loads_at(self.scale) + ("".join(text + "\n" for text in self.queries(queries)) + "wait\n") * times


def measure(scale, program):
    """Prints a table of the seconds of each query, and of all at once. The answers of all parties are compared."""
    asked = run.parties(program, peers=True)
    loads = [party.loading(Benchmark(scale, []), 3) for party in asked]
    print("| query | " + " | ".join(party.name for party in asked) + " |")
    print("|" + "---|" * (len(asked) + 1))
    for name, numbers in [*((number, [number]) for number in QUERIES), ("all", list(QUERIES))]:
        benchmark, wanted, cells = Benchmark(scale, numbers), None, []
        for party, loaded in zip(asked, loads):
            seconds, wanted = run.measured(party, benchmark, len(numbers), 1, wanted, loaded)
            cells.append(f"{seconds:.3f}")
        print(f"| {name} | " + " | ".join(cells) + " |", flush=True)


def main():
    """Writes the script, or prints the table."""
    reader = argparse.ArgumentParser(description=__doc__, formatter_class=argparse.RawDescriptionHelpFormatter)
    reader.add_argument("scale", type=float, help="the rows of the fact table are 6,000,000 times this, at most 0.174")
    reader.add_argument("--measure", action="store_true", help="measure and compare, in place of writing the script")
    reader.add_argument("--program", default=run.PROGRAM, help="the program to measure (./cjoin)")
    words = reader.parse_args()
    if words.measure:
        measure(words.scale, words.program)
    else:
        sys.stdout.write(Benchmark(words.scale, list(QUERIES)).script(len(QUERIES), 1))


if __name__ == "__main__":
    main()
