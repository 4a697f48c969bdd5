#!/usr/bin/env python3
"""Writes a script to the standard output: five dimensions, one load of sales, and a burst of star queries.

    python3 bench/burst.py ROWS QUERIES [TIMES] > burst
    time ./cjoin < burst

The time of the queries alone is the time of this script less that of the same script with 0 queries. A load varies by
a tenth of a second from run to run. Where that matters, the script asks the same burst several TIMES, each after the
one before it. All numbers are drawn by one linear congruence, so the same arguments write the same bytes. Python's
standard library is all that this needs.
"""

import sys

HEAD = """dimension store (id int key, region text, size int)
dimension product (id int key, brand text, cost int)
dimension customer (id int key, city text, age int)
dimension day (id int key, month int, weekday int)
dimension promo (id int key, channel text, level int)
fact sales (store_id int references store, product_id int references product, \
customer_id int references customer, day_id int references day, promo_id int references promo, units int, price int)
"""

# The five forms of a query, with places for its numbers.
FORMS = (
    "select region, count(*), sum(units) from sales, store where store_id = store.id and size < {} group by region",
    "select brand, sum(price), max(units) from sales, product where product_id = product.id"
    " and cost between 100 and {} group by brand",
    "select month, count(*) from sales, day, customer where day_id = day.id"
    " and customer_id = customer.id and age >= {} group by month",
    "select count(*), sum(units), min(price) from sales where units > {}",
    "select channel, region, sum(price) from sales, promo, store where promo_id = promo.id"
    " and store_id = store.id and channel in ('P0','P{}') and price <= {} group by channel, region",
)


class Draws:
    """A linear congruence modulo 2^31, without its lowest 16 bits."""

    def __init__(self, seed):
        self.state = seed

    def pick(self, bound):
        """The next number below a bound."""
        self.state = (self.state * 1103515245 + 12345) % (1 << 31)
        return (self.state >> 16) % bound


def dimensions(draws):
    """The rows of each dimension, by its name."""
    return {
        "store": [(key, f"R{draws.pick(8)}", draws.pick(1000)) for key in range(40)],
        "product": [(key, f"B{draws.pick(25)}", draws.pick(500)) for key in range(200)],
        "customer": [(key, f"C{draws.pick(50)}", 18 + draws.pick(70)) for key in range(500)],
        "day": [(key, 1 + key // 31, key % 7) for key in range(365)],
        "promo": [(key, f"P{draws.pick(4)}", draws.pick(5)) for key in range(10)],
    }


def sale(draws):
    """A row of the fact table: five keys, units and a price."""
    keys = [draws.pick(bound) for bound in (40, 200, 500, 365, 10)]
    return (*keys, 1 + draws.pick(20), 1 + draws.pick(1000))


def numbers(form, draws):
    """The numbers of a query of one of the five forms, from 0 to 4."""
    if form == 0:
        return (draws.pick(1000),)
    if form == 1:
        return (100 + draws.pick(400),)
    if form == 2:
        return (18 + draws.pick(70),)
    if form == 3:
        return (draws.pick(20),)
    return draws.pick(4), 1 + draws.pick(1000)


def load(name, rows):
    """A load of some rows."""
    lines = "".join(",".join(map(str, row)) + "\n" for row in rows)
    return f"load {name}\n{lines}.\n"


def drawn_queries(count):
    """The queries of a burst, each as its form and its numbers."""
    draws = Draws(1000010)
    return [(place % len(FORMS), numbers(place % len(FORMS), draws)) for place in range(count)]


def queries_of(count):
    """The queries of a burst, as statements."""
    return [FORMS[form].format(*drawn) for form, drawn in drawn_queries(count)]


def main():
    """Writes the script."""
    if len(sys.argv) not in (3, 4):
        sys.exit("usage: burst.py ROWS QUERIES [TIMES]")
    rows, queries, times = map(int, (*sys.argv[1:], "1")[:3])
    draws = Draws(7)
    sys.stdout.write(HEAD)
    for name, members in dimensions(draws).items():
        sys.stdout.write(load(name, members))
    sys.stdout.write(load("sales", (sale(draws) for _ in range(rows))))
    sys.stdout.write("wait\n")
    burst = "".join(line + "\n" for line in queries_of(queries)) + "wait\n"
    sys.stdout.write(burst * times)


if __name__ == "__main__":
    main()
