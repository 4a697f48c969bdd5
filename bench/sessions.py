#!/usr/bin/env python3
"""Puts one server under the load of many clients, checks each reply, and prints the figures as tables.

    python3 bench/sessions.py                          all of the following, with ./cjoin
    python3 bench/sessions.py mixed                    64 clients load, delete and ask for ten minutes
    python3 bench/sessions.py mixed --seconds 20       for twenty seconds
    python3 bench/sessions.py killed                   a client beside one that is killed at 1,000 places of its script
    python3 bench/sessions.py slow                     a client beside 63 that are silent, or do not read
    python3 bench/sessions.py burst                    64 clients with a query each at one moment, over 1,000,000 sales
    python3 bench/sessions.py load                     small queries while another client loads 262,144 sales
    python3 bench/sessions.py load --blocks 4 --rows 250000
    python3 bench/sessions.py --program FILE ..        another program
    python3 bench/sessions.py .. --workers 3 --slots 16 --batch 1024

The commits of all clients are one list. The reply to a change has the number of its commit, and an answer has the
number of commits that its query sees.

- mixed: a model of the tables applies the list. Each count of rows and each answer has to be the model's, and no
  number may be below one that a client had seen before the statement was sent. Clients cut lines, end in mid-line,
  leave replies unread, and return.
- killed: the steady client gets the same rows each time, and its numbers count its own commits, and those of the
  killed client that it sees.
- slow: the queries of the client take at most twice as long as alone, and the slow clients get their replies once
  they read them.
- burst: all answers agree.
- load: each answer is that of its snapshot.

A reply that does not come within a minute is a fault. A fault is printed, and the status is 1 then. All draws are
made by one linear congruence, but how clients meet varies from run to run. Python's standard library and a Linux with
/proc are all that this needs.
"""

import argparse
import os
import selectors
import socket
import statistics
import sys
import threading
import time
from pathlib import Path

import burst
import mixed
from serving import PATIENCE, Fault, Link, insist, print_table, serving, told, told_rows

TOP = Path(__file__).resolve().parent.parent
PASSED = ("workers", "slots", "batch")


def server_of(given):
    """A server of the program, with the words that are passed on to it."""
    words = [f"--{name}={getattr(given, name)}" for name in PASSED if getattr(given, name) is not None]
    return serving(given.program, *words, patience=given.patience)


def many(given):
    """Many clients for some time."""
    with server_of(given) as server:
        server.begin(mixed.TABLES, 3)
        clients = mixed.Mixed(server, given.clients, given.seconds, given.rows or 200_000, given.seed)
        clients.run()
        clients.tell()


# A client beside one that is killed.

KILLED_TABLES = """dimension store (id int key, city text)
fact sales (store_id int references store, client int, round int, units int)
load store
1,Bern
2,Oslo
.
"""
# All rounds have numbers of four digits.
FIRST_ROUND = 1000
OWN_SUM = "select count(*), sum(units) from sales where client = 0\n"
OF_OTHER = "select round, count(*), sum(units) from sales where client = 1 group by round\n"
# The statements of the killed client in a round, and what each reply has: the count of a commit, or rows of an answer.
OTHER = (
    ("load sales\n1,1,{0},1\n2,1,{0},2\n1,1,{0},3\n.\n", 3),
    ("select city, sum(units) from sales, store where store_id = id and client = 1 and round = {0} group by city\n",
     [b"'Bern',4", b"'Oslo',2"]),
    ("load sales\n2,1,{0},10\n1,1,{0},20\n.\n", 2),
    ("delete from sales where client = 1 and round = {0} and units = 2\n", 1),
    ("select count(*), sum(units) from sales where client = 1 and round = {0}\n", [b"4,34"]),
    ("load sales\n1,1,{0},100\n.\n", 1),
    ("select min(units), max(units) from sales where client = 1 and round = {0}\n", [b"1,100"]),
)
# The count and the sum of a round's sales after each of its commits.
AFTER = ((0, 0), (3, 6), (5, 36), (4, 34), (5, 134))


def commits_of(told_by_replies):
    """How many of these replies are to commits."""
    return sum(isinstance(means, int) for means in told_by_replies)


class Steady:
    """The client that goes on. The numbers of its replies count its own commits, and some of the other client."""

    def __init__(self, server):
        self.link, self.own, self.others, self.replies = Link(server, quick=True), 1, 0, 0
        # How many commits of the other client a round may have.
        self.least, self.most = {}, {}

    def say(self, change):
        """Sends a change, and asks for its own sales, and for those of the other client."""
        self.link.send(change + OWN_SUM + OF_OTHER)

    def hear(self, row):
        """Takes the replies to what it sent: the change had two rows, and its own sales make this row."""
        number, count, _ = told(self.link.reply(), b"commit")
        self.own += 1
        self.count(number)
        insist(count == 2, "a commit of the steady client has", count, "rows in place of 2")
        self.count(told_rows(self.link.reply(), [row]))
        number, _, rows = told(self.link.reply(), b"answer")
        self.count(number)
        self.compare(number, rows)

    def count(self, number):
        """Takes the number of a reply."""
        others = number - self.own
        insist(self.others <= others <= sum(self.most.values()), "the steady client got the number", number, "after",
               self.own, "commits of its own and", self.others, "of the other client")
        self.others, self.replies = others, self.replies + 1

    def compare(self, number, rows):
        """Checks that some commits of each round leave the rows of the other client, and make up the number."""
        found = {}
        for row in rows:
            which, *sums = map(int, row.split(b","))
            insist(tuple(sums) in AFTER, "at", number, "round", which, "of the other client has", sums)
            found[which] = AFTER.index(tuple(sums))
        for which, most in self.most.items():
            seen, least = found.get(which, 0), self.least[which]
            insist(least <= seen <= most, "round", which, "has", seen, "commits, and may have", least, "to", most)
        seen = sum(found.values())
        insist(seen == self.others, "the answer at", number, "sees", seen, "commits of the other client")


class Kill:
    """A round of the killed client: how much of its script it sends, whether it waits for replies, and how it ends."""

    def __init__(self, number):
        self.round = FIRST_ROUND + number
        texts = [text.format(self.round) for text, _ in OTHER]
        self.script = "".join(texts)
        ends = [sum(map(len, texts[: place + 1])) for place in range(len(texts))]
        turn, self.sent = divmod(number, len(self.script) + 1)
        # Each place of the script meets each of four ways.
        way = (turn + self.sent) % 4
        whole = sum(end <= self.sent for end in ends)
        # A delete that is cut off would delete more, so it has to be reset.
        in_delete = whole < len(texts) and texts[whole].startswith("delete")
        self.waits, self.resets = way >= 2, way % 2 == 0 or in_delete
        self.replies = [means for _, means in OTHER[:whole]]
        # At the end of the input a last line without its line feed is a statement.
        carried = whole if self.resets else sum(end <= self.sent + 1 for end in ends)
        self.most = commits_of(means for _, means in OTHER[:carried])

    def run(self, server):
        """Sends, perhaps waits for replies, and ends. Returns how many of its commits are carried out for certain."""
        link = Link(server, quick=True)
        link.send(self.script[: self.sent])
        for means in self.replies if self.waits else ():
            self.compare(link.reply(), means)
        if self.resets:
            link.reset()
            return commits_of(self.replies) if self.waits else 0
        if self.waits:
            insist(len(link.rest()) <= 1, "the killed client got more replies than it sent statements")
        else:
            link.end()
        link.close()
        return self.most if self.waits else 0

    @staticmethod
    def compare(reply, means):
        """Compares a reply with what it has to have."""
        if isinstance(means, int):
            insist(told(reply, b"commit")[1] == means, "a commit of the killed client has", int(reply[0][3]), "rows")
        else:
            told_rows(reply, means)


def killed(given):
    """Runs a steady client beside one that is killed again and again."""
    with server_of(given) as server:
        server.begin(KILLED_TABLES, 3)
        steady = Steady(server)
        for number in range(given.count):
            kill = Kill(number)
            steady.least[kill.round], steady.most[kill.round] = 0, kill.most
            steady.say(f"load sales\n1,0,{kill.round},5\n2,0,{kill.round},7\n.\n")
            least = kill.run(server)
            steady.hear(b"2,12")
            steady.least[kill.round] = least
            steady.say("delete from sales where client = 0\n")
            steady.hear(b"0,null")
        insist(not steady.link.rest(), "the steady client got a reply too many")
        head = ("killed", "replies to the steady client", "commits sent by the killed one", "of these seen in the end")
        figures = (given.count, steady.replies, sum(steady.most.values()), steady.others)
        print_table(head, [f"{figure:,}" for figure in figures])


# A client beside slow ones.

NOTES = 16_384
SLOW_TABLES = """dimension store (id int key, city text)
fact sales (store_id int references store, units int, note text)
"""
SMALL = "select count(*), sum(units) from sales where units < 50\n"
# The reply to this has 3.4 MB.
LARGE = "select note, count(*) from sales group by note\n"
UNREAD = 2
# A receiver with small buffers, so that replies that it does not read stay with the server.
NARROW = ((socket.IPPROTO_TCP, socket.TCP_MAXSEG, 536), (socket.SOL_SOCKET, socket.SO_RCVBUF, 4096))


class Slow:
    """A client that is silent, that stops in mid-line, or that does not read large replies."""

    def __init__(self, server, number):
        self.way = number % 3
        self.link = Link(server, *NARROW) if self.way == 2 else Link(server)
        self.link.send(("", SMALL[:20], LARGE * UNREAD)[self.way])

    def wake(self, small, large):
        """Sends the rest and reads, and checks the replies."""
        self.link.send((SMALL, SMALL[20:], "")[self.way])
        for rows in [large] * UNREAD if self.way == 2 else [small]:
            told_rows(self.link.reply(), rows)
        insist(not self.link.rest(), "a slow client got a reply too many")
        self.link.close()


def seconds_of_queries(link, rows):
    """The seconds of 100 small queries, one after another: the least of ten."""
    least = float("inf")
    for _ in range(10):
        start = time.monotonic()
        for _ in range(100):
            told_rows(link.ask(SMALL), rows)
        least = min(least, time.monotonic() - start)
    return least


def seconds_at_rest(server):
    """The processor time of the server in a second without a statement."""
    before = server.used()
    time.sleep(1.0)
    return server.used() - before


def slow(given):
    """Runs a client beside slow ones."""
    notes = [f"{key:08}" + "x" * 192 for key in range(NOTES)]
    sales = "".join(f"1,{key % 100},{note}\n" for key, note in enumerate(notes))
    units = [key % 100 for key in range(NOTES) if key % 100 < 50]
    small, large = [f"{len(units)},{sum(units)}".encode()], [f"'{note}',1".encode() for note in notes]
    with server_of(given) as server:
        server.begin(SLOW_TABLES + "load store\n1,Bern\n.\nload sales\n" + sales + ".\n", 4)
        link = Link(server)
        alone = seconds_of_queries(link, small)
        link.rest()
        link.close()
        others = [Slow(server, number) for number in range(given.clients - 1)]
        server.settle()
        idle = seconds_at_rest(server)
        link = Link(server)
        beside, memory = seconds_of_queries(link, small), server.memory()
        for other in others:
            other.wake(small, large)
        told_rows(link.ask(SMALL), small)
        head = ("slow clients", "100 queries alone, s", "beside the slow clients, s",
                "processor time of a second without a statement, s", "memory")
        print_table(head, [str(len(others)), f"{alone:.4f}", f"{beside:.4f}", f"{idle:.2f}", f"{memory:.0f} MB"])
        insist(beside <= alone * given.factor, "beside slow clients a query takes over", given.factor, "times as long")


# Queries at one moment.


def timed(server, way):
    """The seconds of a way to ask by the clock, those of processor time of the server, and the replies."""
    server.settle()
    used, start = server.used(), time.monotonic()
    replies = way()
    clock = time.monotonic() - start
    server.settle()
    return clock, server.used() - used, replies


def one_by_one(link, queries):
    """Sends each query after the reply to the one before it, and returns the replies."""
    return [link.ask(query) for query in queries]


def in_one_piece(link, queries):
    """Sends all queries in one piece, and returns the replies."""
    link.send("".join(queries))
    return [link.reply() for _ in queries]


def at_one_moment(links, queries):
    """Sends a query over each connection, and returns the replies."""
    for link, query in zip(links, queries):
        link.send(query)
    with selectors.DefaultSelector() as waiting:
        for link in links:
            waiting.register(link, selectors.EVENT_READ)
        while waiting.get_map():
            ready = waiting.select(links[0].socket.gettimeout())
            insist(ready, len(waiting.get_map()), "replies do not come")
            for key, _ in ready:
                insist(key.fileobj.receive(), "a connection was closed before its reply came")
                if key.fileobj.ready:
                    waiting.unregister(key.fileobj)
    return [link.reply() for link in links]


def at_once(given):
    """Measures clients that ask at one moment, and one client that asks the same queries."""
    sales, draws = given.rows or 1_000_000, burst.Draws(7)
    loads = [burst.load(name, members) for name, members in burst.dimensions(draws).items()]
    loads.append(burst.load("sales", (burst.sale(draws) for _ in range(sales))))
    queries = [query + "\n" for query in burst.queries_of(given.clients)]
    with server_of(given) as server:
        server.begin(burst.HEAD + "".join(loads), 2 * len(loads))
        links = [Link(server) for _ in queries]
        ways = {
            "one client, each after the reply to the one before": lambda: one_by_one(links[0], queries),
            "one client, all in one piece": lambda: in_one_piece(links[0], queries),
            f"{len(links)} clients, one each, at one moment": lambda: at_one_moment(links, queries),
        }
        runs = [[timed(server, way) for way in ways.values()] for _ in range(given.times)]
    first = runs[0][0][2]
    insist(all(words[0] == b"answer" for words, _ in first), "a query has no answer")
    insist(all(replies == first for run in runs for _, _, replies in run), "the answers differ")
    rows = []
    for place, name in enumerate(ways):
        clock, used = (min(run[place][which] for run in runs) for which in (0, 1))
        rows.append([name, f"{clock:.3f}", f"{used:.2f}"])
    print_table([f"{len(queries)} queries asked by", "seconds by the clock", "processor time of the server"], *rows)


# Small queries while another client loads.

LOAD_TABLES = "dimension store (id int key, city text)\nfact sales (store_id int references store, units int)\n"
STORES = 40
FEW = 1_000


def units_of(number):
    return number % 100


def load_of(first, count):
    """A load of sales with the numbers from the first on."""
    return burst.load("sales", ((number % STORES, units_of(number)) for number in range(first, first + count)))


def row_of(count):
    """The row of the answer to the small query over so many sales."""
    units = [units_of(number) for number in range(count) if units_of(number) < 50]
    return f"{len(units)},{sum(units)}".encode()


class Loader(threading.Thread):
    """A client that sends loads, one after another, and keeps the number, the count and the seconds of each."""

    def __init__(self, server, loads):
        super().__init__(daemon=True)
        self.link, self.loads, self.taken, self.fault = Link(server), loads, [], None

    def run(self):
        try:
            for load in self.loads:
                start = time.monotonic()
                number, count, _ = told(self.link.ask(load), b"commit")
                self.taken.append((number, count, time.monotonic() - start))
        except (Fault, OSError) as fault:
            self.fault = fault


def asked(link, rows_at):
    """The seconds of a small query, whose row has to be that of its snapshot."""
    start = time.monotonic()
    number, _, rows = told(link.ask(SMALL), b"answer")
    seconds = time.monotonic() - start
    insist(rows == [rows_at.get(number)], "at", number, rows, "came in place of", rows_at.get(number))
    return seconds


def asked_beside(link, rows_at, loader):
    """The seconds of small queries, as long as the loads go on."""
    times = []
    loader.start()
    while loader.is_alive():
        times.append(asked(link, rows_at))
    insist(loader.fault is None, "the client that loads:", loader.fault)
    return times


def beside_loads(given):
    """Measures a client that asks small queries while another loads."""
    rows = given.rows or 262_144
    counts = [FEW + place * rows for place in range(given.blocks)]
    rows_at = {number: row_of(count) for number, count in enumerate([*counts, counts[-1] + rows], 2)}
    with server_of(given) as server:
        stores = burst.load("store", [(key, "Bern") for key in range(STORES)])
        server.begin(LOAD_TABLES + stores + load_of(0, FEW), 4)
        link, loader = Link(server), Loader(server, [load_of(first, rows) for first in counts])
        before = [asked(link, rows_at) for _ in range(200)]
        beside = asked_beside(link, rows_at, loader)
        after = [asked(link, rows_at) for _ in range(200)]
    loads = [(number, rows) for number in list(rows_at)[1:]]
    insist([taken[:2] for taken in loader.taken] == loads, "the loads:", loader.taken)
    seconds = f"during {given.blocks} loads, of {max(taken[2] for taken in loader.taken):.2f} s at most"
    table = [
        [name, f"{len(times):,}", f"{statistics.median(times) * 1e3:.2f}", f"{max(times) * 1e3:.2f}"]
        for name, times in (("before the loads", before), (seconds, beside), ("after them", after))
    ]
    print_table(("small queries", "how many", "the median, ms", "the longest, ms"), *table)


WAYS = {"mixed": many, "killed": killed, "slow": slow, "burst": at_once, "load": beside_loads}


def words():
    """The settings from the command line."""
    parser = argparse.ArgumentParser(description=__doc__, formatter_class=argparse.RawDescriptionHelpFormatter)
    parser.add_argument("what", nargs="?", default="all", choices=["all", *WAYS])
    parser.add_argument("--program", default=str(TOP / "cjoin"), help="the program to run (./cjoin)")
    parser.add_argument("--clients", type=int, default=64, help="clients in mixed, slow and burst (64)")
    parser.add_argument("--seconds", type=float, default=600, help="seconds of mixed (600)")
    parser.add_argument("--seed", type=int, default=7, help="the seed of the draws of mixed (7)")
    parser.add_argument("--rows", type=int, help="sales in mixed (200,000), in burst (1,000,000), of a load (262,144)")
    parser.add_argument("--count", type=int, default=1_000, help="how often killed kills (1,000)")
    parser.add_argument("--factor", type=float, default=2.0, help="how many times as long a query of slow may take (2)")
    parser.add_argument("--times", type=int, default=5, help="how often burst asks, of which the least counts (5)")
    parser.add_argument("--blocks", type=int, default=1, help="loads in load (1)")
    parser.add_argument("--patience", type=float, default=PATIENCE, help="seconds in which each reply has to come (60)")
    for name in PASSED:
        parser.add_argument(f"--{name}", type=int, help="passed on to the program")
    given = parser.parse_args()
    given.program = os.path.abspath(given.program)
    return given


def main():
    """Runs what is named, or everything."""
    given, status = words(), 0
    for name in WAYS if given.what == "all" else [given.what]:
        try:
            WAYS[name](given)
        except (Fault, OSError) as fault:
            print(f"{name}: {fault}", flush=True)
            status = 1
    return status


if __name__ == "__main__":
    sys.exit(main())
