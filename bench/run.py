#!/usr/bin/env python3
"""Measures bursts of star queries: in one shared lap, each query alone, and in sqlite3 and PostgreSQL if installed.

    ./cjoin --prove                                    first, so that the proved program is measured
    python3 bench/run.py                               ./cjoin over 1,000,000 sales, bursts of 1, 4, 16 and 64 queries
    python3 bench/run.py --rows 100000 --queries 1,64  a smaller run
    python3 bench/run.py --svg docs/speed.svg          the same, and the picture
    python3 bench/run.py --workers 0,1,2,3             what workers bring by the clock, and what they cost
    python3 bench/run.py --program FILE                another program

Each figure is the processor time of one burst on all processors together, in seconds. It is the least of several runs
of a script of `bench/burst.py`, less the least of several runs of the same script without its queries. The script
asks the burst sixteen times or more, and twice or more where each query is alone, because a load varies from run to
run by more than a burst takes. A peer takes longer, so it is asked each burst once, and reports the time itself:
sqlite3 by its timer, PostgreSQL by the hundredths of a second that the answering process has used. The answers of all
are compared with those of the first shared lap, and the table is written to the standard output. A peer has the same
tables, rows and queries, and an index over each key of a dimension. The server of PostgreSQL is started for the run
alone, listens on a socket in a new folder and nowhere else, and is ended after it.

With --workers only bursts are measured: the least time of a script with 32 of them, less the least time of one with
2. The runs of all numbers of workers alternate, so that other load on the machine affects all alike. Python's
standard library is all that this needs.
"""

import argparse
import functools
import glob
import os
import pwd
import re
import resource
import shutil
import subprocess
import sys
import tempfile
import time

import burst

TOP = os.path.dirname(os.path.dirname(os.path.abspath(__file__)))
PROGRAM = os.path.join(TOP, "cjoin")
# The goals of docs/SPEED.md: how many times as long as one query a burst should take at most, and how many times as
# fast by the clock it should be with workers, by the rows of a batch and the numbers of queries and workers. With
# workers it should take at most MOST_USED times as much processor time.
GOALS = {64: "4"}
WORKER_GOALS = {
    1024: {(1, 1): "1.6", (16, 1): "1.6", (64, 1): "1.6", (1, 3): "1.8", (16, 3): "2.5", (64, 3): "2.5"},
    256: {(16, 3): "1.8", (64, 3): "1.8"},
}
MOST_USED = "1.10"
COLORS = ("#1f6fb2", "#c8641e", "#3a8a4d", "#8a3a7d")


def seconds_of_children():
    """The processor time of all commands that have ended so far."""
    used = resource.getrusage(resource.RUSAGE_CHILDREN)
    return used.ru_utime + used.ru_stime


def run(words, text, **how):
    """What a program writes to its standard output when it reads a text, and its seconds of processor time."""
    before = seconds_of_children()
    done = subprocess.run(words, input=text.encode(), stdout=subprocess.PIPE, stderr=subprocess.PIPE, **how)
    if done.returncode != 0:
        sys.exit(f"{words[0]} ended with {done.returncode}: {done.stderr.decode()[:300]}")
    if b"is not proved" in done.stderr:
        sys.exit("run ./cjoin --prove first: only the proved program is measured")
    return done.stdout.decode(), seconds_of_children() - before


def seconds_of_a_burst(words, once, often, bursts):
    """The seconds of processor time of a burst, from a script that asks it once, and one that asks it more often."""
    short, long = run(words, once)[1], run(words, often)[1]
    return (long - short) / bursts


def answers_in(replies):
    """The rows of each answer among some replies, sorted, without the quotes around texts."""
    lines, found, at = replies.splitlines(), [], 0
    while at < len(lines):
        words = lines[at].split(" ")
        at += 1
        if words[0] == "answer":
            count = int(words[3])
            found.append(sorted(line.replace("'", "") for line in lines[at : at + count]))
            at += count
    return found


class Burst:
    """A load to measure: the tables of `bench/burst.py` with so many sales, and its list of queries."""

    def __init__(self, rows):
        self.rows = rows

    @functools.lru_cache(maxsize=2)
    def script(self, queries, times):
        """The script that loads the tables, and asks the first few queries so many times."""
        words = [sys.executable, os.path.join(TOP, "bench", "burst.py"), str(self.rows), str(queries), str(times)]
        return subprocess.run(words, check=True, capture_output=True, text=True).stdout

    def queries(self, count):
        """The first few queries, which are SQL, too."""
        return burst.queries_of(count)

    @functools.lru_cache(maxsize=1)
    def tables(self):
        """The rows of each table by its name, in the order of their loads."""
        draws = burst.Draws(7)
        made = burst.dimensions(draws)
        made["sales"] = [burst.sale(draws) for _ in range(self.rows)]
        return made

    @staticmethod
    def declarations():
        """The declarations of the tables."""
        return burst.HEAD


class Cjoin:
    """The program of this repository, in one of its modes."""

    def __init__(self, name, program, mode):
        self.name, self.words, self.shares = name, [program, "--mode", mode], mode == "run"

    def times(self, queries):
        """How often a script asks a burst, so that the bursts take longer than the loads vary from run to run."""
        return max(16, 128 // queries) if self.shares else max(2, 16 // queries)

    def loading(self, load, repetitions):
        """The seconds of the loads, which the time of `answers` includes."""
        return min(self.answers(load, 0, 1)[1] for _ in range(repetitions))

    def answers(self, load, queries, times):
        """The rows of each answer, and the seconds of the whole script."""
        text, seconds = run(self.words, load.script(queries, times))
        return answers_in(text), seconds


def in_sql(declarations):
    """The statements in SQL that make the tables."""
    statements = []
    for line in declarations.splitlines():
        columns = re.sub(r" references \w+", "", line.split("(", 1)[1]).replace("int key", "int primary key")
        # An int has 64 bits here, and is a bigint there.
        statements.append(f"create table {line.split()[1]} ({re.sub(r' int', ' bigint', columns)};")
    return statements


def records(rows):
    """Some rows as CSV."""
    return "".join(",".join(map(str, row)) + "\n" for row in rows)


def parts(text):
    """The rows of each answer in an output that has a line `--` before each answer."""
    found = []
    for line in text.splitlines():
        if line == "--":
            found.append([])
        elif found and line:
            found[-1].append(line)
    return [sorted(lines) for lines in found]


class Sqlite:
    """sqlite3 over a database in memory."""

    name = "sqlite3"

    @staticmethod
    def is_there():
        return shutil.which("sqlite3") is not None

    @staticmethod
    def times(queries):
        return 1

    @staticmethod
    def loading(load, repetitions):
        return 0.0

    def answers(self, load, queries, times):
        """The rows of each answer, and the seconds of the queries alone."""
        made, statements = load.tables(), in_sql(load.declarations())
        with tempfile.TemporaryDirectory() as folder:
            for name, members in made.items():
                with open(os.path.join(folder, name), "w") as file:
                    file.write(records(members))
            text = "\n".join(statements) + "\n.mode csv\n"
            text += "".join(f".import {os.path.join(folder, name)} {name}\n" for name in made)
            # A csv mode would write quotes around a text with a blank.
            text += ".mode list\n.separator ,\n"
            text += "analyze;\n.timer on\n"
            text += "".join(f".print --\n{query};\n" for query in load.queries(queries) * times)
            lines = run(["sqlite3", ":memory:"], text)[0].replace("\r", "").splitlines(keepends=True)
        told = [line.split() for line in lines if line.startswith("Run Time: ")]
        rows = "".join(line for line in lines if not line.startswith("Run Time: "))
        return parts(rows), sum(float(words[5]) + float(words[7]) for words in told)


def become(name):
    """Makes this process one of a user."""
    entry = pwd.getpwnam(name)
    os.setgroups([])
    os.setgid(entry.pw_gid)
    os.setuid(entry.pw_uid)


class Postgres:
    """A server of PostgreSQL of its own, without parallel workers."""

    name = "PostgreSQL"
    # The processor time that the answering process has used so far.
    used = "select pg_read_file('/proc/self/stat', 0, 1000);\n"

    @staticmethod
    def folder():
        found = glob.glob("/usr/lib/postgresql/*/bin/postgres") + glob.glob("/usr/pgsql-*/bin/postgres")
        return os.path.dirname(sorted(found)[-1]) if found else None

    @classmethod
    def is_there(cls):
        return cls.folder() is not None and shutil.which("psql") is not None and cls.user() is not None

    @staticmethod
    def user():
        """The user who runs the server. It refuses to run as root, so root runs it as another user."""
        if os.geteuid() != 0:
            return pwd.getpwuid(os.geteuid()).pw_name
        names = {entry.pw_name for entry in pwd.getpwall()}
        return next((name for name in ("postgres", "nobody") if name in names), None)

    @staticmethod
    def times(queries):
        return 1

    @staticmethod
    def loading(load, repetitions):
        return 0.0

    def answers(self, load, queries, times):
        """The rows of each answer, and the seconds of the queries alone."""
        made, statements, user = load.tables(), in_sql(load.declarations()), self.user()
        how = {"preexec_fn": lambda: become(user)} if os.geteuid() == 0 else {}
        with tempfile.TemporaryDirectory() as folder:
            shutil.chown(folder, user)
            data = os.path.join(folder, "data")
            run([f"{self.folder()}/initdb", "-D", data, "-U", user, "--auth=trust"], "", cwd=folder, **how)
            settings = {
                "listen_addresses": "", "unix_socket_directories": folder, "max_parallel_workers_per_gather": "0",
                "shared_buffers": "1GB", "work_mem": "256MB", "fsync": "off", "autovacuum": "off", "jit": "off",
            }
            words = [f"{self.folder()}/postgres", "-D", data]
            words += [word for name, value in settings.items() for word in ("-c", f"{name}={value}")]
            server = subprocess.Popen(words, cwd=folder, stdout=subprocess.DEVNULL, stderr=subprocess.DEVNULL, **how)
            try:
                ask = ["psql", "-h", folder, "-U", user, "-d", "postgres", "-qAt", "-F", ",", "-v", "ON_ERROR_STOP=1"]
                wait = [f"{self.folder()}/pg_isready", "-h", folder, "-t", "60"]
                while subprocess.run(wait, stdout=subprocess.DEVNULL).returncode != 0:
                    if server.poll() is not None:
                        sys.exit("PostgreSQL did not start")
                text = "\n".join(statements) + "\n"
                for name, members in made.items():
                    text += f"copy {name} from stdin csv;\n{records(members)}\\.\n"
                text += "analyze;\n" + self.used
                text += "".join(f"\\echo --\n{query};\n" for query in load.queries(queries) * times)
                text += "\\echo --\n" + self.used
                written, _ = run(ask, text)
            finally:
                server.send_signal(2)  # a fast end
                server.wait()
        *answers, last = parts(written)
        ticks = [sum(map(int, line.rsplit(")", 1)[1].split()[11:13])) for line in (written.splitlines()[0], last[0])]
        return answers, (ticks[1] - ticks[0]) / os.sysconf("SC_CLK_TCK")


def measured(party, load, queries, repetitions, wanted, loads):
    """The seconds of the first few queries without the loads, and their answers, which must be the wanted ones."""
    all_of_it, times = [], party.times(queries)
    for _ in range(repetitions):
        answers, seconds = party.answers(load, queries, times)
        all_of_it.append(seconds)
        wanted = wanted if wanted is not None else answers[:queries]
        if answers != wanted * times:
            sys.exit(f"{party.name} gives other answers over {load.rows} rows and {queries} queries")
    return max(0.0, min(all_of_it) - loads) / times, wanted


class Workers:
    """The program with so many workers and batches of so many rows: its least times for few and for many bursts."""

    FEW, MANY = 2, 32

    def __init__(self, program, workers, batch):
        self.words = [program, "--workers", str(workers), "--batch", str(batch)]
        self.least = {}

    def measure(self, load, queries):
        """Runs both scripts once more, and returns their replies."""
        told = []
        for times in (self.FEW, self.MANY):
            text, start = load.script(queries, times), time.monotonic()
            written, used = run(self.words, text)
            clock = time.monotonic() - start
            before = self.least.get((queries, times), (clock, used))
            self.least[queries, times] = min(before[0], clock), min(before[1], used)
            told.append(written)
        return told

    def burst(self, queries):
        """The seconds of a burst by the clock, and of processor time."""
        few, many = self.least[queries, self.FEW], self.least[queries, self.MANY]
        return tuple((long - short) / (self.MANY - self.FEW) for short, long in zip(few, many))


def measure_workers(program, load, counts, workers, batch, repetitions):
    """For each number of queries and of workers, the seconds of a burst by the clock and of processor time."""
    parties, figures = [Workers(program, number, batch) for number in workers], {}
    for count in counts:
        wanted = None
        for _ in range(repetitions):
            for party in parties:
                told = party.measure(load, count)
                wanted = wanted or told
                if told != wanted:
                    sys.exit(f"{' '.join(party.words)} gives other replies over {load.rows} rows and {count} queries")
        for number, party in zip(workers, parties):
            figures[count, number] = party.burst(count)
    return figures


def table_of_workers(counts, workers, figures, goals):
    """The figures as a table of Markdown, in milliseconds, and compared with those of the first number of workers."""
    head = ("queries at once", "workers", "by the clock", "of processors", "times as fast", "times as much", "goal")
    lines = [f"| {' | '.join(head)} |", "|" + "---|" * len(head)]
    for count in counts:
        first = figures[count, workers[0]]
        for number in workers:
            clock, used = figures[count, number]
            goal = f"{goals[count, number]}; {MOST_USED}" if (count, number) in goals else ""
            lines.append(
                f"| {count} | {number} | {clock * 1000:.0f} | {used * 1000:.0f} "
                f"| {first[0] / clock:.1f} | {used / first[1]:.2f} | {goal} |"
            )
    return "\n".join(lines)


def picture_of_workers(rows, counts, workers, figures):
    """A picture of how many times as fast bursts are by the clock: a line for each number of queries."""
    lines = {
        f"{count} {'query' if count == 1 else 'queries'}": [
            figures[count, workers[0]][0] / figures[count, number][0] for number in workers
        ]
        for count in counts
    }
    return drawn(
        f"Bursts over {rows:,} sales, times as fast by the clock",
        "Times as fast by the clock against the number of workers, for bursts of queries",
        "workers, beside the thread that reads",
        workers,
        lines,
    )


def table(counts, figures):
    """The figures as a table of Markdown: a line for each number of queries."""
    shared, alone = list(figures.values())[:2]
    head = ["queries at once", *figures, "shared / alone", "shared / one query", "goal"]
    lines = [f"| {' | '.join(head)} |", "|" + "---|" * len(head)]
    for place, count in enumerate(counts):
        cells = [f"{own[place]:.3f}" for own in figures.values()]
        cells += [ratio(shared[place], alone[place], 2), ratio(shared[place], shared[0], 1), GOALS.get(count, "")]
        lines.append(f"| {count} | {' | '.join(cells)} |")
    return "\n".join(lines)


def ratio(part, whole, digits):
    """A ratio as text, or nothing where the whole is zero."""
    return f"{part / whole:.{digits}f}" if whole else ""


def drawn(title, label, below, places, lines):
    """A picture of lines over some places, with a title above it, a description in words, and a label below it."""
    left, right, low, high = 64, 530, 328, 46
    most = max(1.0, max(value for own in lines.values() for value in own))
    across = lambda place: left + (right - left) * (place / max(1, len(places) - 1))
    down = lambda value: low - (low - high) * value / most
    out = [
        '<svg xmlns="http://www.w3.org/2000/svg" viewBox="0 0 700 380" width="700" height="380"'
        f' font-family="sans-serif" font-size="13" role="img" aria-label="{label}">',
        '<rect width="700" height="380" fill="#ffffff"/>',
        f'<text x="{left}" y="24" font-size="15" fill="#222222">{title}</text>',
    ]
    for step in range(5):
        value = most * step / 4
        out.append(
            f'<line x1="{left}" y1="{down(value):.1f}" x2="{right}" y2="{down(value):.1f}" stroke="#dddddd"/>'
            f'<text x="{left - 10}" y="{down(value) + 4:.1f}" text-anchor="end" fill="#444444">{value:.2f}</text>'
        )
    for place, count in enumerate(places):
        out.append(f'<text x="{across(place):.1f}" y="348" text-anchor="middle" fill="#444444">{count}</text>')
    free = low + 20
    for (name, own), color in sorted(zip(lines.items(), COLORS), key=lambda line: line[0][1][-1]):
        points = " ".join(f"{across(place):.1f},{down(value):.1f}" for place, value in enumerate(own))
        # The names stay apart, even if lines end at the same height.
        free = min(down(own[-1]) + 4, free - 16)
        out.append(f'<polyline points="{points}" fill="none" stroke="{color}" stroke-width="2"/>')
        out.append(f'<text x="{right + 10}" y="{free:.1f}" fill="{color}">{name}</text>')
    out.append(f'<text x="{(left + right) / 2}" y="370" text-anchor="middle" fill="#444444">{below}</text>')
    return "\n".join(out + ["</svg>"]) + "\n"


def picture(rows, counts, figures):
    """A picture of the shared lap and of each query alone: seconds against the number of queries."""
    return drawn(
        f"A burst of n queries over {rows:,} sales, seconds of processor time",
        "Seconds of processor time against the number of queries, for a shared lap and for each query alone",
        "queries at once",
        counts,
        dict(list(figures.items())[:2]),
    )


def parties(program, peers):
    """This program in both modes, and the installed peers, if they are asked for."""
    own = [Cjoin("one shared lap", program, "run"), Cjoin("each alone", program, "alone")]
    return own + [peer() for peer in (Sqlite, Postgres) if peers and peer.is_there()]


def burst_figures(words, counts, load):
    """The table of bursts, for each number of queries, and its picture."""
    asked = parties(words.program, not words.no_peers)
    figures = {party.name: [] for party in asked}
    for count in counts:
        wanted = None
        for party in asked:
            runs = words.repetitions if isinstance(party, Cjoin) else 1
            seconds, wanted = measured(party, load, count, runs, wanted, party.loading(load, runs))
            figures[party.name].append(seconds)
            print(f"{party.name}: {count} queries, {seconds:.3f} s", file=sys.stderr)
    return table(counts, figures), picture(words.rows, counts, figures)


def worker_figures(words, counts, load):
    """The table of bursts, for each number of workers, and its picture."""
    workers = [int(number) for number in words.workers.split(",")]
    figures = measure_workers(words.program, load, counts, workers, words.batch, words.repetitions)
    told = table_of_workers(counts, workers, figures, WORKER_GOALS.get(words.batch, {}))
    return told, picture_of_workers(words.rows, counts, workers, figures)


def main():
    """Reads the words, prints the table, and writes the picture."""
    reader = argparse.ArgumentParser(description=__doc__, formatter_class=argparse.RawDescriptionHelpFormatter)
    reader.add_argument("--rows", type=int, default=1_000_000, help="the number of sales (1,000,000)")
    reader.add_argument("--queries", help="numbers of queries (1,4,16,64, and with --workers 1,16,64)")
    reader.add_argument("--repetitions", type=int, default=3, help="runs of this program for a figure (3)")
    reader.add_argument("--no-peers", action="store_true", help="measure this program only")
    reader.add_argument("--workers", help="numbers of workers, of which the first is what the others are compared with")
    reader.add_argument("--batch", type=int, default=1024, help="rows of a batch, with --workers (1024)")
    reader.add_argument("--svg", help="the file for the picture")
    reader.add_argument("--program", default=PROGRAM, help="the program to measure (./cjoin)")
    words = reader.parse_args()
    told = words.queries or ("1,16,64" if words.workers else "1,4,16,64")
    counts = [int(count) for count in told.split(",")]
    figures = worker_figures if words.workers else burst_figures
    shown, picture_shown = figures(words, counts, Burst(words.rows))
    print(shown)
    if words.svg:
        with open(words.svg, "w") as file:
            file.write(picture_shown)


if __name__ == "__main__":
    main()
