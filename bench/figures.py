#!/usr/bin/env python3
"""Runs the benchmarks behind the tables of docs/SPEED.md and docs/LIMITS.md, and puts their tables into the pages.

    ./cjoin --prove                                         first, so that there is a proved program
    python3 bench/figures.py ./cjoin                        all of them in turn, into out/figures.md
    python3 bench/figures.py ./cjoin --only burst,ratio     some of them
    python3 bench/figures.py ./cjoin --quick                all at small sizes, to try the scripts
    python3 bench/figures.py --list                         their names, commands and minutes
    python3 bench/figures.py --paste out/figures.md         puts the tables of a file into the pages

All tables are to be of one program, on a machine with nothing else to do. The program is `./cjoin`, or a file; both
run with the variables of malloc that `./cjoin` sets. Above each table the file has the command, the commit, whether
the program is the proved one of this checkout, and the machine. A page has the same line above the table, and --paste
finds it there by its command. The file also has what else a script prints, and whether it failed. The pictures
docs/speed.svg and docs/workers.svg are written, too. Python's standard library and what the scripts need is all that
this needs.
"""

import argparse
import os
import re
import shlex
import subprocess
import sys
import textwrap
import time
from collections import namedtuple
from pathlib import Path

from program import TOP, chosen, is_proved, set_as_cjoin_does

PAGES = sorted((TOP / "docs").glob("*.md"))
OUT = TOP / "out" / "figures.md"
COLUMNS = 132
FAILED = "FAILED with status"

# A benchmark: its name, its command, the words of a quick trial in place of those of the command, and its minutes.
Figure = namedtuple("Figure", "name command quick minutes")
FIGURES = [
    Figure("burst", "run.py --svg docs/speed.svg", "--rows 20000 --queries 1,16 --repetitions 1", 5),
    Figure("ratio", "ratio.py", "--rows 20000 --repetitions 1", 5),
    Figure("ssb", "ssb.py 0.1 --measure", "0.001 --measure", 5),
    Figure("where", "where.py", "--rows 20000", 2),
    Figure("admission", "admission.py", "--rows 20000 --repetitions 1", 3),
    Figure("turns", "turns.py", "1000000", 5),
    Figure("groups", "groups.py", "--rows 20000 --repetitions 1", 2),
    Figure("workers", "run.py --workers 0,1,2,3 --svg docs/workers.svg",
           "--workers 0,3 --rows 20000 --repetitions 1", 4),
    Figure("small_batches", "run.py --workers 0,1,2,3 --batch 256",
           "--workers 0,3 --batch 256 --rows 20000 --repetitions 1", 4),
    Figure("sessions_burst", "sessions.py burst", "burst --rows 20000 --times 1", 1),
    Figure("sessions_load", "sessions.py load --blocks 4 --rows 250000", "load --blocks 2 --rows 10000", 1),
    Figure("sessions_mixed", "sessions.py mixed", "mixed --seconds 4 --clients 8 --rows 2000", 11),
    Figure("sessions_slow", "sessions.py slow", "slow --clients 8 --factor 9", 1),
    Figure("waves", "waves.py", "--waves 2 --clients 4 --groups 3000 --rows 10000 --arenas 0,4", 3),
    Figure("bounds", "limits.py bounds", "bounds --part 200", 1),
    Figure("worst", "limits.py worst", "worst --part 200", 2),
    Figure("queries", "limits.py queries", "queries --part 20", 2),
    Figure("always_on", "always_on.py", "all 200 --part 200", 2),
    Figure("malicious", "malicious.py --sizes 4,16,64", "--sizes 0.5,1", 8),
    Figure("refused", "refused_growths.py", None, 6),
    Figure("refused_rest", "refused_growths.py --rest", None, 6),
]
# The script that measures no program.
WITHOUT_PROGRAM = "turns.py"


def machine():
    """The processor, how many there are, and the memory."""
    plain = {**os.environ, "LC_ALL": "C"}
    told = subprocess.run(["lscpu"], env=plain, stdout=subprocess.PIPE, check=True).stdout.decode()
    model = re.search(r"Model name:\s*(.*)", told)[1]
    model = re.sub(r"\s+", " ", model.replace("(R)", "").replace("(TM)", "")).strip()
    kilobytes = int(re.search(r"MemTotal:\s*(\d+)", Path("/proc/meminfo").read_text())[1])
    return f"{model}, {os.cpu_count()} processors, {kilobytes / 2**20:.0f} GB"


def git(*words):
    """What git says of this checkout."""
    words = ["git", "-c", f"safe.directory={TOP}", "-C", str(TOP), *words]
    return subprocess.run(words, stdout=subprocess.PIPE, check=True).stdout.decode().strip()


def commit():
    """The commit of this checkout, and whether a source of the program differs from it."""
    changed = git("status", "--porcelain", "--", "crates", "crates.txt")
    return git("rev-parse", "--short=8", "HEAD") + (" with changes" if changed else "")


def caption(command, where):
    """The line above a table."""
    return textwrap.fill(f"`{command}` ({where})", COLUMNS, break_long_words=False, break_on_hyphens=False)


def words_of(figure, program, quick):
    """The command as it is shown, and the words that run it."""
    shown = figure.command
    if quick and figure.quick is not None:
        shown = f"{figure.command.split()[0]} {figure.quick}"
    script, *words = shlex.split(shown)
    more = [] if script == WITHOUT_PROGRAM else ["--program", program]
    return f"python3 bench/{shown}", [sys.executable, str(TOP / "bench" / script), *words, *more]


def section(figure, program, quick, where):
    """Runs a benchmark, and returns its part of the file, and whether it succeeded."""
    shown, words = words_of(figure, program, quick)
    began = time.monotonic()
    print(f"figures: {shown}, about {1 if quick else figure.minutes} min", file=sys.stderr, flush=True)
    done = subprocess.run(words, cwd=TOP, stdin=subprocess.DEVNULL, stdout=subprocess.PIPE, check=False)
    minutes = (time.monotonic() - began) / 60
    told = "" if done.returncode == 0 else f"\n{FAILED} {done.returncode}.\n"
    text = done.stdout.decode(errors="replace").strip()
    return f"\n## {figure.name}\n{caption(shown, where)}\n\n{text}\n{told}\nTaken in {minutes:.1f} min.\n", not told


def measure(words):
    """Runs the benchmarks, writes the file as they end, and returns the status."""
    program, names = chosen(words.program), words.only.split(",") if words.only else [it.name for it in FIGURES]
    set_as_cjoin_does()
    proved = "proved" if is_proved(program) else "not proved"
    where = f"commit {words.commit or commit()}, {proved}; {machine()}"
    words.out.parent.mkdir(parents=True, exist_ok=True)
    failed = []
    with open(words.out, "w") as out:
        out.write(f"# Figures\nOf {program}: {where}. The load at the start was {os.getloadavg()[0]:.2f}.\n")
        for figure in (it for it in FIGURES if it.name in names):
            if words.quick and figure.quick is None:
                continue
            text, succeeded = section(figure, program, words.quick, where)
            out.write(text)
            out.flush()
            failed += [] if succeeded else [figure.name]
    told = f"; failed: {', '.join(failed)}" if failed else ""
    print(f"figures: {words.out} is written{told}", file=sys.stderr)
    return 1 if failed else 0


def tables(text):
    """Each table below a caption: its command, and where the caption and the table begin and end."""
    for found in re.finditer(r"^`(python3 bench/[^`]+)` \((?:.+\n)+", text, re.MULTILINE):
        # The first table after the caption, unless another caption or a heading comes first.
        table = re.compile(r"(?:^(?![|`#]).*\n)*((?:^\|.*\n)+)", re.MULTILINE).match(text, found.end())
        if table:
            yield found[1], found.span(), table.span(1)


def made_in(file):
    """The captions and tables of a file by their commands, but for those of scripts that failed."""
    made = {}
    for part in file.read_text().split("\n## "):
        if FAILED in part:
            print(f"figures: {part.split()[0]} failed, and is left out")
            continue
        for command, (first, last), (begin, end) in tables(part):
            made[command] = f"{part[first:last]}\n{part[begin:end]}"
    return made


def paste(file):
    """Puts the captions and tables of a file into the pages, and returns the status."""
    made = made_in(file)
    for page in PAGES:
        text = page.read_text()
        # From the last table to the first, so that the places of the others stay the same.
        for command, (first, _), (_, end) in reversed(list(tables(text))):
            if command in made:
                text = text[:first] + made.pop(command) + text[end:]
                print(f"figures: {page.name}: {command}")
        if text != page.read_text():
            page.write_text(text)
    for command in made:
        print(f"figures: no page has a table of {command}")
    return 1 if made else 0


def main():
    """Reads the words, and measures, lists or pastes."""
    parser = argparse.ArgumentParser(description=__doc__, formatter_class=argparse.RawDescriptionHelpFormatter)
    parser.add_argument("program", nargs="?", help="the program to measure")
    parser.add_argument("--out", type=Path, default=OUT, help="the file for the tables (out/figures.md)")
    parser.add_argument("--only", metavar="NAME,..", help="the benchmarks (all)")
    parser.add_argument("--quick", action="store_true", help="try the scripts at small sizes")
    parser.add_argument("--commit", help="the commit of the program (that of this checkout)")
    parser.add_argument("--list", action="store_true", help="print the names, commands and minutes")
    parser.add_argument("--paste", type=Path, metavar="FILE", help="put the tables of a file into the pages")
    words = parser.parse_args()
    if words.list:
        for figure in FIGURES:
            print(f"{figure.name:16} {figure.minutes:3} min  python3 bench/{figure.command}")
        return 0
    if words.paste:
        return paste(words.paste)
    if not words.program:
        parser.error("name the program, as in: figures.py ./cjoin")
    return measure(words)


if __name__ == "__main__":
    sys.exit(main())
