#!/usr/bin/env python3
"""Runs the cases of `star_cases` with workers, again and again. `bench/run.py --workers` measures what workers bring.

    python3 bench/workers.py                     each case with 1, 2, 4 and 16 workers and batches of one row, 100 times
    python3 bench/workers.py --times 3           3 times
    python3 bench/workers.py --program FILE ..   another program than ./cjoin

Each case has to give its replies, byte for byte, and the status that follows from them, within a minute. The first
case that does not ends the run with its name and words. As many processes run at once as there are processors, so
that threads are interrupted at all places. Python's standard library is all that this needs.
"""

import argparse
import concurrent.futures
import os
import subprocess
import sys
from pathlib import Path

TOP = Path(__file__).resolve().parent.parent
CASES = TOP / "crates" / "star_cases" / "data"
WORKERS = (1, 2, 4, 16)


def wanted_status(replies):
    """The status that follows from some replies."""
    lines = replies.split(b"\n")
    refused = any(line.startswith(b"refused ") or line == b"memory" for line in lines)
    return 1 if refused else 0


def fault_of(program, words, case):
    """What is wrong with a run of a case, or nothing."""
    script = case.read_bytes()
    replies = case.with_suffix(".replies").read_bytes()
    try:
        done = subprocess.run([program, *words], input=script, capture_output=True, timeout=60, check=False)
    except subprocess.TimeoutExpired:
        return f"{case.stem} {' '.join(words)}: it did not end within a minute"
    if done.stdout != replies:
        return f"{case.stem} {' '.join(words)}: other replies, of {len(done.stdout)} bytes in place of {len(replies)}"
    if done.returncode != wanted_status(replies):
        return f"{case.stem} {' '.join(words)}: status {done.returncode}"
    return None


def run_cases(program, times):
    """Runs all cases so many times, and ends the process at the first fault."""
    cases = sorted(CASES.glob("*.cjoin"))
    ways = [["--workers", str(n), "--batch", "1"] for n in WORKERS]
    jobs = [(words, case) for _ in range(times) for words in ways for case in cases]
    with concurrent.futures.ThreadPoolExecutor(os.cpu_count()) as pool:
        for fault in pool.map(lambda job: fault_of(program, *job), jobs):
            if fault:
                print(fault)
                os._exit(1)
    print(f"{len(jobs)} runs of {len(cases)} cases are right")


def main():
    """Reads the words, and runs the cases."""
    parser = argparse.ArgumentParser(description=__doc__, formatter_class=argparse.RawDescriptionHelpFormatter)
    parser.add_argument("--program", default=str(TOP / "cjoin"), help="the program to run (./cjoin)")
    parser.add_argument("--times", type=int, default=100, help="how often each case is run (100)")
    given = parser.parse_args()
    run_cases(os.path.abspath(given.program), given.times)


if __name__ == "__main__":
    main()
