#!/usr/bin/env python3
"""Proves all crates of the program and builds it: crates/star_main/out/star_main. For `./cjoin --prove`.

    python3 tools/prove.py              proves and builds, and prints its progress
    python3 tools/prove.py --record     writes tools/shares with the seconds that the proofs took here

As many crates are proved at a time as processors and memory allow. A proof begins once all crates below its own are
proved. `rt` allows one command at a time in the folders of a crate and of all crates below it. So each crate is
proved in a lane, which is a copy of the sources with links to the libraries below the crate. What is made in a lane is
moved to the crate's own folder.
"""

import math
import os
import shutil
import sys
import time
from pathlib import Path

from checkout import OUT, TOP, alone, end_by_signals, is_as_new, newest, say, start, tell
from plan import Pace, Plan, crate_rows, needed, read_crates, read_seconds, shares_of, write_shares

TARGET = "star_main"
PROGRAM = TOP / "crates" / TARGET / "out" / TARGET
PARTS = ("src", "specs", "proofs")
LANES = OUT / "lanes"
# The seconds of processor time of each proof from nothing, in the order in which they ended.
TAKEN = OUT / "proof_seconds"
# The most memory that the proof of a crate takes, as measured, in bytes.
MOST = 3_000_000_000
# The features of a processor of the third level of x86-64.
THIRD_LEVEL = {"avx", "avx2", "bmi1", "bmi2", "f16c", "fma", "abm", "movbe"}


def sources(name="*"):
    """The files and folders that a crate is made of; without a name, those of all crates."""
    return [TOP / "crates.txt", *(it for part in PARTS for it in TOP.glob(f"crates/{name}/{part}"))]


def level():
    """The level of x86-64 for the program: the third if this processor has it, else the first, with the same proofs."""
    rows = [row for row in Path("/proc/cpuinfo").read_text().splitlines() if row.startswith("flags")]
    return "x86-64-v3" if rows and THIRD_LEVEL <= set(rows[0].split()) else "x86-64"


def places():
    """How many crates are proved at a time: one for each processor, unless memory allows fewer."""
    rows = dict(row.split(":", 1) for row in Path("/proc/meminfo").read_text().splitlines())
    free = int(rows["MemAvailable"].split()[0]) * 1024
    return max(1, min(len(os.sched_getaffinity(0)), free // MOST))


def home(name):
    """The folder in which rt and its users find what was made of a crate."""
    return TOP / "crates" / name / "out"


def kept_of(crates):
    """The libraries from an earlier run that are as new as their sources and as the libraries below them."""
    kept = set()
    for name, below in crates.items():
        if kept.issuperset(below) and is_as_new(home(name) / "rlib/stamp", sources(name)):
            kept.add(name)
    return kept


def link_or_copy(source, target):
    """Links a file, or copies it if the file system has no links."""
    try:
        os.link(source, target)
    except OSError:
        shutil.copy2(source, target)


class Lane:
    """A copy of the sources of some crates, in which one of them is proved at a time."""

    def __init__(self, number, crates):
        self.top = LANES / str(number)
        self.top.mkdir(parents=True)
        rows = crate_rows()
        (self.top / "crates.txt").write_text("".join(f"{rows[name]}\n" for name in crates))
        for name in crates:
            for part in PARTS:
                if (TOP / "crates" / name / part).is_dir():
                    shutil.copytree(TOP / "crates" / name / part, self.top / "crates" / name / part)

    def out(self, name):
        """The folder in which the lane has what was made of a crate."""
        return self.top / "crates" / name / "out"

    def take(self, name, below):
        """Fetches the libraries below a crate, and what earlier checks kept of the crate itself."""
        for it in below:
            if not self.out(it).is_dir():
                shutil.copytree(home(it) / "rlib", self.out(it) / "rlib", copy_function=link_or_copy)
        if home(name).is_dir():
            os.rename(home(name), self.out(name))

    def give_back(self, name):
        """Moves what was made of a crate to the crate's own folder."""
        if self.out(name).is_dir():
            shutil.rmtree(home(name), ignore_errors=True)
            os.rename(self.out(name), home(name))


def clear_lanes():
    """Removes all lanes. If a run was killed, what it left of a crate in a lane is moved back first."""
    for out in LANES.glob("*/crates/*/out"):
        if not home(out.parent.name).is_dir():
            os.rename(out, home(out.parent.name))
    shutil.rmtree(LANES, ignore_errors=True)


class Proof:
    """A crate that is being proved. The program is proved and built in its own folder, after all other crates."""

    def __init__(self, name, lane, crates):
        self.name, self.lane, self.began = name, lane, time.monotonic()
        self.is_first = not (home(name) / "incremental").is_dir()
        self.log = lane.top / f"{name}.log"
        if name == TARGET:
            folder, words = TOP / "crates" / name, ["rt", "run", "--jobs", "1", "--cpu", level()]
        else:
            lane.take(name, [it for it in needed(crates, name) if it != name])
            folder, words = lane.out(name).parent, ["rt", "lib", "--jobs", "1"]
        self.command = start(words, self.log, cwd=folder)

    def clock(self):
        """The seconds that this has run so far."""
        return time.monotonic() - self.began

    def end(self):
        """Ends the command if it still runs, and moves what was made to its place."""
        if self.command.returncode is None:
            self.command.terminate()
            self.command.wait()
        if self.name != TARGET:
            self.lane.give_back(self.name)

    def is_from_nothing(self):
        """Whether the whole crate was proved in this run, without anything that an earlier check kept."""
        said = self.log.read_text(errors="replace")
        return self.is_first and "logic=proved" in said and "begins with what a check kept" not in said


def first_ended(proofs, patience):
    """The first proof to end within so many seconds, whether it succeeded, and its processor time, or nothing."""
    until = time.monotonic() + patience
    while time.monotonic() < until:
        pid, status, used = os.wait4(-1, os.WNOHANG)
        for proof in proofs:
            if proof.command.pid == pid:
                proof.command.returncode = status
                return proof, status == 0, used.ru_utime + used.ru_stime
        time.sleep(0.2)
    return None


class Run:
    """The proofs of some crates, side by side."""

    def __init__(self, crates):
        shares = shares_of(crates)
        self.crates, self.plan, self.pace = crates, Plan(crates, shares), Pace(shares, kept_of(crates))
        self.began, self.newest = time.monotonic(), newest(sources())
        self.standing, self.waiting, self.proofs = set(), list(crates), []
        self.lanes = [Lane(number, crates) for number in range(places())]

    def begin(self):
        """Begins proofs as long as there are free lanes, and crates that can be proved."""
        while self.lanes and (name := self.plan.next(self.waiting, self.standing)):
            self.waiting.remove(name)
            self.proofs.append(Proof(name, self.lanes.pop(), self.crates))

    def left(self):
        """The seconds until all crates are proved."""
        clocks = {it.name: it.clock() for it in self.proofs}
        lasts = self.pace.lasts(clocks)
        running = {name: max(lasts[name] - clock, lasts[name] / 10) for name, clock in clocks.items()}
        return self.plan.left(lasts, running, self.standing, len(self.lanes) + len(self.proofs))

    def say_how_far(self):
        """Prints how many crates are proved, and the minutes so far and left."""
        so_far, names = time.monotonic() - self.began, ", ".join(it.name for it in self.proofs)
        say(
            f"{len(self.standing)} of {len(self.crates)} crates are proved, {so_far / 60:.0f} min so far,"
            f" about {math.ceil(self.left() / 60)} min left; proving {names}"
        )

    def take(self, proof, is_proved, seconds):
        """Handles the end of a proof, and returns whether to go on."""
        self.proofs.remove(proof)
        proof.end()
        self.lanes.append(proof.lane)
        if not is_proved:
            tell(proof.log)
            say(f"{proof.name} is not proved")
            return False
        if newest(sources()) != self.newest:
            say("a source changed during the proofs: run this once more")
            return False
        if proof.is_from_nothing():
            self.pace.take(proof.name, proof.clock())
            with open(TAKEN, "a") as file:
                file.write(f"{proof.name} {seconds:.0f}\n")
        self.standing.add(proof.name)
        return True

    def prove(self):
        """Proves all crates, and returns whether all are proved."""
        try:
            while self.waiting or self.proofs:
                self.begin()
                self.say_how_far()
                ended = first_ended(self.proofs, 60)
                if ended and not self.take(*ended):
                    return False
            return True
        finally:
            for proof in self.proofs:
                proof.end()


def prove_program():
    """Proves and builds the program, and returns whether it is proved."""
    # The time that the program gets: a source that changes during the proofs is newer.
    began = max(time.time_ns(), newest(sources()))
    clear_lanes()
    try:
        is_proved = Run(needed(read_crates(), TARGET)).prove()
    finally:
        clear_lanes()
    if is_proved:
        os.utime(PROGRAM, ns=(began, began))
    return is_proved


def record():
    """Writes tools/shares."""
    taken = read_seconds(TAKEN) if TAKEN.is_file() else {}
    write_shares(needed(read_crates(), TARGET), taken)
    say(f"tools/shares has the seconds of {len(taken)} crates as proved here")


def main(words):
    """Proves the program, unless another process has done so, or writes the shares."""
    if words == ["--record"]:
        record()
        return 0
    end_by_signals()
    with alone("prove"):
        return 0 if is_as_new(PROGRAM, sources()) or prove_program() else 1


if __name__ == "__main__":
    sys.exit(main(sys.argv[1:]))
