#!/usr/bin/env python3
"""Measures one turn of `board_lock`, an entry and a leave, while no other seat waits.

    python3 bench/turns.py             nanoseconds of processor time for a turn, from 20,000,000 of them
    python3 bench/turns.py 1000000     from so many

A new folder gets a repository with the lock and a program over its small board, which `rt` proves and builds in a few
minutes. The figure is the least of five runs, less the least of five runs without a turn, divided by the number of
turns. Python's standard library and the Rattle kit are all that this needs.
"""

import resource
import shutil
import subprocess
import sys
import tempfile
from pathlib import Path

TOP = Path(__file__).resolve().parent.parent
LIBRARIES = ["star_values", "board_lock"]

PROGRAM = """//! Takes as many turns as the lines of the standard input say.
#![tactic(auto)]

ghost use Rattle.board_lock.specs.Seats.{IsOutside, IsSameSeat, IsOf};

use board_lock::{BoardLock, BoardSeat, SmallBoard};
use std::io;
use std::sync::Wait;

fn take_turns<R: Wait>(
    rt: &R,
    lock: &BoardLock<SmallBoard>,
    seat: &mut BoardSeat<SmallBoard>,
    turns: u32,
)
    requires own { IsOf lock.now seat.old }
    requires outside { IsOutside seat.old }
    ensures same { IsSameSeat seat.old seat.new }
    ensures outside { IsOutside seat.new }
{
    'turns: for _ in 0..turns {
        let board = lock.enter(rt, seat);
        lock.leave(seat, board);
    }
}

fn main(rt: HostRuntime) -> io::Result<()> {
    let Ok((lock, mut seat)) = BoardLock::new(rt.alloc(), SmallBoard::new(rt.alloc(), 0), 1) else {
        return Ok(());
    };
    'lines: for line in rt.lines(rt.alloc()) {
        let turns = line?.as_str().parse().unwrap_or(0);
        take_turns(&rt, &lock, &mut seat, turns);
    }
    Ok(())
}
"""

TURNS_INVARIANT = """use Rattle.board_lock.specs.Seats.{IsOutside, IsSameSeat}
use Rattle.turns.proofs.take_turns.Given as goal

abbrev pub invariant-turns : goal.invariant-turns
invariant-turns g l = IsSameSeat l.initial.seat l.seat × IsOutside l.seat
"""

LINES_INVARIANT = """use Rattle.board_lock.specs.Seats.{IsOutside, IsOf}
use Rattle.turns.proofs.main.Given as goal

abbrev pub invariant-lines : goal.invariant-lines
invariant-lines g l = IsOf l.lock l.seat × IsOutside l.seat
"""


def lay(top):
    """Writes the repository, and returns the folder of the crate of the program."""
    all_lines = (TOP / "crates.txt").read_text().splitlines()
    lines = [line for line in all_lines if line.split(":")[0] in LIBRARIES]
    (top / "crates.txt").write_text("\n".join(lines + ["turns: " + " ".join(LIBRARIES)]) + "\n")
    shutil.copy(TOP / "HANDLES", top)
    for name in LIBRARIES:
        left_out = shutil.ignore_patterns("out", "must-fail")
        shutil.copytree(TOP / "crates" / name, top / "crates" / name, ignore=left_out)
    crate = top / "crates" / "turns"
    for place, text in {
        "src/main.rt": PROGRAM,
        "proofs/take_turns/Invariants.antt": TURNS_INVARIANT,
        "proofs/main/Invariants.antt": LINES_INVARIANT,
    }.items():
        (crate / place).parent.mkdir(parents=True, exist_ok=True)
        (crate / place).write_text(text)
    return crate


def seconds(program, turns):
    """The processor time of one run."""
    before = resource.getrusage(resource.RUSAGE_CHILDREN)
    subprocess.run([program], input=f"{turns}\n".encode(), check=True)
    after = resource.getrusage(resource.RUSAGE_CHILDREN)
    return after.ru_utime + after.ru_stime - before.ru_utime - before.ru_stime


def main():
    """Builds the program, and prints the table."""
    turns = int(sys.argv[1]) if len(sys.argv) > 1 else 20000000
    with tempfile.TemporaryDirectory() as folder:
        crate = lay(Path(folder))
        subprocess.run(["rt", "run", "--jobs", "1"], cwd=crate, input=b"0\n", stdout=subprocess.DEVNULL, check=True)
        program = crate / "out" / "turns"
        least = {count: min(seconds(program, count) for _ in range(5)) for count in (0, turns)}
    print("| turns | nanoseconds of processor time for one |\n|---|---|")
    print(f"| {turns:,} | {(least[turns] - least[0]) / turns * 1e9:.0f} |")


if __name__ == "__main__":
    main()
