"""The order in which a crate and the crates below it are proved, and a forecast of how long that takes."""

import heapq
import statistics

from checkout import TOP

# A line for each crate: its name, and the seconds of processor time of its proof with one job.
SHARES = TOP / "tools/shares"


def read_rows(file):
    """The lines of a file without comments and empty lines."""
    rows = [line.partition("#")[0].strip() for line in file.read_text().splitlines()]
    return [row for row in rows if row]


def crate_rows():
    """The lines of crates.txt by the names of the crates, lowest first."""
    return {row.partition(":")[0].split()[0]: row for row in read_rows(TOP / "crates.txt")}


def read_crates():
    """The crates of crates.txt, lowest first, and which of them each one uses directly."""
    rows = crate_rows()
    return {name: [it for it in row.partition(":")[2].split() if it in rows] for name, row in rows.items()}


def needed(crates, top):
    """A crate and those below it, lowest first."""
    names = {top}
    for name in reversed(list(crates)):
        names.update(crates[name] if name in names else ())
    return {name: below for name, below in crates.items() if name in names}


def read_seconds(file):
    """The seconds of each crate; the last line of a crate counts."""
    return {name: float(seconds) for name, seconds in map(str.split, read_rows(file))}


def shares_of(crates):
    """The seconds of some crates by tools/shares. A crate that is not there gets the median."""
    told = read_seconds(SHARES)
    return {name: told.get(name, statistics.median(told.values())) for name in crates}


def write_shares(crates, taken):
    """Writes tools/shares with the seconds that proofs took. Any other crate keeps its seconds."""
    head = [row for row in SHARES.read_text().splitlines() if row.startswith("#")]
    told = {**read_seconds(SHARES), **taken}
    rows = [f"{name} {told[name]:.0f}" for name in crates if name in told]
    SHARES.write_text("\n".join([*head, *rows]) + "\n")


class Plan:
    """The crates to be proved, and the work that waits for each."""

    def __init__(self, crates, shares):
        self.crates, self.shares = crates, shares
        # The seconds from the start of each crate to the end of all, along the longest chain.
        self.behind = dict.fromkeys(crates, 0.0)
        for name in reversed(list(crates)):
            self.behind[name] += shares[name]
            for below in crates[name]:
                self.behind[below] = max(self.behind[below], self.behind[name])

    def next(self, waiting, standing):
        """The crate to be proved next: of those whose lower crates are all proved, the one with the longest chain."""
        ready = [name for name in waiting if standing.issuperset(self.crates[name])]
        return max(ready, key=self.behind.get, default=None)

    def left(self, lasts, running, standing, at_once):
        """The seconds until all are proved, from the seconds of each crate, and those left of the running ones."""
        now, standing = 0.0, set(standing)
        ends = [(seconds, name) for name, seconds in running.items()]
        waiting = [name for name in self.crates if name not in standing and name not in running]
        heapq.heapify(ends)
        while waiting or ends:
            name = self.next(waiting, standing) if len(ends) < at_once else None
            if name:
                waiting.remove(name)
                heapq.heappush(ends, (now + lasts[name], name))
            else:
                now, name = heapq.heappop(ends)
                standing.add(name)
        return now


class Pace:
    """How long proofs take here, compared with their shares."""

    # The seconds for a crate that is kept from an earlier run, and only checked.
    LOOK = 2.0

    def __init__(self, shares, kept):
        self.shares, self.kept = shares, kept
        self.lasted = self.told = 0.0

    def take(self, name, seconds):
        """Adds the seconds by the clock that a proof from nothing took."""
        self.lasted += seconds
        self.told += self.shares[name]

    def lasts(self, running):
        """The seconds of each crate, given how long some have run: a late one counts for the pace, too."""
        pace = self.lasted / self.told if self.told else 1.0
        late = {name: seconds for name, seconds in running.items() if seconds > self.shares[name] * pace}
        if late:
            pace = (self.lasted + sum(late.values())) / (self.told + sum(self.shares[name] for name in late))
        return {name: self.LOOK if name in self.kept else share * pace for name, share in self.shares.items()}
