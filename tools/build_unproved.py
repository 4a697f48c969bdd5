#!/usr/bin/env python3
"""Builds the program from its sources without proving it: out/cjoin_unproved. `./cjoin` calls this.

`rt try` makes one module of the program and all libraries below it, with a check at each sum, cast, index and the like,
and has the kit's clang compile it for a single run. Here `rt try` belongs to a folder of links to the kit, in which
clang hands over that module and its own words. The kit's clang then compiles the module, checks and all, by the same
words but two: it optimises, and leaves out AddressSanitizer, whose library is no part of a program that is kept.

On two processors or more, tools/module_parts.py takes the module apart, and clang compiles its parts side by side. The
parts do not fill new variables with bytes 0xAA, as the module of `rt try` does: a read of a variable that was never set
finds any bytes. On one processor, or if this fails, clang compiles the whole module.

How `rt try` calls clang is promised by no page of the kit. So the status is 0 if the program was built, 1 if the
sources are refused, and 75 if the program cannot be built in this way here, and `rt try` is left to run it.
"""

import contextlib
import math
import os
import shlex
import shutil
import sys
import tempfile
import time
from pathlib import Path

from checkout import OUT, TOP, alone, end, end_by_signals, is_as_new, newest, say, signals_held, start

PROGRAM = OUT / "cjoin_unproved"
BUILT, REFUSED, NO_WAY = 0, 1, 75
ASAN = "-fsanitize=address"
# -O1 with few calls inlined takes two thirds of the time of -Os, and the program is about as fast as one of -Os.
LEVEL_OF_TRY, LEVEL = "-O0", ["-O1", "-mllvm", "-inline-threshold=20"]
AS_TEXT = ["-S", "-emit-llvm", "-Xclang", "-disable-llvm-passes"]
# With two parts for each processor, one that is compiled fast is soon followed by another.
PARTS_EACH, MOST_PARTS = 2, 8

# The most seconds between two lines of progress.
EVERY = 10
CHECK, LINK = "checking the sources", "linking the program"
APART, PARTS, WHOLE = "taking the program apart", "compiling its parts", "compiling the program"
# The seconds of processor time that each step takes on a machine with no other work.
USUAL = {CHECK: 62, APART: 9, PARTS: 56, WHOLE: 63, LINK: 1}

# Stands in the place of clang. What it is to compile with AddressSanitizer is the program's module. If `rt try` hands
# over more than one, the words are not those of one call.
CLANG = """#!/bin/sh
case " $* " in
    *" {asan} "*) ;;
    *) exec {clang} "$@" ;;
esac
for word in "$@"; do
    case $word in *.bc) cp "$word" {room}/module.bc ;; esac
done
printf '%s\\n' "$@" >> {room}/words
exit 1
"""


class NoWay(Exception):
    """The kit does not do what is expected of it here."""


class Failed(NoWay):
    """A command ended with another status than 0."""

    def __init__(self, command, log):
        """Takes the command, and the file of what it said."""
        super().__init__(f"{os.path.basename(command.args[0])} ended with status {command.returncode}")
        self.status, self.said = command.returncode, log.read_text(errors="replace")


class Refused(Exception):
    """The sources are no program."""


def sources():
    """What the program is made from; specs and proofs are no part of it."""
    tools = (TOP / "tools" / name for name in ("build_unproved.py", "module_parts.py"))
    return [TOP / "crates.txt", *tools, *TOP.glob("crates/*/src")]


def find_kit():
    """The folder of the kit whose `rt` is on the PATH."""
    found = shutil.which("rt")
    folder = Path(os.path.realpath(found)).parent.parent if found else None
    if not folder or not (folder / "toolchain/bin/clang").is_file():
        raise NoWay("the command rt is not in the folder of a kit")
    return folder


def write_command(file, text):
    """Writes a file that can be run."""
    file.write_text(text)
    file.chmod(0o755)


def link_all(source, target, but):
    """Makes a folder of links to all that another one has, but for some names."""
    target.mkdir()
    for it in source.iterdir():
        if it.name not in but:
            (target / it.name).symlink_to(it)


def kit_that_hands_over(kit, room):
    """Makes a folder of links to the kit, in which clang hands its module over and the prover says nothing."""
    links, clang = room / "kit", kit / "toolchain/bin/clang"
    link_all(kit, links, {"bin", "toolchain"})
    # `rt` looks for its kit around itself, and not behind links.
    copied = ("rt", "rtlib.py")
    link_all(kit / "bin", links / "bin", {"rattle", *copied})
    for name in copied:
        shutil.copy2(kit / "bin" / name, links / "bin")
    # Its hints are not wanted here.
    write_command(links / "bin/rattle", "#!/bin/sh\nexit 1\n")
    link_all(kit / "toolchain", links / "toolchain", {"bin"})
    link_all(kit / "toolchain/bin", links / "toolchain/bin", {"clang"})
    words = {"asan": ASAN, "clang": shlex.quote(str(clang)), "room": shlex.quote(str(room))}
    write_command(links / "toolchain/bin/clang", CLANG.format(**words))
    return links


class Steps:
    """The steps of the build. Each says which share of the time it usually takes, and how long all takes from there."""

    def __init__(self, later):
        """Takes the usual seconds of each step."""
        self.later, self.name, self.usual, self.done = later, "", 0.0, 0.0
        self.start = self.began = self.said = time.monotonic()

    def begin(self, name):
        """Begins a step."""
        self.done += self.usual
        self.name, self.usual, self.began = name, self.later.pop(name), time.monotonic()
        share = self.usual / (self.done + self.usual + sum(self.later.values()))
        self.say(f"{name} ({share:.0%} of the time)")

    def left(self):
        """The seconds that are left, if the rest is as much faster or slower than usual as the steps before."""
        clock = time.monotonic() - self.began
        pace = (self.began - self.start) / self.done if self.done else 1.0
        # A step that lasts longer than that is taken to be nearly done, and so is all slower than was thought.
        pace = max(pace, clock / self.usual / 0.9)
        return pace * (self.usual + sum(self.later.values())) - clock

    def say(self, text):
        """Says a line, and how long all takes from here."""
        self.said = time.monotonic()
        say(f"{text}, about {math.ceil(self.left())} s left")

    def say_at_times(self):
        """Says how far this is if nothing was said for some seconds."""
        if time.monotonic() - self.said >= EVERY:
            self.say(self.name)


class Build:
    """A build of the program, in a folder of its own."""

    def __init__(self, room):
        """Takes the folder."""
        self.room, self.kit, self.commands = room, find_kit(), 0
        self.processors = len(os.sched_getaffinity(0))
        self.steps = Steps(self.usual([CHECK, APART, PARTS, LINK] if self.processors > 1 else [CHECK, WHOLE, LINK]))

    def usual(self, names):
        """The usual seconds of some steps, with the processors at hand."""
        at_once = {PARTS: min(self.processors, MOST_PARTS)}
        return {it: USUAL[it] / at_once.get(it, 1) for it in names}

    def run(self, *commands, at_once=1, **how):
        """Runs commands, so many at a time, until all have ended. If one fails, the others are ended, too."""
        waiting, running = list(commands), {}
        try:
            while waiting or running:
                while waiting and len(running) < at_once:
                    self.commands += 1
                    log = self.room / f"log{self.commands}"
                    with signals_held():
                        running[start(waiting.pop(0), log, **{"cwd": self.room, **how})] = log
                time.sleep(0.05)
                self.steps.say_at_times()
                for command, log in list(running.items()):
                    if command.poll():
                        raise Failed(command, log)
                    if command.returncode == 0:
                        del running[command]
        finally:
            end(running)

    def hand_over(self):
        """Has `rt try` make the module of the program, and gives the words by which clang was to compile it."""
        self.steps.begin(CHECK)
        words = [str(kit_that_hands_over(self.kit, self.room) / "bin/rt"), "try"]
        try:
            self.run(words, cwd=TOP / "crates/star_main", env={**os.environ, "TMPDIR": str(self.room)})
        except Failed as why:
            # It always fails, since clang hands its module over instead of compiling it.
            if not self.has_module():
                raise Refused(why.said) if why.status == 1 else why
        if not self.has_module():
            raise NoWay("rt try handed no module to clang")
        return (self.room / "words").read_text().splitlines()

    def has_module(self):
        """Whether the module was handed over."""
        return (self.room / "words").is_file() and (self.room / "module.bc").is_file()

    def compile_whole(self, words):
        """Compiles the module, and gives the name of the object."""
        self.steps.begin(WHOLE)
        self.run([*words, *LEVEL])
        return ["module.o"]

    def compile_parts(self, words):
        """Takes the module apart and compiles its parts side by side, and gives the names of the objects."""
        self.steps.begin(APART)
        with folder_in(self.room, "parts-") as folder:
            text = folder / "module.ll"
            self.run([*(it for it in with_files(words, "module.bc", text) if it != "-c"), LEVEL_OF_TRY, *AS_TEXT])
            count = min(PARTS_EACH * self.processors, MOST_PARTS)
            self.run([sys.executable, "-B", str(TOP / "tools/module_parts.py"), str(text), str(folder), str(count)])
            self.steps.begin(PARTS)
            parts = sorted(folder.glob("part*.ll"))
            commands = [[*with_files(words, it, f"{it.stem}.o"), *LEVEL] for it in parts]
            self.run(*commands, at_once=self.processors)
        return [f"{it.stem}.o" for it in parts]

    def link(self, objects):
        """Links the program, and tries it on an empty script."""
        self.steps.begin(LINK)
        toolchain = str(self.kit / "toolchain")
        words = ["--target", "x86_64-unknown-linux-gnu", "--toolchain", toolchain, "-o", "program", *objects]
        libraries = (str(self.kit / "c" / it) for it in ("libos_c.a", "liblibc_c.a"))
        self.run([str(self.kit / "bin/rattle-link"), *words, *libraries])
        self.run([str(self.room / "program")])

    def compile_and_link(self, handed):
        """Makes the program of the module that was handed over."""
        once = (LEVEL_OF_TRY, ASAN, "-c", "module.bc", "module.o")
        if any(handed.count(it) != 1 for it in once) or sum(it.endswith(".bc") for it in handed) != 1:
            raise NoWay("rt try calls clang by other words")
        words = [str(self.kit / "toolchain/bin/clang"), *(it for it in handed if it not in (LEVEL_OF_TRY, ASAN))]
        if self.processors > 1:
            try:
                return self.link(self.compile_parts(words))
            except (NoWay, OSError) as why:
                explain("the program is not compiled by parts", why)
                self.steps.later = self.usual([WHOLE, LINK])
        return self.link(self.compile_whole(words))


def with_files(words, source, target):
    """The words of a command that compiles the module, with other files in the place of the module and its object."""
    others = {"module.bc": str(source), "module.o": str(target)}
    return [others.get(it, it) for it in words]


def explain(what, why):
    """Says what comes of a fault, and what the command said that failed."""
    if isinstance(why, Failed):
        sys.stderr.write(why.said)
    say(f"{what}: {why}")


@contextlib.contextmanager
def folder_in(place, prefix):
    """Makes a folder, which is removed in the end."""
    folder = tempfile.mkdtemp(prefix=prefix, dir=place)
    try:
        yield Path(folder)
    finally:
        shutil.rmtree(folder, ignore_errors=True)


def build():
    """Builds the program, and puts it into its place when it is whole."""
    for left in OUT.glob("building-*"):
        shutil.rmtree(left, ignore_errors=True)
    # The time that it gets: a source that is changed while it is built is newer.
    began = max(time.time_ns(), newest(sources()))
    with folder_in(OUT, "building-") as room:
        say("a program is built of these sources, once and without proofs")
        made = Build(room)
        made.compile_and_link(made.hand_over())
        say(f"the program is built, in {time.monotonic() - made.steps.start:.0f} s")
        os.utime(room / "program", ns=(began, began))
        os.replace(room / "program", PROGRAM)


def main():
    """Builds the program, unless another process has just done so."""
    end_by_signals()
    try:
        with alone("cjoin_unproved", EVERY):
            if not is_as_new(PROGRAM, sources()):
                build()
        return BUILT
    except Refused as why:
        sys.stderr.write(str(why))
        return REFUSED
    except (NoWay, OSError) as why:
        explain("the program cannot be built in this way here", why)
        return NO_WAY


if __name__ == "__main__":
    sys.exit(main())
