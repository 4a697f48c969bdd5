"""Runs of the program over scripts in files, with their processor time and their greatest resident memory.

For the scripts of `bench/` that measure memory. `bench/launch.c` starts the program, because the memory of the
process that starts it counts, too. Python's standard library and `cc` are all that this needs.
"""

import subprocess
import tempfile
from pathlib import Path

SOURCE = Path(__file__).resolve().with_name("launch.c")


class Ran:
    """What a run came to: its status, its replies, its seconds of processor time, and its memory in megabytes."""

    def __init__(self, replies, told):
        status, seconds, kilobytes = told.split()
        self.replies, self.status = replies, int(status)
        self.seconds, self.megabytes = float(seconds), int(kilobytes) / 1024


class Launcher:
    """Starts programs. Its files are in a folder that is removed when the `with` block ends."""

    def __enter__(self):
        self.kept = tempfile.TemporaryDirectory()
        self.folder = Path(self.kept.name)
        subprocess.run(["cc", "-O2", "-o", self.folder / "launch", SOURCE], check=True)
        return self

    def __exit__(self, *_):
        self.kept.cleanup()

    def library(self, name, code):
        """The path of a library that is compiled from its code in C."""
        source = self.folder / f"{name}.c"
        source.write_text(code)
        made = source.with_suffix(".so")
        subprocess.run(["cc", "-O2", "-shared", "-fPIC", "-o", made, source], check=True)
        return str(made)

    def run(self, program, words, pieces, stack=0, library=""):
        """Runs a program over a script, given as pieces, which are in a file before the run."""
        with tempfile.TemporaryFile() as source, tempfile.TemporaryFile() as sink:
            source.writelines(pieces)
            source.seek(0)
            launch = [self.folder / "launch", str(stack), library, program, *words]
            told = subprocess.run(launch, stdin=source, stdout=sink, stderr=subprocess.PIPE, check=True).stderr
            sink.seek(0)
            return Ran(sink.read(), told)
