"""Shared by the tools: the paths of this checkout, which files are newer, and commands that end with their tool."""

import contextlib
import fcntl
import math
import os
import signal
import subprocess
import sys
import time
from pathlib import Path

try:
    import ctypes

    prctl = ctypes.CDLL(None).prctl
except (ImportError, OSError, AttributeError):
    # Without it, a command goes on if its tool is killed by SIGKILL.
    prctl = None

TOP = Path(__file__).resolve().parent.parent
OUT = TOP / "out"
# The option of prctl for the signal that a process gets when its parent has ended.
PARENT_ENDS = 1
SIGNALS = (signal.SIGINT, signal.SIGTERM, signal.SIGHUP)
# The seconds that a command has to end in after a signal that asks for its end.
PATIENCE = 20


def say(text):
    """Prints a line of progress to the standard error."""
    print(f"cjoin: {text}", file=sys.stderr, flush=True)


def tell(log):
    """Copies the output of a command from its file to the standard error."""
    sys.stderr.write(log.read_text(errors="replace"))
    sys.stderr.flush()


def end_with_parent():
    """Makes the system send SIGTERM as soon as the process that started this one has ended."""
    if prctl:
        prctl(PARENT_ENDS, signal.SIGTERM)


def end_by_signal(number, _):
    """Has the tool go through its `finally` blocks. A second signal does not keep it from that."""
    for it in SIGNALS:
        signal.signal(it, signal.SIG_IGN)
    sys.exit(128 + number)


def end_by_signals():
    """Has the tool end in order when a signal asks for its end, and when its caller has ended."""
    for number in SIGNALS:
        if signal.getsignal(number) is not signal.SIG_IGN:
            signal.signal(number, end_by_signal)
    end_with_parent()


@contextlib.contextmanager
def signals_held():
    """Keeps signals that ask for the end until this is left, so that no command is started that nobody knows of."""
    signal.pthread_sigmask(signal.SIG_BLOCK, SIGNALS)
    try:
        yield
    finally:
        signal.pthread_sigmask(signal.SIG_UNBLOCK, SIGNALS)


def begin_command():
    """Has a command end with the process that started it, and take the signals that are held there."""
    end_with_parent()
    signal.pthread_sigmask(signal.SIG_UNBLOCK, SIGNALS)


def start(words, log, **how):
    """Starts a command without input. Its output is written to the file `log`, and it ends when this tool does."""
    with open(log, "wb") as said:
        how = {"stdin": subprocess.DEVNULL, "stdout": said, "stderr": said, **how}
        return subprocess.Popen(words, preexec_fn=begin_command, **how)


def end(commands):
    """Ends those of some commands that still run."""
    for command in commands:
        command.terminate()
    for command in commands:
        try:
            command.wait(PATIENCE)
        except subprocess.TimeoutExpired:
            command.kill()
            command.wait()


def newest(places):
    """The time of the last change at or below some files and folders, in nanoseconds."""
    found = [0]
    for place in places:
        found.append(place.stat().st_mtime_ns)
        for folder, folders, files in os.walk(place):
            found += [os.lstat(os.path.join(folder, name)).st_mtime_ns for name in folders + files]
    return max(found)


def is_as_new(made, places):
    """Whether a file exists, and nothing at or below some places was changed after it."""
    return made.is_file() and made.stat().st_mtime_ns >= newest(places)


@contextlib.contextmanager
def alone(name, every=60):
    """Waits until no other process does this in this checkout, says so every few seconds, and keeps others from it."""
    OUT.mkdir(exist_ok=True)
    with open(OUT / f"{name}.lock", "w") as lock:
        said = -math.inf
        while not is_locked(lock):
            if time.monotonic() - said >= every:
                said = time.monotonic()
                say("waiting for another process that is doing this here")
            time.sleep(0.1)
        yield


def is_locked(file):
    """Locks a file unless another process has locked it, and gives whether this one has."""
    try:
        fcntl.flock(file, fcntl.LOCK_EX | fcntl.LOCK_NB)
    except BlockingIOError:
        return False
    return True
