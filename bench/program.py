"""Which program a command line names, and whether it is the proved one, for the scripts of `bench/`."""

import filecmp
import os
import re
import subprocess
import sys
from pathlib import Path

TOP = Path(__file__).resolve().parent.parent
sys.path.append(str(TOP / "tools"))

from checkout import is_as_new  # noqa: E402
from prove import PROGRAM as PROVED, sources  # noqa: E402

CJOIN = TOP / "cjoin"
UNPROVED = TOP / "out" / "cjoin_unproved"


def is_proved(program):
    """Whether a program is the proved one of this checkout: the same bytes, and as new as the sources."""
    return is_as_new(PROVED, sources()) and filecmp.cmp(program, PROVED, shallow=False)


def set_as_cjoin_does():
    """Sets the variables of malloc that `./cjoin` sets, unless they are set."""
    for name, value in re.findall(r'(MALLOC_\w+)="\$\{\1-(\d+)\}"', CJOIN.read_text()):
        os.environ.setdefault(name, value)


def chosen(program):
    """The program that a command runs. For `./cjoin`, which picks one and sets variables, it is the picked one."""
    if Path(program).resolve() != CJOIN:
        return str(Path(program).resolve())
    set_as_cjoin_does()
    # The first run builds a program. These words name no settings, so nothing else happens.
    words = [CJOIN, "--slots", "65"]
    said = subprocess.run(words, stdin=subprocess.DEVNULL, stderr=subprocess.PIPE, check=False).stderr
    return str(UNPROVED if b"is not proved" in said else PROVED)
