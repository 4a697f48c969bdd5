#!/usr/bin/env python3
"""Tests tools/build_unproved.py, in seconds: a kit of shell scripts stands in for the real one.

    python3 tools/test_build_unproved.py
"""

import os
import re
import shutil
import signal
import subprocess
import sys
import tempfile
import time
import unittest
from pathlib import Path

TOOLS = Path(__file__).resolve().parent
WORDS = "-c -x ir module.bc -o module.o -O0 -fsanitize=address"
# Two functions that are too long to be copied, and have several callers: a part has each.
LONG = "".join(f"  %v{it} = add i32 0, 1\n" for it in range(100))
MODULE = f"""define internal void @"a::one"() #0 {{
{LONG}  call void @"a::two"()
  ret void
}}
define internal void @"a::two"() #0 {{
{LONG}  call void @"a::one"()
  ret void
}}
define i32 @main() #0 {{
  call void @"a::one"()
  call void @"a::two"()
  ret i32 0
}}
attributes #0 = {{ nounwind }}
"""
# Each script looks for files in the folder `ways`, which say how it is to behave.
RT = """#!/bin/sh
echo called >> {ways}/rt_calls
[ ! -e {ways}/refuses ] || {{ echo 'error: refused'; exit 1; }}
[ ! -e {ways}/lasts ] || sleep 1
cd "$TMPDIR" || exit
mkdir try && cd try || exit
cp {ways}/module module.bc
$(dirname "$0")/../toolchain/bin/clang {words} || [ ! -e {ways}/two_modules ] ||
    $(dirname "$0")/../toolchain/bin/clang {words}
echo 'run=none'
exit 1
"""
CLANG = """#!/bin/sh
case "$*" in
    *' -S '*) way=text; ;;
    *part*) way=part ;;
    *) way=whole ;;
esac
if [ -e {ways}/${{way}}_hangs ]; then
    echo $$ >> {ways}/pids
    exec sleep 20
fi
[ ! -e {ways}/${{way}}_fails ] || {{ echo "error: no $way"; exit 1; }}
while [ "$1" != -o ]; do
    case $1 in *module.bc | *.ll) source=$1 ;; esac
    shift
done
cp "$source" "$2"
"""
# The program has the names of its objects, and ends with status 0, or with 1 if it is made of parts and these are bad.
LINK = """#!/bin/sh
while [ "$1" != -o ]; do shift; done
{{
    echo '#!/bin/sh'
    echo "# $*"
    case "$*" in *part*) [ ! -e {ways}/program_fails ] || echo 'exit 1' ;; esac
    echo 'exit 0'
}} > "$2"
chmod +x "$2"
"""
RUN = """
import os, sys
os.sched_getaffinity = lambda _: set(range({processors}))
sys.path.insert(0, {tools!r})
import build_unproved
build_unproved.EVERY = {every}
sys.exit(build_unproved.main())
"""


class Builds(unittest.TestCase):
    """What the build does, with a checkout and a kit of its own."""

    def setUp(self):
        """Makes the checkout and the kit."""
        self.folder = Path(tempfile.mkdtemp(prefix="cjoin-test-"))
        self.addCleanup(shutil.rmtree, self.folder, ignore_errors=True)
        self.top, self.ways, kit = (self.folder / it for it in ("top", "ways", "kit"))
        self.program = self.top / "out/cjoin_unproved"
        for it in ("top/tools", "top/crates/star_main/src", "ways", "kit/bin", "kit/toolchain/bin", "kit/c"):
            (self.folder / it).mkdir(parents=True)
        for it in ("build_unproved.py", "module_parts.py", "checkout.py"):
            shutil.copy2(TOOLS / it, self.top / "tools")
        for it in ("top/crates.txt", "top/crates/star_main/src/main.rt", "kit/bin/rtlib.py", "ways/module"):
            (self.folder / it).write_text("")
        (self.ways / "module").write_text(MODULE)
        scripts = {"bin/rt": RT, "toolchain/bin/clang": CLANG, "bin/rattle-link": LINK, "bin/rattle": "#!/bin/sh\n"}
        for name, text in scripts.items():
            (kit / name).write_text(text.format(ways=self.ways, words=WORDS))
            (kit / name).chmod(0o755)

    def start(self, *ways, processors=4, every=10):
        """Starts the build, where the kit behaves in these ways."""
        for it in self.ways.iterdir():
            if it.name not in ("module", "rt_calls"):
                it.unlink()
        for it in ways:
            (self.ways / it).write_text("")
        code = RUN.format(processors=processors, tools=str(self.top / "tools"), every=every)
        env = {**os.environ, "PATH": f"{self.folder}/kit/bin:{os.environ['PATH']}"}
        how = {"stdin": subprocess.DEVNULL, "stdout": subprocess.PIPE, "stderr": subprocess.STDOUT}
        return subprocess.Popen([sys.executable, "-B", "-c", code], env=env, universal_newlines=True, **how)

    def build(self, *ways, **how):
        """Builds the program, and gives the status, the objects and all that was said."""
        with self.start(*ways, **how) as build:
            said = build.communicate()[0]
        self.assertEqual(list(self.top.glob("out/building-*")), [])
        objects = self.program.read_text().split("\n")[1].split() if self.program.is_file() else []
        return build.returncode, sorted(it for it in objects if it.endswith(".o")), said

    def test_parts_are_compiled_on_several_processors(self):
        for processors in (2, 3, 4, 64):
            status, objects, said = self.build(processors=processors)
            self.assertEqual((status, objects), (0, ["part0.o", "part1.o"]), said)
            self.program.unlink()

    def test_the_whole_module_is_compiled_on_one_processor(self):
        status, objects, said = self.build("text_fails", processors=1)
        self.assertEqual((status, objects), (0, ["module.o"]), said)

    def test_the_whole_module_is_compiled_if_parts_fail(self):
        for way in ("text_fails", "part_fails", "program_fails"):
            status, objects, said = self.build(way)
            self.assertEqual((status, objects), (0, ["module.o"]), said)
            self.assertIn("the program is not compiled by parts: ", said)
            self.assertIn("compiling the program", said)
            self.program.unlink()

    def test_the_whole_module_is_compiled_if_it_cannot_be_taken_apart(self):
        (self.ways / "module").write_text(MODULE.replace("attributes", "unknown"))
        status, objects, said = self.build()
        self.assertEqual((status, objects), (0, ["module.o"]), said)
        self.assertIn("the module cannot be taken apart", said)

    def test_rt_try_is_left_to_run_it_if_nothing_compiles(self):
        for ways in (["whole_fails", "part_fails"], ["two_modules"]):
            status, objects, said = self.build(*ways)
            self.assertEqual((status, objects), (75, []), said)
            self.assertIn("the program cannot be built in this way here: ", said)

    def test_refused_sources_are_said(self):
        status, objects, said = self.build("refuses")
        self.assertEqual((status, objects), (1, []))
        self.assertIn("error: refused", said)

    def test_two_processes_build_once(self):
        with self.start("lasts", every=0.3) as first, self.start("lasts", every=0.3) as second:
            said = [it.communicate()[0] for it in (first, second)]
        self.assertEqual((first.returncode, second.returncode), (0, 0), said)
        self.assertEqual((self.ways / "rt_calls").read_text(), "called\n")
        self.assertTrue(any(it.count("waiting for another process") > 1 for it in said), said)
        self.assertEqual(self.build()[0], 0)
        self.assertEqual((self.ways / "rt_calls").read_text(), "called\n")

    def test_each_step_says_its_share_and_the_time_left(self):
        _, _, said = self.build("lasts", every=0.3)
        self.assertRegex(said, r"cjoin: checking the sources \(\d+% of the time\), about \d+ s left\n")
        self.assertRegex(said, r"(cjoin: checking the sources, about \d+ s left\n){2}")
        for step in ("taking the program apart", "compiling its parts", "linking the program"):
            self.assertRegex(said, rf"cjoin: {step} \(\d+% of the time\), about \d+ s left\n")
        self.assertAlmostEqual(sum(map(int, re.findall(r"(\d+)% of", said))), 100, delta=2)

    def test_a_signal_ends_all(self):
        for number in (signal.SIGTERM, signal.SIGINT, signal.SIGHUP):
            for way, count in (("text_hangs", 1), ("part_hangs", 2)):
                with self.start(way) as build:
                    commands = self.hanging(count)
                    build.send_signal(number)
                    build.communicate()
                self.assertEqual(build.returncode, 128 + number)
                self.assertEqual([it for it in commands if self.runs(it)], [])
                self.assertEqual(list(self.top.glob("out/building-*")), [])

    def test_what_a_killed_build_left_is_removed(self):
        with self.start("part_hangs") as build:
            commands = self.hanging(2)
            build.kill()
            build.communicate()
        until = time.monotonic() + 10
        while any(map(self.runs, commands)) and time.monotonic() < until:
            time.sleep(0.05)
        self.assertEqual([it for it in commands if self.runs(it)], [])
        status, objects, said = self.build()
        self.assertEqual((status, objects), (0, ["part0.o", "part1.o"]), said)

    def hanging(self, count):
        """The processes of the commands that hang, once there are so many."""
        found, until = [], time.monotonic() + 15
        while len(found) < count and time.monotonic() < until:
            time.sleep(0.05)
            found = (self.ways / "pids").read_text().split() if (self.ways / "pids").is_file() else []
        self.assertEqual(len(found), count)
        return [int(it) for it in found]

    def runs(self, process):
        """Whether a process is there and is not only waited for."""
        try:
            return Path(f"/proc/{process}/stat").read_text().rsplit(")", 1)[1].split()[0] != "Z"
        except OSError:
            return False


if __name__ == "__main__":
    unittest.main()
