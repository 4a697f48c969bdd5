#!/usr/bin/env python3
"""Tests tools/module_parts.py, in a second: what the parts of small modules have, and that the kit's clang takes them.

    python3 tools/test_module_parts.py
"""

import re
import subprocess
import sys
import tempfile
import unittest
from pathlib import Path

from build_unproved import LEVEL, NoWay, find_kit
from module_parts import SMALL, Module, Unknown, write_parts

TOOLS = Path(__file__).resolve().parent
HEAD = """; ModuleID = 'module.bc'
source_filename = "test"
target triple = "x86_64-unknown-linux-gnu"

"""
TAIL = """
declare void @llvm.memset.p0.i64(ptr writeonly captures(none), i8, i64, i1 immarg) #1

declare void @_exit(i32 noundef) #1

attributes #0 = { nounwind }
attributes #1 = { nounwind }

!0 = !{}
"""


def function(name, *lines, kind="internal void", given=""):
    """The text of a function."""
    body = "".join(f"  {it}\n" for it in lines)
    return f"; Function Attrs: nounwind\ndefine {kind} @{name}({given}) #0 {{\nstart:\n{body}}}\n\n"


def calls(*names):
    """The lines of a function that calls others, and has more lines than a function that is copied."""
    padding = [f"%p{it} = add i32 0, 1" for it in range(SMALL)]
    return [*padding, *(f"call void @{it}()" for it in names), "ret void"]


def module(*functions, main=(), twice=(), head=HEAD):
    """The text of a module whose main calls some functions. Those in `twice` have another caller, too."""
    lines = [f"call void @{it}()" for it in (*main, *twice, *(['"z::again"'] if twice else []))]
    again = function('"z::again"', *calls(*twice)) if twice else ""
    return head + "".join(functions) + again + function("main", *lines, "ret i32 0", kind="i32") + TAIL


def defined(part):
    """The functions that a part defines, and the first words of each."""
    return {name: words for words, name in re.findall(r'^define ([^@]*)@("[^"]*"|[^(]*)\(', part, re.MULTILINE)}


class Parts(unittest.TestCase):
    """What the parts of a module have."""

    def test_what_main_does_not_reach_is_in_no_part(self):
        text = module(function('"a::far"', *calls('"a::far"')), function('"a::near"', *calls()), main=['"a::near"'])
        names = [name for part in Module(text).parts(2) for name in defined(part)]
        self.assertEqual(sorted(names), ['"a::near"', "main"])

    def test_a_function_of_one_caller_is_with_it_and_stays_internal(self):
        chain = [function(f'"a::{it}"', *calls(f'"a::{it + 1}"')) for it in range(3)]
        other = [function(f'"b::{it}"', *calls(f'"b::{it + 1}"')) for it in range(3)]
        ends = [function(it, *calls('"c::c"')) for it in ('"a::3"', '"b::3"')] + [function('"c::c"', *calls())]
        parts = list(map(defined, Module(module(*chain, *other, *ends, twice=['"a::0"', '"b::0"'])).parts(2)))
        self.assertEqual(len(parts), 2)
        homes = {name: number for number, part in enumerate(parts) for name in part}
        for letter in "ab":
            self.assertEqual(len({homes[f'"{letter}::{it}"'] for it in range(4)}), 1)
        self.assertEqual(parts[homes['"a::2"']]['"a::2"'], "internal void ")
        self.assertEqual(parts[homes['"c::c"']]['"c::c"'], "hidden void ")

    def test_what_another_part_names_is_hidden_and_declared_there(self):
        names = [f'"a::{it}"' for it in range(3)]
        parts = list(Module(module(*(function(it, *calls(*names)) for it in names), main=names)).parts(4))
        self.assertEqual(sorted(name for part in parts for name in defined(part)), [*names, "main"])
        self.assertGreater(len(parts), 1)
        for part in parts:
            others = set(re.findall(r'call void @("a::\d")', part)) - set(defined(part))
            self.assertEqual(set(re.findall(r'^declare hidden void @("a::\d")\(\) #0$', part, re.MULTILINE)), others)
            self.assertNotIn("internal void", "".join(defined(part).values()))

    def test_a_small_function_is_copied_unless_its_address_is_taken(self):
        small = [function('"a::called"', "ret void"), function('"a::taken"', "ret void")]
        names = [f'"b::{it}"' for it in range(3)]
        store = "store ptr @\"a::taken\", ptr null"
        users = [function(it, store, *calls('"a::called"', '"a::taken"')) for it in names]
        parts = list(map(defined, Module(module(*small, *users, twice=names)).parts(4)))
        parts = [it for it in parts if set(names) & set(it)]
        self.assertGreater(len(parts), 1)
        self.assertEqual({it.get('"a::called"') for it in parts}, {"internal void "})
        self.assertEqual(sum('"a::taken"' in it for it in parts), 1)

    def test_a_global_whose_address_matters_is_defined_once(self):
        head = HEAD + (
            "@static.0 = private global [1 x i8] zeroinitializer, align 1\n"
            '@static.1 = private unnamed_addr constant [2 x i8] c"@x", align 1\n'
            '@static.2 = private constant <{ [2 x i8], ptr }> <{ [2 x i8] c"a@", ptr @static.3 }>, align 8\n'
            '@static.3 = private unnamed_addr constant [2 x i8] c"b@", align 1\n\n'
        )
        loads = [f"%l{it} = load i8, ptr @static.{it}, align 1" for it in range(3)]
        names = ['"a::0"', '"a::1"']
        parts = list(Module(module(*(function(it, *loads, *calls()) for it in names), twice=names, head=head)).parts(3))
        parts = [it for it in parts if set(names) & set(defined(it))]
        self.assertEqual(sum("\n@static.0 = hidden global [1 x i8]" in it for it in parts), 1)
        self.assertEqual(sum("\n@static.0 = external hidden global %" in it for it in parts), 1)
        self.assertEqual(sum("\n@static.1 = private unnamed_addr constant" in it for it in parts), 2)
        self.assertEqual(sum("\n@static.2 = hidden constant <{" in it for it in parts), 1)
        self.assertEqual(sum("\n@static.2 = external hidden constant %" in it for it in parts), 1)
        self.assertEqual(sum("\n@static.3 = private" in it for it in parts), 1)

    def test_fills_are_dropped_if_each_new_variable_has_one(self):
        fill = "call void @llvm.memset.p0.i64(ptr %{}, i8 -86, i64 4, i1 false)"
        variables = ["%r0 = alloca i32, align 4", fill.format("r0"), "%r1 = alloca i32, align 4", fill.format("r1")]
        other = "call void @llvm.memset.p0.i64(ptr %r0, i8 -86, i64 2, i1 false)"
        names = ['"a::each"', '"a::not each"']
        functions = [function(names[0], *variables, other, "ret void"), function(names[1], *variables[:3], "ret void")]
        part, = Module(module(*functions, main=names)).parts(1)
        each, not_each = (re.search(rf"^define [^\n]*{it}.*?^\}}", part, re.MULTILINE | re.DOTALL)[0] for it in names)
        self.assertEqual(each.count("i8 -86"), 1)
        self.assertIn(other, each)
        self.assertEqual(not_each.count("i8 -86"), 1)

    def test_each_part_has_the_common_lines_and_the_declarations_that_it_needs(self):
        names = ['"a::0"', '"a::1"']
        text = module(*(function(it, "call void @_exit(i32 1)", *calls()) for it in names), twice=names)
        for part in Module(text).parts(2):
            for line in ("target triple", "attributes #0", "!0 = !{}"):
                self.assertEqual(part.count(line), 1)
            self.assertEqual(part.count("declare void @_exit"), min(1, part.count("call void @_exit")))
            self.assertNotIn("memset", part)

    def test_a_module_always_has_the_same_parts(self):
        names = [f'"a::{it}"' for it in range(9)]
        text = module(*(function(it, *calls(*names)) for it in names), main=names)
        said = "import module_parts, sys; print(list(module_parts.Module(sys.argv[1]).parts(3)))"
        words = [sys.executable, "-B", "-c", said, text]
        made = {
            subprocess.run(words, check=True, stdout=subprocess.PIPE, cwd=TOOLS, env={"PYTHONHASHSEED": seed}).stdout
            for seed in "123"
        }
        self.assertEqual(len(made), 1)

    def test_modules_of_another_kind_are_refused(self):
        plain = function('"a::a"', "ret void")
        self.assertEqual(len(list(Module(module(plain, main=['"a::a"'])).parts(2))), 1)
        for text in (
            module(function("a", *calls("a")), twice=["a"]),
            module(function("a", "ret void", kind="void"), main=["a"]),
            module(plain.replace(") #0", ") #0 section \"x\"")),
            module(head=HEAD + "@x = internal thread_local global i8 0\n"),
            module(head=HEAD + "@x = alias i8, ptr @y\n"),
            module(head=HEAD + 'module asm ".text"\n'),
            module(head=HEAD + "$x = comdat any\n"),
            module(function('"a::a"', "%m = call i32 @main()", "ret void"), main=['"a::a"']),
            HEAD + plain + TAIL,
        ):
            with self.subTest(text=text), self.assertRaises(Unknown):
                list(Module(text).parts(9))


def part_of_program(number):
    """A function that gives 0, counts its calls, and stores the addresses of a function and of a table."""
    lines = [
        'store ptr @"t::taken", ptr %a0, align 8',
        "%e = getelementptr i8, ptr %a0, i64 8",
        "store ptr @static.2, ptr %e, align 8",
        "%p0 = zext i8 0 to i32",
        *(f"%p{it + 1} = add i32 %p{it}, {number}" for it in range(SMALL)),
        'call void @"t::count"()',
        f"%r = sub i32 %p{SMALL}, {number * SMALL}",
        "ret i32 %r",
    ]
    return function(f'"t::part{number}"', *lines, kind="internal noundef i32", given="ptr noundef %a0")


def calls_of_program(number):
    """The lines that call that function, and look whether the addresses are those that are seen here."""
    return (
        f"%v{number} = alloca [2 x ptr], align 8",
        f'%r{number} = call noundef i32 @"t::part{number}"(ptr noundef %v{number})',
        f"%f{number} = load ptr, ptr %v{number}, align 8",
        f'%n{number} = icmp ne ptr %f{number}, @"t::taken"',
        f"%w{number} = getelementptr i8, ptr %v{number}, i64 8",
        f"%t{number} = load ptr, ptr %w{number}, align 8",
        f"%m{number} = icmp ne ptr %t{number}, @static.2",
        f"%o{number} = or i1 %n{number}, %m{number}",
        f"%z{number} = zext i1 %o{number} to i32",
        f"%s{number} = or i32 %r{number}, %z{number}",
        f"%sum{number + 1} = or i32 %sum{number}, %s{number}",
    )


def program():
    """A program that calls four functions twice each. Its status is the number of calls, or more if they differ."""
    head = (
        "@static.0 = private global i32 0, align 4\n"
        '@static.1 = private unnamed_addr constant [3 x i8] c"@\\22\\0A", align 1\n'
        "@static.2 = private constant <{ ptr, [4 x i8] }> "
        '<{ ptr getelementptr (i8, ptr @static.2, i64 8), [4 x i8] c"@123" }>, align 8\n\n'
    )
    count = ("%c = load i32, ptr @static.0, align 4", "%d = add i32 %c, 1", "store i32 %d, ptr @static.0, align 4")
    calls = ["%sum0 = zext i8 0 to i32", *(line for number in range(4) for line in calls_of_program(number))]
    ends = [
        '%again = call i32 @"t::again"()',
        "%all = or i32 %sum4, %again",
        "%wrong = shl i32 %all, 4",
        "%count = load i32, ptr @static.0, align 4",
        "%status = add i32 %wrong, %count",
        "ret i32 %status",
    ]
    functions = [
        function('"t::taken"', "ret void"),
        function('"t::count"', *count, "ret void"),
        *map(part_of_program, range(4)),
        function('"t::again"', *calls, "ret i32 %sum4", kind="internal i32"),
        function("main", *calls, *ends, kind="i32"),
    ]
    return HEAD + head + "".join(functions) + TAIL


class Compiled(unittest.TestCase):
    """That the kit's clang and linker make one program of the parts."""

    def test_parts_make_the_program(self):
        try:
            kit = find_kit()
        except NoWay as why:
            self.skipTest(str(why))
        for count in range(1, 6):
            with tempfile.TemporaryDirectory() as folder, self.subTest(count=count):
                self.assertEqual(self.status(kit, Path(folder), count), 8)

    def status(self, kit, folder, count):
        """The status of the program that is made of so many parts."""
        (folder / "module.ll").write_text(program())
        write_parts(folder / "module.ll", folder, count)
        parts = sorted(folder.glob("part*.ll"))
        self.assertEqual(len(parts), count)
        clang = [str(kit / "toolchain/bin/clang"), "--target=x86_64-unknown-linux-gnu", "-Werror", "-fPIE", *LEVEL]
        for part in parts:
            subprocess.run([*clang, "-c", "-x", "ir", str(part), "-o", f"{part}.o"], check=True)
        link = [str(kit / "bin/rattle-link"), "--target", "x86_64-unknown-linux-gnu", "--toolchain", f"{kit}/toolchain"]
        made = [*(f"{it}.o" for it in parts), *(f"{kit}/c/{it}" for it in ("libos_c.a", "liblibc_c.a"))]
        said = {"stdout": subprocess.DEVNULL, "stderr": subprocess.DEVNULL}
        subprocess.run([*link, "-o", str(folder / "program"), *made], check=True, **said)
        return subprocess.run([str(folder / "program")]).returncode


if __name__ == "__main__":
    unittest.main()
