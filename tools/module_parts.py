#!/usr/bin/env python3
"""Takes the text of an LLVM module apart, so that its parts can be compiled side by side.

    python3 tools/module_parts.py MODULE FOLDER COUNT    writes at most so many parts: FOLDER/part0.ll and so on

Each part is a module of its own. Together they have all items (functions, globals, declarations) that `main` reaches:

- A function of a few lines that several items call is copied to each part that needs it, where it can be inlined. A
  constant whose address does not matter (`unnamed_addr`) is copied, too.
- Any other item is defined in one part, its home. If only one item names it, it has the home of that item. If another
  part names it, its definition is hidden instead of internal, and the other part declares it.

`rt try` fills each new variable with bytes 0xAA. A fill checks nothing, so the parts have none: a read of a variable
that was never set would find those bytes in the whole module, and finds any bytes in the parts.

A module with a line of an unexpected kind is refused. tools/test_module_parts.py tests all of this.
"""

import argparse
import re
import sys
from pathlib import Path

NAME = r'@(?P<name>"[^"]*"|[-a-zA-Z0-9_$.]+)'
HEADER = re.compile(rf"define (?:(?P<inner>internal) )?(?P<said>[^@]*{NAME}\(.*\)(?: #\d+)?) \{{")
GLOBAL = re.compile(rf"{NAME} = (?P<inner>private|internal) (?P<same>unnamed_addr )?(?P<kind>global|constant) ")
DECLARED = re.compile(rf"declare [^@]*{NAME}\(")
# Lines that each part has.
COMMON = re.compile(r"source_filename |target |attributes #|!|%[^ ]+ = type |%\"[^\"]*\" = type ")
# A name where an item is called or named otherwise; or a text between quotes, in which nothing is named.
MENTION = re.compile(rf'{NAME}(\(?)|"[^"]*"')
FILL = re.compile(
    r"^(  (%[^ ]+) = alloca .*\n)  call void @llvm\.memset\.p0\.i64\(ptr \2, i8 -86, i64 \d+, i1 false\)\n",
    re.MULTILINE,
)
# The type of a global that another part defines: nothing is known of it here.
FOREIGN = '%"a global of another part"'
# A function of so many lines at most is copied to where it is called.
SMALL = 60


class Unknown(Exception):
    """The module is not of the kind that is expected here."""


def split(text):
    """The functions of a module, and the lines that belong to none. LLVM prints no line end within quotes."""
    functions, lines, at, text = [], [], 0, f"\n{text}"
    while True:
        begin = text.find("\ndefine ", at) + 1
        end = text.find("\n}\n", begin) + 3
        if begin == 0 or end == 2:
            return functions, lines + text[at:].split("\n")
        lines += text[at:begin].split("\n")
        functions.append(text[begin:end])
        at = end - 1


def read(text):
    """The functions, globals and declarations of a module by their names, and the lines that each part has."""
    functions, lines = split(text)
    others, common = {GLOBAL: {}, DECLARED: {}}, []
    for line in filter(None, lines):
        kind = next((it for it in others if it.match(line)), None)
        if kind:
            others[kind][kind.match(line)["name"]] = line
        elif COMMON.match(line):
            common.append(line)
        elif not line.startswith(";"):
            raise Unknown(f"its line '{line[:60]}' is of an unexpected kind")
    return {header(it)["name"]: it for it in functions}, others[GLOBAL], others[DECLARED], common


def header(function):
    """The first line of a function, as a match of HEADER."""
    line = function.partition("\n")[0]
    found = HEADER.fullmatch(line)
    if not found or not (found["inner"] or found["name"] == "main"):
        raise Unknown(f"its function '{line[:60]}' is of an unexpected kind")
    return found


def without_fills(function):
    """A function without the fills of its new variables, if each of them has one."""
    made, fills = FILL.subn(r"\1", function)
    return made if fills == function.count(" = alloca ") else function


class Module:
    """The items of a module that `main` reaches, and which of them names which."""

    def __init__(self, text):
        """Takes the text of a module."""
        self.functions, self.globals, self.declared, self.common = read(text)
        self.text = {**self.functions, **self.globals, **self.declared}
        # What each item names, in the order of the calls from `main` down; and the items that are not only called.
        self.names, self.taken = {}, set()
        self.reach()
        self.text = {it: without_fills(self.text[it]) for it in self.names}
        self.users = {}
        for it, named in self.names.items():
            for other in named:
                self.users.setdefault(other, []).append(it)
        self.size = {it: text.count("\n") + 1 for it, text in self.text.items()}
        self.owned = [it for it in self.names if it not in self.declared and not self.is_copied(it)]

    def reach(self):
        """Finds what `main` reaches, and what each of these items names."""
        left = ["main"] if "main" in self.functions else []
        while left:
            it = left.pop()
            if it not in self.names:
                mentions = [pair for pair in set(MENTION.findall(self.text[it])) if pair[0] in self.text]
                self.taken.update(name for name, called in mentions if not called)
                self.names[it] = {name for name, _ in mentions} - {it}
                # Sorted, so that a module always has the same parts.
                left += sorted(self.names[it])
        if not self.names or any("main" in named for named in self.names.values()):
            raise Unknown("it has no function main, or one that others name")

    def is_copied(self, name):
        """Whether each part that needs an item has its own copy. None can tell the copies apart by their address."""
        if name in self.globals:
            return bool(GLOBAL.match(self.globals[name])["same"])
        is_called = name not in self.taken and len(self.users.get(name, ())) > 1
        return is_called and self.size[name] <= SMALL

    def head(self, name, owned):
        """The item with which another one is at home: the last one above it that is not named by one item alone."""
        seen = set()
        while len(self.users.get(name, ())) == 1 and name not in seen and self.users[name][0] in owned:
            seen.add(name)
            name = self.users[name][0]
        return name

    def homes(self, count):
        """The number of the part in which each item is defined that is not copied. The parts are about as long."""
        groups, owned = {}, set(self.owned)
        for it in self.owned:
            groups.setdefault(self.head(it, owned), []).append(it)
        total, done, homes = sum(self.size[it] for it in self.owned), 0, {}
        for group in groups.values():
            homes.update((it, done * count // total) for it in group)
            done += sum(self.size[it] for it in group)
        return homes

    def needed(self, owned, homes):
        """The items that a part with these homes in it has, and those that it names in other parts."""
        inside, outside, left = set(owned), set(), list(owned)
        while left:
            for it in self.names[left.pop()] - inside - outside:
                if it in homes:
                    outside.add(it)
                else:
                    inside.add(it)
                    left.append(it)
        return inside, outside

    def definition(self, name, homes):
        """The text of an item in a part that has it. It is hidden if another part may name it."""
        text = self.text[name]
        if name not in homes or all(homes.get(it) == homes[name] for it in self.users.get(name, ())):
            return text
        if re.fullmatch(r"\w+", name):
            raise Unknown(f"{name} could be taken for a name of C")
        start, end = (GLOBAL if name in self.globals else HEADER).match(text).span("inner")
        return f"{text[:start]}hidden{text[end:]}"

    def declaration(self, name):
        """The text of an item in a part that names it and does not have it."""
        if name in self.globals:
            return f"@{name} = external hidden {GLOBAL.match(self.globals[name])['kind']} {FOREIGN}"
        return f"declare hidden {header(self.functions[name])['said']}"

    def parts(self, count):
        """Gives the texts of at most so many parts."""
        homes = self.homes(count)
        for number in sorted(set(homes.values())):
            inside, outside = self.needed([it for it in self.owned if homes[it] == number], homes)
            texts = [*self.common, f"{FOREIGN} = type opaque", *map(self.declaration, sorted(outside))]
            texts += [self.definition(it, homes) for it in self.names if it in inside]
            yield "\n".join([*texts, ""])


def write_parts(source, folder, count):
    """Takes the module in a file apart, and writes its parts into a folder."""
    # Each byte is a letter here, so that all bytes stay.
    module = Module(source.read_bytes().decode("latin-1"))
    for number, text in enumerate(module.parts(count)):
        (folder / f"part{number}.ll").write_bytes(text.encode("latin-1"))


def main():
    """Writes the parts of a module, or says why it cannot be taken apart."""
    parser = argparse.ArgumentParser(description=__doc__, formatter_class=argparse.RawDescriptionHelpFormatter)
    parser.add_argument("module", type=Path, metavar="MODULE")
    parser.add_argument("folder", type=Path, metavar="FOLDER")
    parser.add_argument("count", type=int, metavar="COUNT")
    options = parser.parse_args()
    try:
        write_parts(options.module, options.folder, options.count)
    except Unknown as why:
        print(f"module_parts: the module cannot be taken apart: {why}", file=sys.stderr)
        return 1
    return 0


if __name__ == "__main__":
    sys.exit(main())
