#!/usr/bin/env python3
"""Loads a CSV file of any size into a table of a server of this machine, block by block.

    tools/load_csv.py sales sales.csv                  loads the records of a file
    tools/load_csv.py sales sales.csv --header         the first record names the columns, and is not loaded
    tools/load_csv.py sales sales.csv --columns 'store_id int references store, units int' --check
                                                       finds the records that do not fit, and sends nothing
    tools/load_csv.py sales sales.csv --from 20001     begins at a record, after a run that stopped
    tools/load_csv.py sales sales.csv --out FOLDER     writes scripts, and sends nothing
    zcat sales.csv.gz | tools/load_csv.py sales -      loads the standard input

A block is one load: the server takes all its records, as one commit, or none. The next block is sent after the reply,
and each commit is printed. At the first block that is refused, the program says which records are at fault, as far as
it can know, and stops: earlier blocks stay committed, and later ones are not sent. It opens a new connection before one
has sent its 67,108,864 bytes. Records are numbered from 1, without the header; lines are those of the file.

What the program can know of a refused block:
    refused 9, bad record            With --columns, which are the columns of the table in the words of its declaration,
                                     each record that does not fit. Without them, each record with another number of
                                     fields than the first one, and each field that no column takes.
    refused 10, duplicate key        Each key that stands twice in the block, or in an earlier record of the file. Of a
                                     key that was in the table before it cannot know: no query lists all keys of a
                                     dimension.
    refused 11, dangling reference   With --columns, each key that no row of the table has: some of these are missing in
                                     their dimension. With --keys COLUMN=FILE as well, where FILE is the CSV file that
                                     the dimension was loaded from, each record whose key is not in that file.
With --split-refused the server finds them: the halves of a refused block are loaded, and their halves, until all
records are committed but those that are refused alone.

The status is 0 if all records were committed or written, 1 if some were refused or do not fit, 2 if the words are at
fault, and 3 if there was no connection or it broke. Python's standard library is all that this needs.
"""

import argparse
import contextlib
import itertools
import os
import re
import socket
import sys
import time
from pathlib import Path

from ask import ALL_WELL, FAULTY_WORDS, MOST_BYTES, NO_CONNECTION, REFUSED, Broken, Replies, connect, port_of
from csv_records import MARK, FileFault, all_records, body_of, columns_of, fault_of_record, fields_of, has_dot_line
from csv_records import key_of, shown

BLOCK_BYTES = 1_048_576
# How many records are named at a refused block and by --check, and how many may be refused alone.
MOST_NAMED, MOST_CHECKED, MOST_ALONE = 10, 100, 100
BAD_RECORD, DUPLICATE_KEY, DANGLING_REFERENCE = 9, 10, 11
OF_RECORDS = (BAD_RECORD, DUPLICATE_KEY, DANGLING_REFERENCE)
# What the other refusals of a load mean.
MEANINGS = {
    2: "the server has no table of this name",
    12: "the table has no room for so many rows: a fact table takes 1,048,576 in all, deleted ones included,"
    " and a dimension 262,144",
    13: "no table can be loaded before the fact table is declared",
}
NAME = re.compile(r"[A-Za-z_][A-Za-z0-9_]{0,62}")


class Stop(Exception):
    """Nothing more is loaded."""


def say(text):
    """Says something on the standard error."""
    print(f"load_csv: {text}", file=sys.stderr, flush=True)


def tell(text):
    """Prints a line of the result."""
    print(text, flush=True)


def counted(count, noun):
    """How many of some things there are, in words."""
    return f"{count:,} {noun}" if count == 1 else f"{count:,} {noun}s"


# Blocks.


class Block:
    """Some records that follow each other, and the number of the first. Each record has its line beside it."""

    def __init__(self, first, records):
        self.first, self.records = first, records

    def __len__(self):
        return len(self.records)

    def numbered(self):
        """The records, each with its number and its line."""
        return ((self.first + place, *it) for place, it in enumerate(self.records))

    def name(self):
        """Which records these are."""
        last = self.first + len(self) - 1
        return f"record {last}" if last == self.first else f"records {self.first} to {last}"

    def halves(self):
        """The block as two."""
        middle = len(self) // 2
        return Block(self.first, self.records[:middle]), Block(self.first + middle, self.records[middle:])


def blocks_of(records, given):
    """Numbered records as blocks of at most so many bytes and records. A record that is longer has a block alone."""
    taken, size, first = [], 0, None
    for number, line, record in records:
        if taken and (size + len(record) > given.block_bytes or len(taken) == given.rows):
            yield Block(first, taken)
            taken, size = [], 0
        first = first if taken else number
        taken.append((line, record))
        size += len(record)
    if taken:
        yield Block(first, taken)


def sent_as(record):
    """The bytes that are sent for a record. A single dot would end the block, and in quotes it is the same record."""
    return b'"."\n' if body_of(record) == b"." else record


def script_of(table, header, block):
    """The statement that loads a block."""
    parts = [sent_as(record) for _, record in block.records]
    # A byte order mark at the very front of a block would be taken off. A line without bytes is no record.
    front = (b"\n" if parts[0].startswith(MARK) else b"") if header is None else header
    words = f"load {table}\n" if header is None else f"load {table} header\n"
    text = words.encode() + front + b"".join(parts)
    return text + (b".\n" if text.endswith(b"\n") else b"\n.\n")


def refuse_dot_lines(block):
    """Makes sure that no record of a block would end it."""
    for number, line, record in block.numbered():
        if has_dot_line(record):
            raise FileFault(f"record {number} (line {line}) has a line of a single dot in quotes, which ends a block")


# A connection.


class Server:
    """Sends statements over one connection after the other, none of which sends too many bytes."""

    def __init__(self, port):
        self.port, self.link, self.sent, self.replies = port, None, 0, None

    def make_ready(self, size):
        """Connects, unless there is a connection that may send so many bytes more."""
        if self.link and self.sent + size > MOST_BYTES:
            self.end()
        if not self.link:
            self.link, self.sent, self.replies = connect(self.port), 0, Replies()
            self.link.settimeout(10)

    def ask(self, text):
        """Sends a statement, and gives the lines of its reply."""
        self.make_ready(len(text))
        self.sent += len(text)
        try:
            self.send(text)
            return self.reply()
        except OSError as fault:
            raise Broken(f"the connection broke ({fault.strerror})") from None

    def send(self, text):
        """Sends bytes, however long the server takes."""
        left = memoryview(text)
        while left:
            try:
                left = left[self.link.send(left) :]
            except socket.timeout:
                say("the server is not ready to take more yet")

    def reply(self):
        """Waits for the reply to what was sent."""
        found = []
        while not found:
            try:
                piece = self.link.recv(1_048_576)
            except socket.timeout:
                say("no reply yet: the server is busy, or holds as many connections as it can")
                continue
            if not piece:
                raise Broken("the server ended the connection")
            found = list(self.replies.cut(piece))
        return found[0]

    def end(self):
        """Ends the connection."""
        if self.link:
            with contextlib.suppress(OSError):
                self.link.shutdown(socket.SHUT_WR)
                self.link.recv(1)
            self.link.close()
            self.link = None


# Why a block was refused.


class Finder:
    """Finds the records for which a block was refused, as far as they can be known."""

    def __init__(self, given, width, server=None):
        self.given, self.columns, self.width, self.server = given, given.columns or [], width, server
        self.kind_of_key = self.columns[0].kind if self.columns else None
        self.listed_keys = {}

    def tell(self, number, block):
        """Prints the records at fault, or why they are not known."""
        finders = {BAD_RECORD: self.bad, DUPLICATE_KEY: self.duplicates, DANGLING_REFERENCE: self.dangling}
        found, unknown = finders[number](block)
        tell_faults(found, MOST_NAMED)
        if not found:
            tell(f"  {unknown}")

    def bad(self, block):
        """The records that do not fit."""
        found = []
        for number, line, record in block.numbered():
            why = fault_of_record(record, self.columns, self.width)
            if why:
                found.append((number, line, record, why))
        if self.columns:
            return found, "all of them fit the columns of --columns; are these the columns of the table?"
        return found, "all of them have as many fields as the first record; --columns would tell their kinds"

    def duplicates(self, block):
        """The records whose key is that of an earlier record of the block or of the file."""
        found = self.duplicates_after(self.earlier_keys(block.first), block)
        where = "the file up to here" if self.given.is_file or block.first == 1 else "these records"
        return found, f"no key stands twice in {where}, so one of them was in the table before; which is not known"

    def duplicates_after(self, seen, block):
        """The records whose key was seen. The keys of the block are seen then."""
        found = []
        for number, line, record in block.numbered():
            key = key_of(fields_of(record)[0], self.kind_of_key)
            if key in seen:
                found.append((number, line, record, f"its key is that of record {seen[key]}"))
            seen.setdefault(key, number)
        return found

    def earlier_keys(self, first):
        """The keys of the records before a number, each with its number, if the file can be read again."""
        keys = {}
        if self.given.is_file:
            with open(self.given.file, "rb") as file:
                for number, _, record in header_and_records(file, self.given)[1]:
                    if number >= first:
                        break
                    keys.setdefault(key_of(fields_of(record)[0], self.kind_of_key), number)
        return keys

    def dangling(self, block):
        """The records whose keys are not known to be in their dimension."""
        referring = [it for it in self.columns if it.dimension]
        if not referring:
            return [], "which columns reference a dimension is not known; --columns says so"
        return self.without_keys(referring, block), "none of them was found; are --columns and --keys right?"

    def without_keys(self, referring, block):
        """The records whose keys in some columns are not known to be in their dimension."""
        found = []
        for place, column in enumerate(self.columns):
            if column in referring:
                found += self.without_key(place, column, block)
        return sorted(found)

    def without_key(self, place, column, block):
        """The records whose key is not in the file of the keys, or the first record of each key that no row has."""
        file_name = self.given.keys.get(column.name)
        keys = self.keys_of_file(file_name, column) if file_name else self.keys_of_rows(column)
        why = f"is not in {file_name}" if file_name else "is in no row of the table, and so may be missing"
        found, seen = [], set()
        for number, line, record in block.numbered() if keys is not None else ():
            field = next(iter(fields_of(record)[place : place + 1]), None)
            key = None if field is None else key_of(field, column.kind)
            if key is not None and key not in keys and key not in seen:
                found.append((number, line, record, f"{column.name} '{shown(field, 40)}' {why}"))
                if not file_name:
                    seen.add(key)
        return found

    def keys_of_file(self, file_name, column):
        """The keys of the file that a dimension was loaded from."""
        if file_name not in self.listed_keys:
            with open(file_name, "rb") as file:
                keys = {key_of(fields_of(record)[0], column.kind) for _, record in all_records(file)}
            self.listed_keys[file_name] = keys
        return self.listed_keys[file_name]

    def keys_of_rows(self, column):
        """The keys that rows of the table have in a column, and so the dimension, or None if the server refuses."""
        query = f"select {column.name}, count(*) from {self.given.table} group by {column.name}\n"
        head, *rows = self.server.ask(query.encode())
        if not head.startswith(b"answer"):
            say(f"to {query.strip()!r} the server replies {head.decode()!r}")
            return None
        keys = [row.rpartition(b",")[0] for row in rows]
        return {it[1:-1].replace(b"''", b"'") if column.kind == "text" else int(it) for it in keys}


def tell_faults(found, most):
    """Prints the first of some records, and why each is at fault."""
    for number, line, record, why in found[:most]:
        tell(f"  record {number} (line {line}): {why}")
        tell(f"    {shown(body_of(record))}")
    if len(found) > most:
        tell(f"  and {len(found) - most:,} more")


# What is done with the records.


class Loading:
    """The records of a file on their way to a server."""

    def __init__(self, given, header, width):
        self.given, self.header, self.server = given, header, Server(given.port)
        self.finder = Finder(given, width, self.server)
        self.began = self.last_said = time.monotonic()
        self.blocks, self.records, self.bytes, self.last_commit = 0, 0, 0, None
        self.refused, self.in_flight = [], None

    def load(self, block):
        """Loads a block. If it is refused, prints why, and stops unless the words say otherwise."""
        number, reply = self.offer(block)
        if number is None:
            return
        if self.given.split_refused and len(block) > 1 and number in OF_RECORDS:
            for half in block.halves():
                self.load(half)
            return
        tell(f"{block.name()}: {reply}")
        self.refused.append(block)
        if number in OF_RECORDS:
            self.finder.tell(number, block)
        elif number in MEANINGS:
            tell(f"  {MEANINGS[number]}")
        if number not in OF_RECORDS or not self.goes_on():
            raise Stop()

    def goes_on(self):
        """Whether the words say to go on after a refusal."""
        if self.given.split_refused:
            return len(self.refused) < MOST_ALONE
        return self.given.go_on

    def offer(self, block):
        """Sends a block, and gives the number of its refusal, or none, and the reply. The number of `memory` is 0."""
        if any(has_dot_line(record) for _, record in block.records):
            return BAD_RECORD, "not sent, since a line of a single dot in quotes ends a block"
        text = script_of(self.given.table, self.header, block)
        if len(text) > MOST_BYTES:
            return BAD_RECORD, f"not sent, since it takes {len(text):,} bytes, and a connection sends {MOST_BYTES:,}"
        self.server.make_ready(len(text))
        self.in_flight = block
        reply = self.server.ask(text)[0].decode()
        self.in_flight = None
        words = reply.split(" ")
        if words[0] == "commit":
            self.take_commit(block, int(words[1]), int(words[3]), len(text))
            return None, reply
        return int(words[1]) if words[0] == "refused" else 0, reply

    def take_commit(self, block, commit, rows, size):
        """Notes that a block was committed, and prints it."""
        self.blocks, self.records, self.bytes = self.blocks + 1, self.records + rows, self.bytes + size
        self.last_commit = commit
        tell(f"{block.name()}: commit {commit}")
        if rows != len(block):
            say(f"warning: the server found {rows} records there, so the numbers of records may be wrong here")
        self.say_progress()

    def say_progress(self, is_end=False):
        """Says how far the loading is: every five seconds, at the end, and at a terminal after each block."""
        now = time.monotonic()
        is_live = sys.stderr.isatty() and not sys.stdout.isatty()
        if is_end or is_live or now - self.last_said > 5:
            self.last_said = now
            text = f"{counted(self.records, 'record')}, {self.bytes:,} bytes, {now - self.began:.1f} s"
            print(f"load_csv: {text}", file=sys.stderr, end="\r" if is_live and not is_end else "\n", flush=True)

    def sum_up(self):
        """Says what is committed, and what is not."""
        self.say_progress(is_end=True)
        if self.last_commit is None:
            say("no record is committed")
        else:
            say(f"committed in {counted(self.blocks, 'block')}, the last one as commit {self.last_commit}")
        if self.in_flight:
            say(f"{self.in_flight.name()} may be committed or not: the reply did not come")


def send(given, header, width, records):
    """Loads the records into the table of a server. The status."""
    loading = Loading(given, header, width)
    try:
        for block in blocks_of(records, given):
            loading.load(block)
    except Stop:
        last = loading.refused[-1]
        say(f"stopped at {last.name()}: nothing later was sent; --from {last.first} begins there")
    except Broken as fault:
        say(str(fault))
        return NO_CONNECTION
    finally:
        loading.sum_up()
        loading.server.end()
    return REFUSED if loading.refused else ALL_WELL


def check(given, width, records):
    """Finds the records that do not fit, as far as that can be known without a server. The status."""
    finder, count, faults, seen = Finder(given, width), 0, 0, {}
    is_dimension = any(it.is_key for it in finder.columns)
    listed = [it for it in finder.columns if it.name in given.keys]
    for block in blocks_of(records, given):
        found = finder.bad(block)[0] + finder.without_keys(listed, block)
        found += finder.duplicates_after(seen, block) if is_dimension else []
        tell_faults(sorted(found)[: max(0, MOST_CHECKED - faults)], MOST_CHECKED)
        count, faults = count + len(block), faults + len(found)
    if faults > MOST_CHECKED:
        tell(f"  and {faults - MOST_CHECKED:,} more")
    hint = "" if finder.columns else "; --columns would tell their kinds"
    say(f"{counted(faults, 'fault')} in {counted(count, 'record')}{hint}")
    return REFUSED if faults else ALL_WELL


class Scripts:
    """Writes loads to one file of a folder after the other, none of which is longer than a script may be."""

    def __init__(self, given):
        self.given, self.count, self.size, self.file = given, 0, 0, None

    def write(self, text):
        """Writes a load."""
        if not self.file or self.size + len(text) > MOST_BYTES:
            self.end()
            self.count += 1
            self.file = open(Path(self.given.out, f"{self.given.table}_{self.count:04}.cjoin"), "xb")
        self.file.write(text)
        self.size += len(text)

    def end(self):
        """Ends a file."""
        if self.file:
            self.file.close()
            tell(f"{self.file.name}: {self.size:,} bytes")
        self.file, self.size = None, 0


def write_out(given, header, records):
    """Writes the records as scripts. The status."""
    Path(given.out).mkdir(parents=True, exist_ok=True)
    scripts = Scripts(given)
    try:
        for block in blocks_of(records, given):
            refuse_dot_lines(block)
            scripts.write(script_of(given.table, header, block))
    finally:
        scripts.end()
    return ALL_WELL


def header_and_records(file, given):
    """The header of a file, or none, and its records, each with its number and its line."""
    records = all_records(file)
    header = next(records, (1, b""))[1] if given.header else None
    if header is not None:
        if has_dot_line(header):
            raise FileFault("the header has a line of a single dot in quotes, which ends a block")
        header = sent_as(header if header.endswith(b"\n") else header + b"\n")
    return header, ((number, *it) for number, it in enumerate(records, 1))


def compare_names(header, columns):
    """Makes sure that a header does not name the columns in another order."""
    names, declared = [shown(it).strip().lower() for it in fields_of(header)], [it.name for it in columns]
    if names != declared and sorted(names) == sorted(declared):
        raise FileFault("the file has the columns in another order than the table, and their order alone counts")
    if names != declared:
        say(f"note: the header names {', '.join(names)}, and the columns are {', '.join(declared)}")


def use(given, file):
    """Does with a file what the words say. The status."""
    header, records = header_and_records(file, given)
    first = next(records, None)
    if first is None:
        say("the file has no records")
        return ALL_WELL
    if header is not None and given.columns:
        compare_names(header, given.columns)
    width = len(fields_of(first[2] if header is None else header))
    wanted = (it for it in itertools.chain([first], records) if it[0] >= given.first)
    if given.check:
        return check(given, width, wanted)
    if given.out:
        return write_out(given, header, wanted)
    return send(given, header, width, wanted)


# The command line.


def name_of(text):
    """The name of a table that a word is."""
    if not NAME.fullmatch(text):
        raise argparse.ArgumentTypeError(f"{text!r} is no name of a table")
    return text


def count_of(text):
    """The number above zero that a word is."""
    if not text.isdecimal() or int(text) < 1:
        raise argparse.ArgumentTypeError(f"{text!r} is no number above zero")
    return int(text)


def declared(text):
    """The columns that a word declares."""
    try:
        return columns_of(text)
    except ValueError:
        raise argparse.ArgumentTypeError("these are no columns, as in 'id int key, city text'") from None


def keys_of(text):
    """The column and the file that a word names."""
    column, sign, file_name = text.partition("=")
    if not sign or not os.path.isfile(file_name):
        raise argparse.ArgumentTypeError(f"{text!r} is not COLUMN=FILE, or there is no such file")
    return column.lower(), file_name


def words():
    """What the words of the command line say."""
    parser = argparse.ArgumentParser(description=__doc__, formatter_class=argparse.RawDescriptionHelpFormatter)
    add = parser.add_argument
    add("table", metavar="TABLE", type=name_of, help="the table")
    add("file", metavar="FILE", help="a CSV file; - is the standard input")
    add("--header", action="store_true", help="the first record names the columns")
    add("--port", type=port_of, default=5433, help="the port of 127.0.0.1 (5433)")
    add("--block-bytes", type=count_of, default=BLOCK_BYTES, metavar="N", help="the most bytes of a block (1,048,576)")
    add("--rows", type=count_of, metavar="N", help="the most records of a block (any number)")
    add("--columns", type=declared, default=[], help="the columns of the table, in the words of its declaration")
    add("--keys", type=keys_of, action="append", default=[], metavar="COLUMN=FILE", help="the keys of a dimension")
    add("--from", dest="first", type=count_of, default=1, metavar="N", help="the first record to load (1)")
    add("--go-on", action="store_true", help="go on after a refused block")
    add("--split-refused", action="store_true", help="load all records but those that are refused alone")
    add("--check", action="store_true", help="find the records that do not fit, and send nothing")
    add("--out", metavar="FOLDER", help="write scripts to a folder, and send nothing")
    given = parser.parse_args()
    given.is_file, given.keys = os.path.isfile(given.file), dict(given.keys)
    if not set(given.keys) <= {it.name for it in given.columns if it.dimension}:
        parser.error("--keys names a column that has no reference in --columns")
    return given


def main():
    """Loads the file, looks at it, or writes scripts."""
    given = words()
    try:
        with open(0 if given.file == "-" else given.file, "rb", closefd=given.file != "-") as file:
            return use(given, file)
    except FileFault as fault:
        say(str(fault))
        return REFUSED
    except Broken as fault:
        say(str(fault))
        return NO_CONNECTION
    except OSError as fault:
        say(f"{fault.filename}: {fault.strerror}")
        return FAULTY_WORDS
    except KeyboardInterrupt:
        return 130


if __name__ == "__main__":
    sys.exit(main())
