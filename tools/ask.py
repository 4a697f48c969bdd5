#!/usr/bin/env python3
"""Sends scripts to a server of this machine, and prints the replies as they come.

    tools/ask.py examples/stores.cjoin      sends a script and prints its replies
    tools/ask.py A.cjoin B.cjoin            sends two scripts, one after the other, over a connection each
    echo 'select count(*) from sales' | tools/ask.py
    tools/ask.py                            at a terminal: asks for statements, and prints each reply
    tools/ask.py --port 7000                talks to a server at another port
    tools/ask.py --retry 60 A.cjoin         tries for 60 seconds to connect, until the server listens

At a terminal a statement is a line. A line that begins with `load` is sent once its dot line has been typed. Ctrl-C
drops what was typed, and Ctrl-D or `\\q` ends. The arrow keys bring back earlier lines, which are kept in the file
.cjoin_history of the home folder.

The status is 0 if no reply is a refusal or `memory`, 1 if one is, 2 if the words or files are at fault, and 3 if there
was no connection or it broke before every statement had its reply. Python's standard library is all that this needs.
"""

import argparse
import contextlib
import os
import re
import select
import socket
import struct
import sys
import time
from pathlib import Path

ALL_WELL, REFUSED, FAULTY_WORDS, NO_CONNECTION = 0, 1, 2, 3
# The status that a shell gives to a program whose reader has left.
NO_READER = 141
# What a connection may send, and so the most that a script may have.
MOST_BYTES = 67_108_864
CHUNK = 65_536
# What is kept of a line that is long: enough to know its first word, and whether it is a dot line.
HEAD = 4_096
REPLY = re.compile(
    rb"table [a-z_][a-z0-9_]*|commit \d+ rows \d+|answer \d+ rows (\d+)|overflow \d+|waited|memory|refused \d+ [ -~]+"
)
FIRST_WORD = re.compile(rb"[A-Za-z0-9_]*")
HISTORY = Path.home() / ".cjoin_history"


class Broken(Exception):
    """There is no connection, or it broke."""


class NoReader(Exception):
    """Nobody reads the standard output any more."""


def say(text):
    """Says something on the standard error."""
    print(f"ask: {text}", file=sys.stderr, flush=True)


class Replies:
    """Cuts what a server sends into replies."""

    def __init__(self):
        self.tail, self.reply, self.left = b"", [], 0
        self.count, self.refused = 0, 0

    def cut(self, piece):
        """Gives the replies that end in this piece, each as the list of its lines."""
        *lines, self.tail = (self.tail + piece).split(b"\n")
        for line in lines:
            self.reply.append(line)
            if self.left:
                self.left -= 1
            else:
                self.left = self.rows_after(line)
            if not self.left:
                self.count += 1
                reply, self.reply = self.reply, []
                yield reply

    def rows_after(self, line):
        """Gives the number of rows that follow the first line of a reply, and counts the refusals."""
        found = REPLY.fullmatch(line)
        if not found:
            raise Broken(f"what came is no reply of a CJOIN server: {line[:80]!r}")
        self.refused += line == b"memory" or line.startswith(b"refused")
        return int(found[1] or 0)

    def is_within(self):
        """Whether a reply has begun and is not whole."""
        return bool(self.tail or self.reply)


class Statements:
    """Counts the statements of a script that comes in pieces."""

    def __init__(self):
        self.head, self.in_block, self.count = b"", False, 0

    def feed(self, piece):
        """Takes the next piece of the script."""
        *lines, tail = (self.head + piece).split(b"\n")
        for line in lines:
            self.take(line)
        # Blanks before the first word do not matter, and in a block they do.
        self.head = (tail if self.in_block else tail.lstrip(b" \t"))[:HEAD]

    def take(self, line):
        """Takes a line without its line feed."""
        line = line[:-1] if line.endswith(b"\r") else line
        if self.in_block:
            self.in_block = line != b"."
        elif not is_passed_over(line):
            self.count += 1
            self.in_block = begins_load(line)

    def finish(self):
        """Takes the last line, if it has no line feed."""
        if self.head:
            self.take(self.head)


def is_passed_over(line):
    """Whether a line is blank or a comment, and so has no reply."""
    rest = line.lstrip(b" \t")
    return not rest or rest.startswith(b"--")


def begins_load(line):
    """Whether the lines after this one are a block."""
    return FIRST_WORD.match(line.lstrip(b" \t"))[0].lower() == b"load"


def connect(port, seconds=0.0):
    """Connects to the server, for which it may wait so many seconds."""
    until = time.monotonic() + seconds
    while True:
        try:
            return socket.create_connection(("127.0.0.1", port))
        except OSError as fault:
            left = until - time.monotonic()
            if left <= 0:
                raise Broken(f"no server listens at 127.0.0.1:{port} ({fault.strerror or fault})") from None
            time.sleep(min(0.2, left))


@contextlib.contextmanager
def connection(port, seconds):
    """A connection to the server. If it is left early it is reset, so that no cut line is taken for a statement."""
    link = connect(port, seconds)
    try:
        yield link
    except BaseException:
        link.setsockopt(socket.SOL_SOCKET, socket.SO_LINGER, struct.pack("ii", 1, 0))
        raise
    finally:
        link.close()


def receive(link):
    """Gives what came over a connection, and nothing if it has ended."""
    try:
        return link.recv(CHUNK)
    except OSError as fault:
        raise Broken(f"the connection broke ({fault.strerror or fault})") from None


def show(piece):
    """Prints what came, verbatim."""
    try:
        sys.stdout.buffer.write(piece)
        sys.stdout.buffer.flush()
    except BrokenPipeError:
        # Else Python complains again at its end.
        os.dup2(os.open(os.devnull, os.O_WRONLY), sys.stdout.fileno())
        raise NoReader() from None


class Exchange:
    """A script that is sent while its replies come."""

    def __init__(self, link, script):
        self.link, self.script = link, script
        self.statements, self.replies = Statements(), Replies()
        # How many bytes of the script were read, and which of these are not sent. None is left once all were sent.
        self.size, self.unsent = 0, b""

    def run(self):
        """Sends all and prints all replies. Whether one was a refusal or `memory`."""
        self.link.setblocking(False)
        while True:
            wants_script = self.unsent == b""
            readers = [self.link, self.script] if wants_script else [self.link]
            ready, writable, _ = select.select(readers, [self.link] if self.unsent else [], [])
            if self.link in ready and not self.take_replies():
                break
            if wants_script and self.script in ready:
                self.read_script()
            if writable:
                self.send()
        self.judge_end()
        return self.replies.refused > 0

    def read_script(self):
        """Reads the next piece of the script. After the last one the connection is told so."""
        self.unsent = os.read(self.script, CHUNK)
        self.size += len(self.unsent)
        if self.unsent:
            self.statements.feed(self.unsent)
            return
        self.statements.finish()
        self.unsent = None
        try:
            self.link.shutdown(socket.SHUT_WR)
        except OSError as fault:
            raise Broken(self.how_far(f"the connection broke ({fault.strerror})")) from None

    def send(self):
        """Sends as much as the connection takes."""
        try:
            self.unsent = self.unsent[self.link.send(self.unsent) :]
        except BlockingIOError:
            return
        except OSError as fault:
            self.take_what_came()
            raise Broken(self.how_far(f"the connection broke ({fault.strerror})")) from None

    def take_replies(self):
        """Prints what came. Whether more may come."""
        try:
            piece = self.link.recv(CHUNK)
        except BlockingIOError:
            return True
        except OSError as fault:
            raise Broken(self.how_far(f"the connection broke ({fault.strerror})")) from None
        show(piece)
        for _ in self.replies.cut(piece):
            pass
        return bool(piece)

    def take_what_came(self):
        """Prints the replies that came before the connection broke."""
        try:
            while self.take_replies():
                pass
        except Broken:
            pass

    def judge_end(self):
        """Finds out whether the connection ended after the last reply."""
        replies, statements = self.replies.count, self.statements.count
        if self.unsent is not None or self.replies.is_within() or replies != statements:
            raise Broken(self.how_far("the server ended the connection"))

    def how_far(self, why):
        """Says how far this came."""
        so_far = "" if self.unsent is None else " so far"
        hint = f"; a connection may send {MOST_BYTES:,} bytes" if self.size > MOST_BYTES else ""
        return f"{why} after {self.replies.count} replies to {self.statements.count} statements{so_far}{hint}"


def send_scripts(port, seconds, files):
    """Sends each of some open files over a connection of its own. The status."""
    status = ALL_WELL
    for place, file in enumerate(files):
        with connection(port, 0 if place else seconds) as link:
            if Exchange(link, file.fileno()).run():
                status = REFUSED
    return status


def use_history():
    """Keeps the lines that are typed, if this Python can."""
    try:
        import readline
        import atexit
    except ImportError:
        return
    try:
        readline.read_history_file(HISTORY)
    except OSError:
        pass
    readline.set_history_length(1_000)
    atexit.register(write_history, readline)


def write_history(readline):
    """Writes the history, if the file can be written."""
    try:
        readline.write_history_file(HISTORY)
    except OSError:
        pass


def typed(prompt):
    """Reads a line from the terminal as bytes."""
    return input(prompt).encode("utf-8", "surrogateescape")


def typed_statement():
    """Reads the next statement from the terminal, with its line feeds. It is None at the end."""
    while True:
        try:
            line = typed("cjoin> ")
            if line.strip() == b"\\q":
                return None
            if is_passed_over(line):
                continue
            lines = [line]
            while begins_load(line) and (len(lines) == 1 or lines[-1] != b"."):
                lines.append(typed("  load> "))
            return b"".join(it + b"\n" for it in lines)
        except EOFError:
            print(file=sys.stderr)
            return None
        except KeyboardInterrupt:
            print(file=sys.stderr)


def talk(port, seconds):
    """Sends what is typed, statement by statement. The status."""
    use_history()
    replies = Replies()
    with connection(port, seconds) as link:
        say(f"connected to 127.0.0.1:{port}; one statement a line, and Ctrl-D to end")
        while True:
            statement = typed_statement()
            if statement is None:
                return REFUSED if replies.refused else ALL_WELL
            try:
                link.sendall(statement)
            except OSError as fault:
                raise Broken(f"the connection broke ({fault.strerror})") from None
            await_reply(link, replies)


def await_reply(link, replies):
    """Prints the reply to one statement."""
    before = replies.count
    while replies.count == before:
        piece = receive(link)
        if not piece:
            raise Broken("the server ended the connection before the reply came")
        show(piece)
        for _ in replies.cut(piece):
            pass


def port_of(text):
    """The port that a word names."""
    if not text.isdecimal() or not 1 <= int(text) <= 65_535:
        raise argparse.ArgumentTypeError(f"{text!r} is no port from 1 to 65535")
    return int(text)


def words():
    """What the words of the command line say, with each file open."""
    parser = argparse.ArgumentParser(description=__doc__, formatter_class=argparse.RawDescriptionHelpFormatter)
    parser.add_argument("files", nargs="*", metavar="FILE", help="a script; - is the standard input")
    parser.add_argument("--port", type=port_of, default=5433, help="the port of 127.0.0.1 (5433)")
    parser.add_argument("--retry", type=float, default=0, metavar="SECONDS", help="how long to try to connect (0)")
    given = parser.parse_args()
    try:
        given.files = [sys.stdin.buffer if it == "-" else open(it, "rb", buffering=0) for it in given.files]
    except OSError as fault:
        parser.error(f"{fault.filename}: {fault.strerror}")
    return given


def main():
    """Sends the scripts, or what is typed."""
    given = words()
    try:
        if not given.files and sys.stdin.isatty():
            return talk(given.port, given.retry)
        return send_scripts(given.port, given.retry, given.files or [sys.stdin.buffer])
    except Broken as fault:
        say(str(fault))
        return NO_CONNECTION
    except NoReader:
        return NO_READER
    except KeyboardInterrupt:
        return 130


if __name__ == "__main__":
    sys.exit(main())
