"""A server of the program that runs for a while, and connections to it, for the scripts of `bench/`.

A reply that does not come in time, a connection that is closed before its replies came, and a server that has ended
are each a `Fault`. Python's standard library and a Linux with /proc are all that this needs.
"""

import contextlib
import os
import socket
import struct
import subprocess
import time
from collections import deque
from pathlib import Path

CHUNK = 1 << 18
PATIENCE = 60.0
TICKS = os.sysconf("SC_CLK_TCK")


class Fault(Exception):
    """A reply is wrong, or does not come."""


def insist(holds, *words):
    """Raises a fault with these words if a condition does not hold."""
    if not holds:
        raise Fault(" ".join(str(word) for word in words))


def print_table(head, *rows):
    """Prints a table of Markdown."""
    lines = [f"| {' | '.join(cells)} |" for cells in (head, *rows)]
    lines.insert(1, "|---" * len(list(head)) + "|")
    print("\n".join(lines), flush=True)


def status_of(pid, word):
    """A figure of the status of a process in MB."""
    for line in Path(f"/proc/{pid}/status").read_text().splitlines():
        if line.startswith(word + ":"):
            return int(line.split()[1]) / 1024
    return 0.0


def free_port():
    """A port of this machine at which no program listens."""
    with socket.socket() as probe:
        probe.bind(("127.0.0.1", 0))
        return probe.getsockname()[1]


class Replies:
    """Cuts the bytes of a connection into replies: the words of the first line, and the rows of an answer."""

    def __init__(self):
        self.tail, self.words, self.rows, self.left = b"", [], [], 0

    def cut(self, piece):
        """The replies that end in this piece."""
        *lines, self.tail = (self.tail + piece).split(b"\n")
        for line in lines:
            if self.left:
                self.rows.append(line)
                self.left -= 1
            else:
                self.words, self.rows = line.split(b" "), []
                self.left = int(self.words[3]) if self.words[0] == b"answer" else 0
            if not self.left:
                yield self.words, self.rows


def told(reply, word):
    """The number and the count of a reply that has to begin with this word, and its rows."""
    words, rows = reply
    insist(words[0] == word and len(words) == 4, b" ".join(words).decode(), "came in place of", word.decode())
    return int(words[1]), int(words[3]), rows


def told_rows(reply, rows):
    """The number of a reply that has to be an answer of these rows."""
    number, _, came = told(reply, b"answer")
    insist(came == rows, "the answer at", number, "is", came[:9], "in place of", rows[:9])
    return number


class Link:
    """A connection, and the replies that came over it.

    A quick one acknowledges each piece at once. Otherwise the system takes 40 ms if a server writes two replies, one
    after the other, to one piece.
    """

    def __init__(self, server, *options, quick=False):
        self.socket, self.quick = socket.socket(), quick
        self.replies, self.ready = Replies(), deque()
        for option in ((socket.IPPROTO_TCP, socket.TCP_NODELAY, 1), *options):
            self.socket.setsockopt(*option)
        self.socket.settimeout(server.patience)
        self.socket.connect(("127.0.0.1", server.port))

    def fileno(self):
        """The number of the socket, for selectors."""
        return self.socket.fileno()

    def send(self, text):
        """Sends some text."""
        self.socket.sendall(text.encode())

    def receive(self):
        """Takes what came, and returns whether more may come."""
        if self.quick:
            self.socket.setsockopt(socket.IPPROTO_TCP, socket.TCP_QUICKACK, 1)
        try:
            piece = self.socket.recv(CHUNK)
        except socket.timeout:
            raise Fault(f"nothing came for {self.socket.gettimeout():.0f} s") from None
        self.ready.extend(self.replies.cut(piece))
        return bool(piece)

    def reply(self):
        """The next reply."""
        while not self.ready:
            insist(self.receive(), "a connection was closed before its replies came")
        return self.ready.popleft()

    def ask(self, text):
        """Sends one statement, and returns its reply."""
        self.send(text)
        return self.reply()

    def end(self):
        """Ends the sending side."""
        self.socket.shutdown(socket.SHUT_WR)

    def rest(self):
        """Ends the sending side, and returns all replies that are left."""
        self.end()
        while self.receive():
            pass
        insist(not self.replies.tail and not self.replies.left, "a connection was closed within a reply")
        return list(self.ready)

    def close(self):
        """Closes the connection."""
        self.socket.close()

    def reset(self):
        """Breaks the connection off, so that neither side gets anything more."""
        self.socket.setsockopt(socket.SOL_SOCKET, socket.SO_LINGER, struct.pack("ii", 1, 0))
        self.socket.close()


class Server:
    """A server that runs, its port, and how many seconds a reply may take."""

    def __init__(self, process, port, patience):
        self.process, self.port, self.patience = process, port, patience

    def await_door(self):
        """Waits until the server listens."""
        for _ in range(100):
            try:
                return Link(self).close()
            except ConnectionRefusedError:
                time.sleep(0.1)
        raise Fault("the server does not listen")

    def play(self, script):
        """The replies to a script, by a connection of its own."""
        link = Link(self, quick=True)
        link.send(script)
        replies = link.rest()
        link.close()
        return replies

    def begin(self, script, count):
        """Plays the declarations and loads of the beginning, which are so many. None is refused."""
        words = [words[0] for words, _ in self.play(script)]
        insist(len(words) == count and set(words) == {b"table", b"commit"}, "the tables were not loaded:", words)

    def memory(self):
        """The resident memory in MB."""
        return status_of(self.process.pid, "VmRSS")

    def used(self):
        """The seconds of processor time."""
        fields = Path(f"/proc/{self.process.pid}/stat").read_text().rsplit(")", 1)[1].split()
        return (int(fields[11]) + int(fields[12])) / TICKS

    def settle(self):
        """Waits until the server has next to nothing to do."""
        limit, before = time.monotonic() + self.patience, -1.0
        while (used := self.used()) > before + 0.03:
            insist(time.monotonic() < limit, "the server does not come to rest")
            before = used
            time.sleep(0.3)


@contextlib.contextmanager
def serving(program, *words, patience=PATIENCE):
    """A server of the program at a port of its own. It is killed at the end."""
    quiet = {"stdout": subprocess.DEVNULL, "stderr": subprocess.DEVNULL}
    # The first run of ./cjoin builds the program.
    subprocess.run([program], stdin=subprocess.DEVNULL, check=True, **quiet)
    port = free_port()
    process = subprocess.Popen([program, "--mode", "serve", "--port", str(port), *words], **quiet)
    try:
        server = Server(process, port, patience)
        server.await_door()
        yield server
        insist(process.poll() is None, "the server ended with", process.returncode)
    except (Fault, OSError) as fault:
        with contextlib.suppress(subprocess.TimeoutExpired):
            raise Fault(f"{fault}; the server ended with {process.wait(0.5)}") from fault
        raise
    finally:
        process.kill()
        process.wait()
