#!/usr/bin/env python3
"""Puts a server into bad company, and looks whether it stays up.

    python3 bench/stays_up.py                     all of what follows, with ./cjoin
    python3 bench/stays_up.py impatient           10,000 clients that give up, beside 64 that are idle
    python3 bench/stays_up.py threadless          no memory for the thread of a session
    python3 bench/stays_up.py closed              connections past those that --accept says
    python3 bench/stays_up.py endless             16 clients that send a line of 64 MB each
    python3 bench/stays_up.py --program FILE ..   the same of another program
    python3 bench/stays_up.py impatient --clients 300

`impatient`: 64 clients connect and stay idle. Beside them the impatient ones come, one after the other: each connects,
sends a load of one row, waits 20 ms and leaves. Then the 64 leave, and 64 new clients ask a query each. The server has
to hold at most 65 connections at any time, answer the 64 within 5 seconds, and carry out at most the loads that the
system's queue of 129 connections can hold. `threadless`: three clients are served under a limit of memory that leaves
no room for a thread. `closed`: the third connection is refused at once while the first two are open. `endless`: the
server takes at most 64 MB. What is wrong is told, and the status is 1 then. It needs Linux.
"""

import argparse
import os
import resource
import socket
import subprocess
import sys
import time
from pathlib import Path

TOP = Path(__file__).resolve().parent.parent
SESSIONS, SECONDS = 64, 5
# The queue of a listening socket of this server holds one more than the 128 that it asks for.
QUEUE = 129
TABLE = b"fact sales (units int)\n"
QUERY = b"select count(*) from sales\n"
MEGABYTE = 1_000_000


class Wrong(Exception):
    """Something is not as it should be."""


def insist(holds, what):
    """Stops where something does not hold."""
    if not holds:
        raise Wrong(what)


class Server:
    """A server of a program, at a free port, while it is entered."""

    def __init__(self, program, *words, memory=None):
        self.port = free_port()
        words = [program, "--mode", "serve", "--port", str(self.port), *words]
        limit = (lambda: resource.setrlimit(resource.RLIMIT_AS, (memory, memory))) if memory else None
        self.process = subprocess.Popen(words, stderr=subprocess.DEVNULL, preexec_fn=limit)

    def __enter__(self):
        return self

    def __exit__(self, *_):
        self.process.kill()
        self.process.wait()

    def connect(self, wait=SECONDS):
        """A connection, once the server listens, or None if there is none within so many seconds."""
        end = time.monotonic() + wait
        while True:
            try:
                left = max(0.001, end - time.monotonic())
                return socket.create_connection(("127.0.0.1", self.port), timeout=left)
            except socket.timeout:
                return None
            except OSError:
                if time.monotonic() > end:
                    return None
                time.sleep(0.01)

    def need_connection(self):
        """A connection, which has to be there within some seconds."""
        client = self.connect()
        insist(client is not None, "no connection to the server")
        return client

    def ask(self, text, lines):
        """The first lines of the replies that a new client gets to a text."""
        with self.need_connection() as client:
            client.sendall(text)
            return read_lines(client, lines)

    def connections(self):
        """How many connections the server holds: its sockets, but for the one that listens."""
        links = [read_link(it) for it in Path(f"/proc/{self.process.pid}/fd").iterdir()]
        return sum(it.startswith("socket:") for it in links) - 1

    def memory(self):
        """The most bytes of memory that the server had so far."""
        rows = Path(f"/proc/{self.process.pid}/status").read_text().splitlines()
        return next(int(row.split()[1]) for row in rows if row.startswith("VmHWM:")) * 1024

    def insist_on_it(self):
        """Stops where the server has ended."""
        insist(self.process.poll() is None, f"the server ended with status {self.process.returncode}")


def free_port():
    """A port of this machine that is free."""
    with socket.create_server(("127.0.0.1", 0)) as found:
        return found.getsockname()[1]


def read_link(path):
    """Where a link leads, or nothing if it is gone."""
    try:
        return os.readlink(path)
    except OSError:
        return ""


def read_lines(client, count):
    """So many lines that a client gets, as one text."""
    got, end = b"", time.monotonic() + SECONDS
    while got.count(b"\n") < count:
        client.settimeout(max(0.001, end - time.monotonic()))
        piece = client.recv(65536)
        insist(piece, f"the connection ended after {got!r}")
        got += piece
    return got.decode()


def come_and_go(server, clients, wait=0.02):
    """Lets impatient clients come and go, and gives the most connections that the server held."""
    most = 0
    for number in range(clients):
        client = server.connect(wait)
        if client is not None:
            client.sendall(b"load sales\n7\n.\n")
            client.settimeout(wait)
            try:
                client.recv(1)
            except OSError:
                pass
            client.close()
        if number % 50 == 0:
            server.insist_on_it()
            most = max(most, server.connections())
    return most


def answer_all(server, count):
    """Lets so many new clients ask a query each, and gives the seconds until all are answered."""
    began = time.monotonic()
    clients = [server.need_connection() for _ in range(count)]
    for client in clients:
        client.sendall(QUERY)
    for client in clients:
        read_lines(client, 2)
        client.close()
    return time.monotonic() - began


def impatient(given):
    """Clients that give up, beside idle ones."""
    with Server(given.program) as server:
        server.ask(TABLE, 1)
        idle = [server.need_connection() for _ in range(SESSIONS)]
        most = come_and_go(server, given.clients)
        for client in idle:
            client.close()
        seconds = answer_all(server, SESSIONS)
        loads = int(server.ask(QUERY, 2).splitlines()[1])
        server.insist_on_it()
    told = f"{most} connections at most, {SESSIONS} new clients answered in {seconds:.2f} s, {loads} loads carried out"
    insist(most <= SESSIONS + 1 and seconds <= SECONDS and loads <= QUEUE + SESSIONS, told)
    return told


def threadless(given):
    """Clients of a server that can make no thread."""
    with Server(given.program, "--slots", "4", memory=20 * MEGABYTE) as server:
        server.ask(TABLE, 1)
        replies = [server.ask(QUERY, 2).splitlines()[0] for _ in range(2)]
        threads = len(list(Path(f"/proc/{server.process.pid}/task").iterdir()))
    told = f"{threads} thread, and three clients served, one after the other"
    insist(threads == 1 and replies == ["answer 0 rows 1"] * 2, told)
    return told


def closed(given):
    """Connections past those that are taken."""
    with Server(given.program, "--accept", "2") as server:
        clients = [server.need_connection() for _ in range(2)]
        for client in clients:
            client.sendall(b"wait\n")
            read_lines(client, 1)
        third = socket.socket()
        refused = third.connect_ex(("127.0.0.1", server.port)) != 0
        third.close()
        for client in clients:
            client.close()
        status = server.process.wait(SECONDS)
    told = f"the third of two connections was {'refused' if refused else 'taken'}, and the server ended with {status}"
    insist(refused and status == 0, told)
    return told


def endless(given):
    """Clients that send lines without an end."""
    with Server(given.program) as server:
        clients = [server.need_connection() for _ in range(16)]
        for client in clients:
            client.settimeout(60)
            for _ in range(64):
                client.sendall(b"x" * MEGABYTE)
        clients[0].sendall(b"\n")
        reply = read_lines(clients[0], 1).strip()
        memory = server.memory()
        server.insist_on_it()
    told = f"{memory / MEGABYTE:.0f} MB for 16 lines of 64 MB, and '{reply}'"
    insist(memory <= 64 * MEGABYTE and reply.startswith("refused "), told)
    return told


TRIES = {"impatient": impatient, "threadless": threadless, "closed": closed, "endless": endless}


def main():
    """Makes the tries that are asked for, and tells what came of each."""
    parser = argparse.ArgumentParser(description=__doc__, formatter_class=argparse.RawDescriptionHelpFormatter)
    parser.add_argument("tries", nargs="*", metavar="TRY", help=f"one of {', '.join(TRIES)}; all if there is none")
    parser.add_argument("--program", default=str(TOP / "cjoin"), help="the program that serves")
    parser.add_argument("--clients", type=int, default=10_000, help="how many impatient clients come")
    given = parser.parse_args()
    status = 0
    for name in given.tries or TRIES:
        if name not in TRIES:
            parser.error(f"there is no try {name}")
        try:
            print(f"{name}: {TRIES[name](given)}", flush=True)
        except (Wrong, OSError, subprocess.TimeoutExpired) as why:
            print(f"{name}: WRONG: {why}", flush=True)
            status = 1
    return status


if __name__ == "__main__":
    sys.exit(main())
