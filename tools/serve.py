#!/usr/bin/env python3
"""Takes games from other machines by TCP, and answers them over a child `pbook collect --journal`.

A worker connects, sends a submission and reads its answer, as often as it likes. Each that waits
has a line answered in turn. One whose connection breaks sends its line again: a line that a
connection ends in may be cut, and is dropped. So is a worker that sends 1,000,000 bytes without LF,
or no line for --idle seconds (3,600 where none are given). There is no password. So this listens on
127.0.0.1 by default, where workers come by `ssh -N -L 7464:127.0.0.1:7464 collector`. A browser is
dropped, as pages of strangers may have it send games.

Ctrl-C and SIGTERM end this, and the book is made. Where that takes more than five minutes, `pbook`
is left to itself, and the status is 1. This also ends where `pbook` does, with its status, or 128
and the signal's number. Then it may be started again on the journal. Options are those of `pbook
collect`, such as --sync. PBOOK names another program than `pbook`.

Usage: serve.py [--at HOST:PORT] [--idle SECONDS] [--] TABLE BOOK JOURNAL [OPTION..]
"""

import argparse
import contextlib
import os
import re
import selectors
import signal
import socket
import sys
import threading
import time

from client import Collector, Ended

# The bytes of pbook's longest line, and of what a worker may send without LF.
LINE, ENDLESS = 8192, 1_000_000
# How a browser begins, by HTTP or TLS. In a submission a TAB comes before the first space.
BROWSER = re.compile(rb" *\S+ ( */|\S+://|.* HTTP/)|\x16\x03", re.IGNORECASE)
# What ends it, and the seconds that the end may take.
SIGNALS, PATIENCE = {signal.SIGINT, signal.SIGTERM}, 300


class Worker:
    """A connection, the front of its next line, and what it has yet to take of an answer."""

    def __init__(self, connection):
        connection.setblocking(False)
        # That of a machine that is gone ends hours later.
        connection.setsockopt(socket.SOL_SOCKET, socket.SO_KEEPALIVE, 1)
        self.connection, self.front, self.size, self.answer = connection, b"", 0, b""
        self.last = time.monotonic()

    def take(self, collector):
        """Submits a line that has come whole. Of one beyond pbook's limit the front is refused as
        such. What comes behind its LF stays with the system."""
        came = self.connection.recv(LINE, socket.MSG_PEEK)
        came = self.connection.recv(came.find(b"\n") + 1 or len(came))
        self.front, self.size = (self.front + came)[: LINE + 1], self.size + len(came)
        if came.endswith(b"\n"):
            line = self.front.partition(b"\n")[0]
            if BROWSER.match(line):
                raise ConnectionError
            answer = collector.submit(line.decode("utf-8", "surrogateescape"))
            self.front, self.size, self.answer = b"", 0, " ".join(answer).encode() + b"\n"
            self.last = time.monotonic()
        elif not came or self.size >= ENDLESS:
            raise ConnectionError

    def turn(self, collector):
        """Takes a line once the last answer is gone, sends its own, and tells what to wait for."""
        with contextlib.suppress(BlockingIOError):
            if not self.answer:
                self.take(collector)
            self.answer = self.answer[self.connection.send(self.answer) :]
        return selectors.EVENT_WRITE if self.answer else selectors.EVENT_READ


def admit(door, ready):
    """Lets all in who wait at the door."""
    with contextlib.suppress(BlockingIOError):
        while True:
            worker = Worker(door.accept()[0])
            ready.register(worker.connection, selectors.EVENT_READ, worker)


def serve(door, collector, idle, ending):
    """Answers those who come by this door, in turn, until it is ending or the collector ends."""
    door.setblocking(False)
    with selectors.DefaultSelector() as ready:
        look = 0
        while collector.child.poll() is None and not ending.is_set():
            now = time.monotonic()
            if now >= look:
                look = now + 1
                for key in list(ready.get_map().values()):
                    if key.data and key.data.last + idle < now:
                        ready.unregister(key.fileobj)
                        key.fileobj.close()
                if door not in ready.get_map():
                    ready.register(door, selectors.EVENT_READ)
            for key, _ in ready.select(0.2):
                try:
                    if key.data:
                        ready.modify(key.fileobj, key.data.turn(collector), key.data)
                    else:
                        admit(door, ready)
                except OSError:
                    # A door where none can come in is left alone for a second.
                    ready.unregister(key.fileobj)
                    if key.data:
                        key.fileobj.close()


def watch(ending):
    """Tells of a signal, and ends all where the collector doesn't let that happen."""
    signal.sigwait(SIGNALS)
    ending.set()
    time.sleep(PATIENCE)
    try:
        sys.stderr.write("serve.py: pbook is left to itself; the journal has what was answered\n")
    finally:
        os._exit(1)


def main():
    parser = argparse.ArgumentParser()
    parser.add_argument("--at", metavar="HOST:PORT", default="127.0.0.1:7464")
    parser.add_argument("--idle", metavar="SECONDS", type=float, default=3600)
    for word in ("table", "book", "journal"):
        parser.add_argument(word)
    parser.add_argument("options", nargs=argparse.REMAINDER)
    at, idle, *names, options = vars(parser.parse_args()).values()
    # The child has them blocked too: it ends by the end of its input alone.
    signal.pthread_sigmask(signal.SIG_BLOCK, SIGNALS)
    ending = threading.Event()
    threading.Thread(target=watch, args=[ending], daemon=True).start()
    try:
        host, _, port = at.rpartition(":")
        name = host.strip("[]")
        if not name:
            # It would be every address of this machine.
            raise ValueError("--at wants HOST:PORT")
        family = socket.AF_INET6 if ":" in name else socket.AF_INET
        with socket.create_server((name, int(port)), family=family, backlog=128) as door:
            with Collector(*names, *options, program=os.environ.get("PBOOK", "pbook")) as collector:
                # At once, as the collector may write there too.
                sys.stderr.write(f"serve.py: at {host}:{door.getsockname()[1]}\n")
                serve(door, collector, idle, ending)
    except Ended as ended:
        sys.exit(ended.status if ended.status >= 0 else 128 - ended.status)
    except (OSError, OverflowError, ValueError) as error:
        sys.exit(f"serve.py: {at}: {error}")


if __name__ == "__main__":
    main()
