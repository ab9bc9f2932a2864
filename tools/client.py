#!/usr/bin/env python3
"""Keeps `pbook collect --journal` as a child, and gets an answer to each game.

    with Collector("table.txt", "book.bin", "games.journal") as collector:
        answer = collector.submit(line)

`games.journal` is an empty file before the first run. The book is made when the block ends.

A game that was answered `ok` is on the journal. So when the child ends by itself, `submit` raises
`Ended`, and nothing that was answered is lost. This module starts no child again. A caller looks
at `Ended.status`:

- Below 0 it is the signal that killed the child, with the sign changed. Make a new Collector on
  the same journal, and submit each line anew that has no answer.
- Else standard error has said what is wrong: a full disk, a journal that another run holds, a
  table that can't be read. Mend that first. Then do the same.

A game that comes again gets its old number, and counts once. So a line may be sent again whenever
it isn't known whether it was answered.

Usage: client.py TABLE BOOK JOURNAL FILE..
submits the lines of these files, and prints the answers. PBOOK names another program than `pbook`.
"""

import os
import subprocess
import sys
import threading


# How a line goes on that refuses a file. No game has such an answer, whatever its id is.
REFUSED_FILE = (["table", "long"], ["table", "line"], ["table", "count"], ["journal", "line"])


class Ended(Exception):
    """The child has ended before it answered, with this status."""

    def __init__(self, status):
        super().__init__(f"pbook ended with status {status}")
        self.status = status


class Collector:
    """A running `pbook collect`. Threads may share it: lines are submitted one at a time."""

    def __init__(self, table, book, journal, *options, program="pbook"):
        """Starts it. Options are those of `pbook collect`, such as "--sync"."""
        words = [program, "collect", f"--journal={journal}", *options, "--", table, book]
        self.child = subprocess.Popen(words, stdin=subprocess.PIPE, stdout=subprocess.PIPE)
        self.lock = threading.Lock()

    def submit(self, line):
        """The words of the answer to a line without its end: `ok`, the id and the number, or
        `refused`, the id and the reason. Raises `Ended` where none comes."""
        if "\n" in line:
            raise ValueError("a submission is one line")
        with self.lock:
            try:
                self.child.stdin.write(line.encode("utf-8", "surrogateescape") + b"\n")
                self.child.stdin.flush()
            except BrokenPipeError:
                pass  # What the child has put before it ended is read all the same.
            answer = self.child.stdout.readline().decode().split()
        if answer[:1] not in (["ok"], ["refused"]) or answer[1:3] in REFUSED_FILE:
            raise Ended(self.child.wait())
        return answer

    def close(self):
        """Ends the lines, and waits until the book is made. Raises `Ended` where it isn't."""
        try:
            self.child.stdin.close()
        except BrokenPipeError:
            pass
        self.child.stdout.read()
        status = self.child.wait()
        if status != 0:
            raise Ended(status)

    def __enter__(self):
        return self

    def __exit__(self, kind, *_):
        try:
            self.close()
        except Ended:
            # What was raised in the block has the cause already.
            if kind is None:
                raise


def open_lines(name):
    """Opens a file of submissions, of whatever bytes. Its lines end at LF alone."""
    return open(name, encoding="utf-8", errors="surrogateescape", newline="\n")


def main():
    if len(sys.argv) < 5:
        sys.exit("usage: client.py TABLE BOOK JOURNAL FILE..")
    table, book, journal, *names = sys.argv[1:]
    try:
        # Before the child starts, which would make a book without the games of a missing file.
        files = [open_lines(name) for name in names]
        with Collector(table, book, journal, program=os.environ.get("PBOOK", "pbook")) as collector:
            for lines in files:
                for line in lines:
                    if line.endswith("\n"):
                        print(*collector.submit(line[:-1]), flush=True)
                    else:  # It may be a cut game, whose id would be taken for ever.
                        text = f"client.py: {lines.name}: its last line has no end; it is left out"
                        print(text, file=sys.stderr)
    except Ended as ended:
        # A signal as the shell tells it.
        sys.exit(ended.status if ended.status >= 0 else 128 - ended.status)
    except OSError as error:
        sys.exit(f"client.py: {error}")


if __name__ == "__main__":
    main()
