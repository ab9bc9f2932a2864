#!/usr/bin/env python3
"""Kills processes of nights by tools/nightly, and looks at what is left. tests/examples.sh
calls it.

Usage: night_kills.py PUT TABLE GAMES, in an empty folder; PUT is where `make install` put pbook.
KILLS is how many nights are killed, SEED draws other ones.

What comes of a night is reckoned here, without pbook. A night ends with status 0 and all of its
answers, or else with the old answers. Ledger and book are old or new. The next night is a good one.
"""

import contextlib
import os
import pathlib
import random
import shutil
import signal
import subprocess
import sys
import time

PUT, TABLE, GAMES = (pathlib.Path(it).resolve() for it in sys.argv[1:])
KILLS, SEED = int(os.environ.get("KILLS") or 250), int(os.environ.get("SEED") or 1)
dice = random.Random(SEED)
folder = pathlib.Path("night")
fate = pathlib.Path("fate").resolve()
# What a night calls, besides pbook. Some of it is called more than once.
CALLS = ("wc", "tail", "head", "rm", "mv", "flock")
# What may be killed once the answers are in place.
LAST = ("mv", "nightly", "the group")
# Stands in the place of such a program, and kills itself at the call that `fate` counts down to.
KILLED = """#!/bin/sh
[ "${0##*/}" = "$VICTIM" ] || exec REAL "$@"
left=$(cat "$FATE")
echo $((left - 1)) > "$FATE"
[ "$left" -eq 0 ] || exec REAL "$@"
case $HOW in
    midway) REAL "$@" | HEAD -c 9 ;;
    after) REAL "$@" ;;
esac
kill -9 $$
"""


def games():
    """Legal games of the bundled ones, without their ids: their first plies, which are played
    fast."""
    lines = pathlib.Path(GAMES).read_bytes().split(b"\n")[121:221]
    return [b" ".join(it.partition(b"\t")[2].split(b" ")[:8]) for it in lines]


def read(name):
    path = folder / name
    return path.read_bytes() if path.exists() else None


def own_place():
    """A copy of what is installed, with programs that can be killed beside pbook."""
    place = pathlib.Path("put")
    shutil.copytree(PUT, place)
    for name in CALLS:
        text = KILLED.replace("REAL", shutil.which(name)).replace("HEAD", shutil.which("head"))
        (place / "bin" / name).write_text(text)
        (place / "bin" / name).chmod(0o755)
    return (place / "share/pbook/nightly").resolve()


def collectors(process):
    """The processes of pbook below this one."""
    with contextlib.suppress(OSError):
        path = pathlib.Path(f"/proc/{process}/task/{process}/children")
        found = [int(it) for it in path.read_text().split()]
        return [it for it in found if pathlib.Path(f"/proc/{it}/comm").read_text() == "pbook\n"]
    return []


def night(nightly, victim):
    """Runs a night, kills this process of it, and tells whether it did, and the status."""
    fate.write_text(str(dice.choice((0, 0, 1))))
    how = {"VICTIM": victim, "FATE": str(fate), "HOW": dice.choice(("before", "midway", "after"))}
    process = subprocess.Popen([nightly, folder], stdin=subprocess.DEVNULL, start_new_session=True,
                               stdout=subprocess.PIPE, stderr=subprocess.STDOUT,
                               env={**os.environ, **how})
    killed = False
    if victim in ("pbook", "nightly", "the group"):
        time.sleep(dice.choice((0, 0.05, 0.1, 0.2)) * dice.random())
        if dice.random() < 0.7:
            while process.poll() is None and not collectors(process.pid):
                pass
            time.sleep(dice.choice((0, 0.02, 0.2)) * dice.random())
        with contextlib.suppress(ProcessLookupError, IndexError):
            if victim == "the group":
                os.killpg(process.pid, signal.SIGKILL)
            else:
                found = collectors(process.pid) if victim == "pbook" else [process.pid]
                os.kill(found[0], signal.SIGKILL)
            killed = True
    said = process.stdout.read()  # All that have it open have ended then.
    return killed or victim in CALLS and int(fate.read_text()) < 0, process.wait(), said


def main():
    folder.mkdir()
    (folder / "table.txt").write_bytes(pathlib.Path(TABLE).read_bytes())
    (folder / "games.ledger").write_bytes(b"")
    nightly, texts, held, count, late, turn = own_place(), games(), [], {}, 0, 0
    while sum(count.values()) < KILLS:
        turn += 1
        count_of = dice.randrange(1, 6)
        fresh = [b"n%d-%d\t" % (turn, at) + dice.choice(texts) for at in range(count_of)]
        tonight = b"".join(it + b"\n" for it in fresh + held[-2:])
        cut = b"n%d-cut\t" % turn + dice.choice(texts)[:-5]
        (folder / "tonight.txt").write_bytes(tonight + dice.choice((b"", cut)))
        before = {name: read(name) for name in ("games.ledger", "book.bin", "replies")}
        # What the night gives, each game under its number.
        held += fresh
        numbers = {line: number for number, line in enumerate(held, 1)}
        answers = b"".join(b"ok %s %d\n" % (line.split(b"\t")[0], numbers[line])
                           for line in tonight.split(b"\n")[:-1])
        ledger = b"".join(it + b"\n" for it in [b"pbook-ledger 1"] + held)
        victim = dice.choice((*CALLS, "pbook", "pbook", "nightly", "the group"))
        killed, status, said = night(nightly, victim)
        assert killed or status == 0, (turn, victim, status, said)
        count[victim] = count.get(victim, 0) + killed
        late += killed and status == 0
        due = [answers] if status == 0 else [before["replies"]]
        due += [answers] if victim in LAST else []
        assert read("replies") in due, ("replies", turn, victim, status, said)
        assert read("games.ledger") in (before["games.ledger"], ledger), ("ledger", turn, victim)
        book = read("book.bin")
        (folder / "tonight.txt").write_bytes(tonight)
        _, status, said = night(nightly, "")
        assert (status, said) == (0, b""), (turn, victim, status, said)
        assert read("replies") == answers, ("replies of the next night", turn, victim)
        assert read("games.ledger") == ledger, ("ledger of the next night", turn, victim)
        assert book in (before["book.bin"], read("book.bin")), ("book", turn, victim)
        left = {it.name for it in folder.iterdir()} - {".nightly.lock"}
        due = {"table.txt", "games.ledger", "tonight.txt", "replies", "book.bin"}
        assert left == due, (left, turn, victim)
    print(f"{sum(count.values())} killed, {late} of them too late: {count}")


main()
