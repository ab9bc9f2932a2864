"""Has runs write to real file systems, on disks that lose what wasn't flushed: tests/losing_disk.c
is the disk under a loop device."""
from __future__ import annotations

import argparse
import concurrent.futures
import contextlib
import os
import pathlib
import random
import re
import shutil
import struct
import subprocess
import tempfile
import time
from collections.abc import Iterator, Sequence
from dataclasses import dataclass

from lib.crash_model import State, Write
from lib.crash_scenarios import (BOOK, JOURNAL, ROOM, SYNCED, Progress, Promise, Run, Scenario,
                                 book_of, command, complaint, examples, files, got, id_of, put,
                                 scenarios)

# How large a disk of each file system is, and what makes it.
MAKERS = {"ext4": (8 << 20, ("mkfs.ext4", "-q", "-F")),
          "xfs": (300 << 20, ("mkfs.xfs", "-q", "-f"))}
HEAD = struct.Struct("=QQQ")


def run(*words: str | pathlib.Path) -> str:
    done = subprocess.run(words, capture_output=True, text=True, check=False)
    if done.returncode:
        raise ValueError(f"{words[0]} fails: {done.stderr.strip()}")
    return done.stdout.strip()


def wanting() -> str:
    """What is wanted here for such disks, and isn't to be had."""
    if os.geteuid() != 0:
        return "root is wanted"
    makers = (words[0] for _, words in MAKERS.values())
    tools = ("cc", "pkg-config", "fusermount3", "losetup", *makers)
    if missing := [tool for tool in tools if not shutil.which(tool)]:
        return f"{', '.join(missing)} is wanted"
    try:
        run("pkg-config", "--exists", "fuse3")
        run("losetup", "-f")
    except ValueError as unlike_it:
        return f"fuse3 and a loop device are wanted ({unlike_it})"
    return "" if os.path.exists("/dev/fuse") else "/dev/fuse is wanted"


def build(room: str) -> str:
    """Builds the server of such disks."""
    server = os.path.join(room, "losing_disk")
    flags = run("pkg-config", "--cflags", "--libs", "fuse3").split()
    run("cc", "-std=c11", "-O1", "-Wall", "-Wextra", "tests/losing_disk.c", "-o", server, *flags)
    return server


@dataclass(frozen=True)
class Disk:
    """A disk in a folder of its own, mounted at `files`."""
    kind: str
    room: pathlib.Path

    @property
    def files(self) -> pathlib.Path:
        return self.room / "files"

    def tell(self, text: bytes) -> None:
        """Notes a text between the writes, or has the disk refuse one, as losing_disk.c says."""
        with open(self.room / "served/control", "wb", buffering=0) as control:
            control.write(text)

    def records(self) -> list[tuple[str, Write]]:
        """What was done so far."""
        told, at, found = (self.room / "log").read_bytes(), 0, []
        while at < len(told):
            letter, place, size = HEAD.unpack_from(told, at)
            at += HEAD.size + size
            found.append((chr(letter), Write(place, told[at - size:at])))
        return found


@contextlib.contextmanager
def mounted(kind: str, server: str) -> Iterator[Disk]:
    """A new disk with a file system of this kind."""
    size, make = MAKERS[kind]
    with tempfile.TemporaryDirectory(dir=ROOM) as room, contextlib.ExitStack() as undo:
        disk = Disk(kind, pathlib.Path(room))
        for folder in ("served", "files", "found"):
            (disk.room / folder).mkdir()
        (disk.room / "image").touch()
        os.truncate(disk.room / "image", size)
        run(*make, disk.room / "image")
        run("cp", "--sparse=always", disk.room / "image", disk.room / "kept")
        serves = [server, disk.room / "image", disk.room / "log", disk.room / "served"]
        undo.callback(subprocess.Popen(serves).wait)
        while not (disk.room / "served/disk").exists():
            time.sleep(0.01)
        undo.callback(run, "umount", disk.room / "served")
        loop = run("losetup", "-f", "--show", disk.room / "served/disk")
        undo.callback(run, "losetup", "-d", loop)
        run("mount", "-t", kind, loop, disk.files)
        undo.callback(run, "umount", disk.files)
        yield disk


def written_to(disk: Disk, scenario: Scenario) -> None:
    """Has the runs of a scenario write to the disk, which is told their replies and ends."""
    place = disk.files / "place"
    put(scenario.files, str(place))
    run("sync", "-f", disk.files)
    for one in scenario.runs:
        disk.tell(b"begin")
        if one.failing:
            disk.tell(b"!" + one.failing.encode())
        with subprocess.Popen(command(one.options), cwd=place, stdin=subprocess.PIPE,
                              stdout=subprocess.PIPE, stderr=subprocess.DEVNULL) as process:
            for line in one.lines:
                process.stdin.write(line)
                process.stdin.flush()
                if reply := process.stdout.readline():
                    disk.tell(reply)
            process.communicate()
        if process.returncode != one.status:
            raise ValueError(f"a run ends with status {process.returncode}, and not {one.status}")
        disk.tell(b"end")


def put_down(disk: pathlib.Path, writes: Sequence[Write]) -> None:
    with open(disk, "r+b") as file:
        for write in writes:
            file.seek(write.at)
            file.write(write.data)


def found_with(disk: Disk, writes: Sequence[Write]) -> State:
    """The files after a power cut that took all that isn't flushed but these writes."""
    # A loop device of the last one may be there for a moment, and hold what was in that file.
    (disk.room / "cut").unlink(missing_ok=True)
    run("cp", "--sparse=always", disk.room / "kept", disk.room / "cut")
    put_down(disk.room / "cut", writes)
    options = "loop,nouuid" if disk.kind == "xfs" else "loop"
    run("mount", "-t", disk.kind, "-o", options, disk.room / "cut", disk.room / "found")
    try:
        return got(str(disk.room / "found/place"))
    finally:
        run("umount", disk.room / "found")


def some_of(writes: Sequence[Write], chance: random.Random) -> list[Write]:
    """Sectors of these writes that are on the disk already: none, all, the first ones, or any. They
    are those of today's disks, since ext4 can't be mounted where its first 1024 bytes are torn."""
    sectors = [sector for write in writes for sector in write.pieces(4096, chance)]
    likely = chance.choice((0, 1, chance.random(), chance.random()))
    if chance.randrange(2):
        return sectors[:round(len(sectors) * likely)]
    return [sector for sector in sectors if chance.random() < likely]


def power_cuts(disk: Disk, scenario: Scenario, chance: random.Random,
               most: int) -> Iterator[tuple[str, State, Promise]]:
    """What power cuts leave of the files, and what they may not take."""
    records = disk.records()
    first = next(n for n, (_, write) in enumerate(records) if write.data == b"begin")
    points = {*chance.sample(range(first, len(records)), min(most, len(records) - first))}
    points |= {n for n, (_, write) in enumerate(records) if write.data == b"end"}
    progress = Progress.at_first(scenario, book_found(scenario))
    runs, flushed, unflushed = iter(scenario.runs), [], []
    for number, (letter, write) in enumerate(records):
        if letter == "W":
            unflushed.append(write)
        elif letter == "F":
            flushed, unflushed = flushed + unflushed, []
        elif write.data == b"begin":
            progress.begin(one := next(runs))
        elif write.data == b"end":
            progress.end(one)
        else:
            progress.reply(one, write.data)
        if number in points:
            put_down(disk.room / "kept", flushed)
            flushed = []
            state = found_with(disk, some_of(unflushed, chance))
            yield f"power cut after {number} of {len(records)} records", state, progress.power


def book_found(scenario: Scenario) -> bytes | None:
    return next((entry.data for entry in scenario.files if entry.path == BOOK), None)


def judged(kind: str, scenario: Scenario, server: str, seed: int,
           most: int) -> tuple[int, list[tuple[str, str]]]:
    """Judges what power cuts of a disk leave of the runs of a scenario."""
    chance = random.Random(f"{seed} {kind} {scenario.name}")
    with mounted(kind, server) as disk:
        written_to(disk, scenario)
        found = {(state, repr(promise)): (where, state, promise)
                 for where, state, promise in power_cuts(disk, scenario, chance, most)}
    wrong = [(where, complaint(scenario, state, promise))
             for where, state, promise in found.values()]
    return len(wrong), [failure for failure in wrong if failure[1]]


def on_disks() -> list[Scenario]:
    """The scenarios that are tried so."""
    lines, old, _ = examples()
    found = files({JOURNAL: old, BOOK: book_of(old)})
    refused = Scenario("journal --sync, after a write that the disk has refused", (
        Run(SYNCED, lines[:2]), Run(SYNCED, lines[2:3], failing=id_of(lines[2]).decode(), status=3),
        Run(SYNCED, lines[2:3])), found)
    names = ("book", "ledger", "journal", "journal --sync")
    return [s for s in scenarios() if s.name in names] + [refused]


def begun(pool: concurrent.futures.Executor, given: argparse.Namespace,
          room: str) -> Iterator[tuple[str, list[concurrent.futures.Future]]]:
    """Begins what is tried of disks, or tells why it isn't."""
    chosen = [s for s in on_disks() if re.search(given.only, s.name)]
    if why := wanting():
        print(f"not tried, {why}: power cuts of ext4 and XFS")
        return
    server = build(room)
    for kind in MAKERS:
        for s in chosen:
            yield f"{s.name}, on {kind}", [
                pool.submit(judged, kind, s, server, given.seed, given.states // 3)]
