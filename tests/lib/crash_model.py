"""Models what a kill and what a power cut may leave of the files of a run.

A kill leaves all that was called. A power cut is as hard as a file system may be: bytes that no
sync has put down are lost, torn or zeroed, in any order, and a new name comes early, late or beside
the old one until its folder is synced.
"""
from __future__ import annotations

import functools
import os
import random
from collections.abc import Iterator, Sequence
from dataclasses import dataclass, field
from typing import ClassVar

from lib.calls import Call

# Of what size the pieces are that a disk or a file system writes as one.
UNITS = (1, 512, 4096)


@dataclass(frozen=True)
class Write:
    """Bytes that are put at a place of a file. A gap before it reads as zeros."""
    at: int
    data: bytes

    def on(self, old: bytes) -> bytes:
        return old[:self.at].ljust(self.at, b"\0") + self.data + old[self.at + len(self.data):]

    def pieces(self, unit: int, chance: random.Random) -> list[Write]:
        """The pieces of this size, or two of any size where it is 1."""
        edges: Sequence[int] = range(unit - self.at % unit, len(self.data), unit)
        if unit == 1:
            edges = chance.sample(edges, min(1, len(edges)))
        ends = [0, *edges, len(self.data)]
        return [Write(self.at + a, self.data[a:b]) for a, b in zip(ends, ends[1:])]


@dataclass(frozen=True)
class Resize:
    """A size that is given to a file. What is new of it reads as zeros."""
    size: int

    def on(self, old: bytes) -> bytes:
        return old[:self.size].ljust(self.size, b"\0")

    def pieces(self, _unit: int, _chance: random.Random) -> list[Resize]:
        return [self]


Change = Write | Resize


def applied(data: bytes, changes: Sequence[Change]) -> bytes:
    return functools.reduce(lambda old, change: change.on(old), changes, data)


@dataclass
class File:
    """A file, or a symbolic link, whose data then is where it leads."""
    memory: bytes = b""
    disk: bytes = b""
    # What was changed since the last sync. It needn't lead from `disk` to `memory`: after a sync
    # that failed the system holds bytes that it takes for written.
    pending: list[Change] = field(default_factory=list)
    link: bool = False

    def change(self, change: Change) -> None:
        self.memory = change.on(self.memory)
        self.pending.append(change)

    def sync(self, failed: bool) -> None:
        if not failed:
            self.disk = applied(self.disk, self.pending)
        self.pending = []

    def after_power_cut(self, chance: random.Random, most: int) -> list[bytes]:
        """Some of what may be found, the least first and then the most."""
        found = [self.disk, applied(self.disk, self.pending)]
        if self.pending:
            found += [applied(self.disk, self.pending[:n]) for n in range(1, len(self.pending))]
            found += [self.scattered(chance) for _ in range(most)]
        return list(dict.fromkeys(found))

    def scattered(self, chance: random.Random) -> bytes:
        """Any pieces of what was changed, in a size that may have grown already."""
        unit, likely = chance.choice(UNITS), chance.random()
        pieces = [piece for change in self.pending for piece in change.pieces(unit, chance)]
        found = applied(self.disk, [piece for piece in pieces if chance.random() < likely])
        grown = chance.choice((0, len(applied(self.disk, self.pending))))
        return found.ljust(grown, b"\0")


@dataclass(frozen=True)
class Naming:
    """A name that a file loses, one that it gets, or both."""
    file: int
    old: str = ""
    new: str = ""

    def on(self, names: dict[str, int], keeps_old: bool = False) -> dict[str, int]:
        left = dict(names)
        if left.get(self.old) == self.file and not (keeps_old and self.new):
            del left[self.old]
        return left | ({self.new: self.file} if self.new else {})

    def is_in(self, folder: str) -> bool:
        return (os.path.dirname(self.new or self.old) or ".") == folder


@dataclass(frozen=True, order=True)
class Entry:
    """A name that is found. Entries of one number are names of one file."""
    path: str
    file: int
    data: bytes
    link: bool = False


State = tuple[Entry, ...]


@dataclass
class Opened:
    """An open file, which descriptors may share."""
    file: int
    appends: bool
    at: int = 0


@dataclass
class World:
    """The files of a folder and of those in it, as calls change them."""
    # Whether a power cut may leave both names of a rename, as rename(2) warns.
    both_names: ClassVar[bool] = True
    files: list[File] = field(default_factory=list)
    names: dict[str, int] = field(default_factory=dict)
    kept_names: dict[str, int] = field(default_factory=dict)
    namings: list[Naming] = field(default_factory=list)
    # A folder is told by its name.
    opened: dict[int, Opened | str] = field(default_factory=dict)

    @classmethod
    def found(cls, state: State, unsynced: frozenset[str] = frozenset()) -> World:
        """The world of what is found on a disk. Files of these names aren't on it yet."""
        world = cls()
        numbers: dict[int, int] = {}
        for entry in state:
            if entry.file not in numbers:
                numbers[entry.file] = len(world.files)
                world.files.append(File(entry.data, entry.data, link=entry.link))
            number = numbers[entry.file]
            world.name(Naming(number, new=entry.path))
            if entry.path in unsynced:
                world.files[number] = File(entry.data, b"", [Write(0, entry.data)])
        world.kept_names = {path: n for path, n in world.names.items() if path not in unsynced}
        world.namings = [naming for naming in world.namings if naming.new in unsynced]
        return world

    def name(self, naming: Naming) -> None:
        self.names = naming.on(self.names)
        self.namings.append(naming)

    def step(self, call: Call) -> None:
        """Does what a call did. One of files elsewhere does nothing."""
        match call.name, call.paths:
            case "open", (None,):
                self.opened.pop(call.value, None)
            case "open", (path,):
                self.open(path, call)
            case "rename", (str(old), str(new)):
                self.name(Naming(self.names[old], old, new))
            case "unlink", (str(old),):
                self.name(Naming(self.names[old], old))
            case "dup", _ if call.fd in self.opened:
                self.opened[call.value] = self.opened[call.fd]
            case "close", _:
                self.opened.pop(call.fd, None)
            case _ if call.fd in self.opened:
                self.use(self.opened[call.fd], call)

    def open(self, path: str, call: Call) -> None:
        if "folder" in call.flags:
            self.opened[call.value] = path
            return
        if path not in self.names:
            self.files.append(File())
            self.name(Naming(len(self.files) - 1, new=path))
        number = self.names[path]
        if "O_TRUNC" in call.flags:
            self.files[number].change(Resize(0))
        self.opened[call.value] = Opened(number, "O_APPEND" in call.flags)

    def use(self, opened: Opened | str, call: Call) -> None:
        """Does what was done to an open file or folder."""
        if isinstance(opened, str):
            if call.name == "sync" and call.value >= 0:
                self.sync_folder(opened)
            return
        file = self.files[opened.file]
        match call.name:
            case "read":
                opened.at += call.value
            case "seek":
                opened.at = call.value
            case "write":
                placed = opened.at if call.at is None else call.at
                at = len(file.memory) if opened.appends else placed
                file.change(Write(at, call.data))
                opened.at = at + len(call.data) if call.at is None else opened.at
            case "resize":
                file.change(Resize(call.at or 0))
            case "sync":
                file.sync(failed=call.value < 0)

    def sync_folder(self, folder: str) -> None:
        for naming in self.namings:
            if naming.is_in(folder):
                self.kept_names = naming.on(self.kept_names)
        self.namings = [naming for naming in self.namings if not naming.is_in(folder)]

    def after_kill(self) -> State:
        return self.state(self.names, {n: file.memory for n, file in enumerate(self.files)})

    def after_power_cut(self, chance: random.Random, most: int) -> Iterator[State]:
        """Some of the states that may be found: the least, the most, and others."""
        found = {n: file.after_power_cut(chance, most) for n, file in enumerate(self.files)}
        tables = self.tables(chance)
        for names in tables:
            yield self.state(names, {n: data[0] for n, data in found.items()})
            yield self.state(names, {n: data[:2][-1] for n, data in found.items()})
        for _ in range(most):
            picked = {n: chance.choice(data) for n, data in found.items()}
            yield self.state(chance.choice(tables), picked)

    def tables(self, chance: random.Random) -> list[dict[str, int]]:
        """Some of the tables of names that may be found."""
        picks: list[Sequence[int]] = [[0] * len(self.namings), [1] * len(self.namings)]
        hows = 3 if self.both_names else 2
        picks += [[chance.randrange(hows) for _ in self.namings] for _ in range(4)]
        found = []
        for pick in picks:
            names = self.kept_names
            for naming, how in zip(self.namings, pick):
                names = naming.on(names, keeps_old=how == 2) if how else names
            if names not in found:
                found.append(names)
        return found

    def state(self, names: dict[str, int], data: dict[int, bytes]) -> State:
        entries = (Entry(path, n, data[n], self.files[n].link) for path, n in names.items())
        return tuple(sorted(entries))
