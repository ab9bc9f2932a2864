"""Tells the calls of a run that change files, as strace has seen them.

Usage: calls.py LOG FOLDER   prints those of a log in short, by names as seen from this folder
"""
from __future__ import annotations

import itertools
import os
import pathlib
import re
import subprocess
import sys
from collections.abc import Iterator, Sequence
from dataclasses import dataclass

# The calls that are followed, and what they are called here.
FOLLOWED = {
    "open": "open", "openat": "open", "creat": "open", "close": "close", "dup": "dup",
    "dup2": "dup", "dup3": "dup", "fcntl": "dup", "read": "read", "readv": "read", "lseek": "seek",
    "write": "write", "writev": "write", "pwrite64": "write", "pwritev": "write",
    "ftruncate": "resize", "fsync": "sync", "fdatasync": "sync", "rename": "rename",
    "renameat": "rename", "unlink": "unlink", "unlinkat": "unlink", "flock": "lock",
    "fchmod": "permit"}
# Those that change files in ways that the model doesn't know.
UNKNOWN = (
    "truncate", "link", "linkat", "symlink", "symlinkat", "renameat2", "mkdir", "mkdirat", "rmdir",
    "fallocate", "copy_file_range", "sendfile", "splice", "pwritev2", "sync_file_range", "sync",
    "syncfs")
LINE = re.compile(r"\d+ +(\w+)\((.*)\) += (-?\w+)(?:<([^>]*)>)?(?: .*)?")
TEXT = re.compile(r'(?:<((?:\\x..)*)>, )?"((?:\\x..)*)"')
DESCRIPTOR = re.compile(r"(\d+)(?:<((?:\\x..)*)>)?")
# How many lines a worker sends before it waits for their replies.
SENT_AT_ONCE = (1, 2, 1, 3)
# A run that takes longer, in seconds, hangs.
PATIENCE = 120


@dataclass(frozen=True)
class Call:
    """A call that succeeded, or a sync that failed. A path is None where it leads elsewhere."""
    name: str
    fd: int
    paths: tuple[str | None, ...]
    value: int
    data: bytes = b""
    at: int | None = None
    flags: frozenset[str] = frozenset()

    def __str__(self) -> str:
        return " ".join([self.name, *(path for path in self.paths if path)])


def text(escaped: str) -> bytes:
    return bytes.fromhex(escaped.replace("\\x", ""))


def inside(place: str, path: str) -> str | None:
    """The path as it is seen from the folder, where it leads into it."""
    folder, name = os.path.split(os.path.join(place, path))
    seen = os.path.relpath(os.path.join(os.path.realpath(folder), name), place)
    return None if seen.startswith("..") else seen


def call_of(name: str, given: str, value: int, opened: str, place: str) -> Call | None:
    """The call that a line of strace tells, if it is followed."""
    kind = FOLLOWED.get(name)
    if value < 0 and kind != "sync" or name == "fcntl" and "F_DUPFD" not in given:
        return None
    if kind is None:
        raise ValueError(f"a call that the model of crashes doesn't know: {name}({given})")
    texts = [(os.fsdecode(text(base)), text(word)) for base, word in TEXT.findall(given)]
    held = DESCRIPTOR.match(given)
    fd = int(held[1]) if held else -1
    if kind == "open":
        path = os.fsdecode(text(opened))
        how = [*re.findall(r"O_\w+", given), "folder" if os.path.isdir(path) else ""]
        return Call(kind, fd, (inside(place, path),), value, flags=frozenset(how))
    if kind in ("rename", "unlink"):
        words = [os.path.join(base, os.fsdecode(word)) for base, word in texts]
        return Call(kind, fd, tuple(inside(place, word) for word in words), value)
    path = inside(place, os.fsdecode(text(held[2] or ""))) if held else None
    if kind == "write" and fd == 1:
        kind, path = "reply", None
    at = int(given.rsplit(", ", 1)[1]) if name in ("pwrite64", "pwritev", "ftruncate") else None
    written = b"".join(word for _, word in texts) if kind in ("write", "reply") else b""
    is_folder = path is not None and os.path.isdir(os.path.join(place, path))
    flags = frozenset({"folder"} if is_folder else ())
    return Call(kind, fd, (path,), value, written[:max(value, 0)], at, flags)


def named_calls(log: str, place: str) -> Iterator[tuple[str, str, Call]]:
    """The calls that are followed, in their order, with their names and arguments."""
    if "<unfinished" in log:
        raise ValueError("a program of several threads, which the model of crashes doesn't know")
    for line in filter(None, map(LINE.fullmatch, log.splitlines())):
        call = call_of(line[1], line[2], int(line[3], 0), line[4] or "", place)
        if call:
            yield line[1], line[2], call


def short(name: str, given: str, call: Call) -> list[str]:
    """A call in short: what was done, of which file, and what came of it."""
    path, last = str(call.paths[0]), given.rpartition(", ")[2]
    match call.name:
        case "open":
            how = "rw" if "O_RDWR" in call.flags else "w" if "O_WRONLY" in call.flags else "r"
            how = f"new {last}" if "O_CREAT" in call.flags else how
            return ["open", path, how + " emptied" * ("O_TRUNC" in call.flags)]
        case "write" | "reply":
            return ["write", path if call.name == "write" else "replies", str(call.value)]
        case "rename":
            return ["rename", path, f"to {call.paths[1]}"]
        case "lock" | "permit":
            return [name, path, last.partition("|")[0]]
    return [name, path]


def in_short(log: str, place: str) -> list[str]:
    """The calls in short. Reads of one file in a row count as one, and so do writes of one that is
    neither a journal nor standard output."""
    lines: list[list[str]] = []
    for words in itertools.starmap(short, named_calls(log, place)):
        is_text = words[0] == "write" and not words[1].endswith(("journal", "replies"))
        if (is_text or words[0] == "read") and lines and lines[-1][:2] == words[:2]:
            words[2:] = [str(sum(int(it[2]) for it in (words, lines[-1])))] if is_text else []
            lines.pop()
        lines.append(words)
    return [" ".join(words) for words in lines]


def converse(run: subprocess.Popen[bytes], lines: Sequence[bytes]) -> bytes:
    """The replies to lines, a few of which are sent at a time. A run that ends ends them too."""
    replies, rest = b"", list(lines)
    for count in itertools.cycle(SENT_AT_ONCE):
        if not rest:
            break
        sent, rest = rest[:count], rest[count:]
        try:
            run.stdin.write(b"".join(sent))
            run.stdin.flush()
        except BrokenPipeError:
            break
        replies += b"".join(run.stdout.readline() for _ in sent)
    return replies


def trace(command: Sequence[str], lines: Sequence[bytes], place: str,
          failing: str = "") -> tuple[list[Call], int]:
    """Runs a command over lines in this folder. The answer is its calls and its status."""
    log = place + ".calls"
    inject = ["-e", "inject=" + failing] if failing else []
    strace = ["timeout", str(PATIENCE), "strace", "-f", "-y", "-xx", "-s", "99999", "-o", log,
              "-e", "signal=none", "-e", "trace=" + ",".join([*FOLLOWED, *UNKNOWN]), *inject]
    with subprocess.Popen([*strace, *command], cwd=place, stdin=subprocess.PIPE,
                          stdout=subprocess.PIPE, stderr=subprocess.DEVNULL) as run:
        converse(run, lines)
        run.communicate()
    with open(log, encoding="ascii") as told:
        calls = [call for _, _, call in named_calls(told.read(), place)]
    os.unlink(log)
    return calls, run.returncode


if __name__ == "__main__":
    print(*in_short(pathlib.Path(sys.argv[1]).read_text(encoding="ascii"), sys.argv[2]), sep="\n")
