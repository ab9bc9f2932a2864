"""What Stockfish and pbook say of setups, moves and records."""
from __future__ import annotations

import os
import pathlib
import re
import resource
import shutil
import struct
import subprocess
import time
from collections.abc import Iterable, Sequence

PROGRAM = os.path.abspath(os.environ.get("PROGRAM", "build/pbook"))
STOCKFISH = shutil.which("stockfish", path=os.environ.get("PATH", "") + ":/usr/games")
# What a code may be of the five that a move may promote to, and of the two squares.
CODES = tuple(range(5 * 4096))
# A code stands for itself as its weight, so that an answer names it.
ENTRY = struct.Struct(">QHHI")
# No run takes so many seconds.
PATIENCE = 3600


def processor_time() -> float:
    """The seconds that this process and those that it has waited for have taken."""
    return time.process_time() + sum(resource.getrusage(resource.RUSAGE_CHILDREN)[:2])


# ---- Stockfish


def stockfish(orders: Iterable[str]) -> str:
    assert STOCKFISH
    return subprocess.run([STOCKFISH], input="\n".join([*orders, "quit\n"]), text=True,
                          stdout=subprocess.PIPE, timeout=PATIENCE, check=True).stdout


def moves_by_stockfish(fens: Sequence[str]) -> list[set[str]]:
    """The legal moves of each record, after the moves that may be named there."""
    told = stockfish(f"position fen {fen}\ngo perft 1" for fen in fens)
    lists = told.split("Nodes searched: ")[:-1]
    if len(lists) != len(fens):
        raise ValueError(f"Stockfish lists moves of {len(lists)} setups, and not {len(fens)}")
    return [set(re.findall(r"^([a-h]\d[a-h]\d[bnqr]?): 1$", part, re.M)) for part in lists]


def records_by_stockfish(fens: Sequence[str]) -> list[str]:
    """Each record, after the moves that may be named there. Its en passant square is left out where
    no pawn stands to take."""
    told = stockfish(f"position fen {fen}\nd" for fen in fens)
    records = re.findall(r"^Fen: (.*)$", told, re.M)
    if len(records) != len(fens):
        raise ValueError(f"Stockfish tells {len(records)} records, and not {len(fens)}")
    return records


# ---- pbook


def pbook(*words: bytes | str, lines: Iterable[bytes] = (), place: str = ".") -> bytes:
    run = subprocess.run([PROGRAM, *words], input=b"".join(line + b"\n" for line in lines),
                         capture_output=True, cwd=place, timeout=PATIENCE, check=False)
    if run.returncode not in (0, 1):
        raise ValueError(f"pbook {words[0]!r} ends with status {run.returncode}:"
                         f" {run.stderr.decode(errors='replace')}")
    return run.stdout


def answers(told: bytes, count: int) -> list[bytes]:
    lines = told.split(b"\n")[:-1]
    if len(lines) != count:
        raise ValueError(f"pbook answers {len(lines)} lines, and not {count}")
    return lines


class Lookups:
    """Books that are probed: of all codes under the one key of a table of zeros, and of codes that
    are chosen for each key of a table."""

    def __init__(self, place: str, randoms: Sequence[int]) -> None:
        self.place = place
        self.write("zeros.txt", "0" * 16 + "\n", 781)
        self.write("table.txt", "".join(f"{random:016x}\n" for random in randoms), 1)
        self.book("all.bin", {0: CODES})
        self.book("whole.bin", {0: range(1 << 16)})

    def write(self, name: str, text: str, times: int) -> None:
        pathlib.Path(self.place, name).write_text(text * times, encoding="ascii")

    def book(self, name: str, codes: dict[int, Iterable[int]]) -> None:
        pathlib.Path(self.place, name).write_bytes(b"".join(
            ENTRY.pack(key, code, code, 0) for key in sorted(codes) for code in sorted(codes[key])))

    def look_up(self, table: str, book: str, fens: Sequence[bytes]) -> list[bytes]:
        """The moves that are found, each with its code."""
        told = pbook("lookup", table, book, lines=fens, place=self.place)
        return answers(told, len(fens))

    def all_codes(self, fens: Sequence[bytes], seconds: float) -> list[bytes]:
        """Which of all codes are found, of as many records as these seconds of processor time let
        be tried."""
        found: list[bytes] = []
        begin = processor_time()
        while len(found) < len(fens):
            count = len(found) or 5
            used = processor_time() - begin
            if found:
                count = min(count, int((seconds - used) * len(found) / max(used, 0.01)))
            if count < 1:
                break
            found += self.look_up("zeros.txt", "all.bin", fens[len(found):][:count])
        return found


def collected(place: str, lines: Sequence[bytes]) -> tuple[list[bytes], bytes, list[bytes]]:
    """The replies to submissions, the bytes of their book, and the lines of its export."""
    replies = pbook("collect", "-q", "table.txt", "games.bin", lines=lines, place=place)
    exported = pbook("export", "-q", "table.txt", lines=lines, place=place)
    return (answers(replies, len(lines)), pathlib.Path(place, "games.bin").read_bytes(),
            exported.split(b"\n")[:-1])
