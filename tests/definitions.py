#!/usr/bin/env python3
"""Runs the definitions of chess, FEN, keys and codes, and compares what they say with what
Stockfish and pbook say.

Usage: PROGRAM=program python3 -B tests/definitions.py [--seed N] [--times N] [--seconds N]
           [--crates FOLDER] [--write]
(at the top of the repository; Stockfish has to be there).

tests/lib/chess.py has a function for each definition of crates/*/specs that these rest on, word by
word. tests/data/definitions.txt has the checksum of each definition that was read for it. A
definition that has changed since, or that has no function, fails by its name. Once its function
says again what it says, `--write` puts down the checksums of the definitions as they stand.

The setups are those along random games, and strange ones: with rights of kings and rooks that
aren't at home, with en passant squares that no double step made, unplayable, with many promoted
pieces. Of each setup all moves from 64 squares to 64 squares, with five promotions, are tried. At
last definitions are made wrong, one at a time, and each has to be seen to be wrong.

--times tries so many times as much. Below 1 no definition is made wrong. --seconds is the processor
time that the program may take for all moves of setups, and for games: one without proof is slow,
and does as much as it can in it. --crates is where the definitions are looked for. The last line is
`N passed, N failed`, where each setup, move, text, definition and wrong definition counts.
"""
from __future__ import annotations

import argparse
import collections
import hashlib
import os
import pathlib
import random
import re
import sys
import tempfile
from collections.abc import Callable, Iterable, Iterator, Sequence
from dataclasses import dataclass, field
from functools import cache
from typing import Optional

sys.path.append("scripts")
from lib import chess, chess_programs, chess_setups, chess_wrong
from lib.chess import Black, Knight, Moved, Position, Record, Rights, White
from lib.chess_setups import MOVES
from lib.specs import Definition, Specs

TABLE = pathlib.Path("tests/data/definitions.txt")
# What is run, with all that it rests on.
SEEDS = ("pb_board.Position.IsRecord", "pb_board.Text.fen_text", "pb_board.Text.setup_text",
         "pb_board.Refusal.IsDueFen", "pb_board.Refusal.IsFirstOf", "pb_board.Refusal.fen_errors",
         "pb_board.Words.word_of",
         "pb_moves.Legal.Legal", "pb_moves.Attacks.IsPlayable", "pb_moves.Successor.after",
         "pb_moves.Successor.IsAfter", "pb_moves.Clocks.record_after",
         "pb_moves.Spelling.spelling", "pb_poly.Key.key", "pb_poly.Key.IsKey",
         "pb_poly.Code.encode_move")

# All that a code may stand for, promotions to a pawn and a king too.
CODED = tuple(Moved(a, b, promo) for a in chess.SQUARES for b in chess.SQUARES
              for promo in (None, *chess.KINDS))
BY_WORD = {chess.spelling(m).decode(): m for m in MOVES}
MOVES_FROM = [[m for m in MOVES if m.from_ == q] for q in chess.SQUARES]


# ---- the definitions that are followed


# Text without the white space between its parts.
PART = re.compile(r"[\w'-]+|[^\w\s]")


def table() -> dict[str, str]:
    """The checksum of each definition that was read."""
    lines = TABLE.read_text(encoding="ascii").splitlines() if TABLE.exists() else []
    return dict(line.split() for line in lines)


def checksum(own: Definition) -> str:
    """That of its text, comments and white space aside."""
    text = re.sub(r"(^|\s)--.*", "", "\n".join(own.lines), flags=re.M)
    return hashlib.sha256(" ".join(PART.findall(text)).encode()).hexdigest()[:12]


def behind_seeds(specs: Specs) -> dict[str, Definition]:
    """What is run and all that it rests on, by their names with crate and file."""
    seeds = [specs.find(*seed.rsplit(".", 1)) for seed in SEEDS]
    named = {f"{it.file}.{it.name}": it for it in specs.closure(seeds)}
    return {name: named[name] for name in sorted(named)}


def unfollowed(specs: Specs, followed: dict[str, str]) -> Iterator[str]:
    """What isn't followed, and what to do."""
    behind = behind_seeds(specs)
    for seed in SEEDS:
        if seed not in behind:
            yield f"{seed} is no definition any more: name what is run in its place in SEEDS"
    for name, own in behind.items():
        if not hasattr(chess, name.rpartition(".")[2]):
            yield f"{name} isn't run: say it in tests/lib/chess.py, and run --write"
        elif name not in followed:
            yield f"{name} isn't in {TABLE}: read it, and run --write"
        elif followed[name] != checksum(own):
            yield f"{name} has changed: have tests/lib/chess.py say it, and run --write"
    for name in sorted(set(followed) - set(behind)):
        yield f"{name} is behind nothing that is run: take it out of {TABLE} by --write"


def write(specs: Specs) -> None:
    """Puts down the checksums as they are. By git it is told which are others than before."""
    now = behind_seeds(specs)
    for name in now:
        if not hasattr(chess, name.rpartition(".")[2]):
            sys.exit(f"{name} isn't run: say it in tests/lib/chess.py first")
    TABLE.write_text("".join(f"{name} {checksum(now[name])}\n" for name in now), encoding="ascii")
    print(f"{TABLE} has the checksums of {len(now)} definitions")


# ---- what the definitions say, as answers


# What is tried of a setup.
tried: Callable[[Position], Iterable[Moved]] = lambda s: MOVES


@cache
def pseudo_legal(s: Position) -> list[Moved]:
    """Of all that is tried what is legal but for check, which `Legal` asks first."""
    return [m for m in tried(s) if chess.PseudoLegal(s, m)]


@cache
def legal(s: Position) -> list[Moved]:
    return [m for m in pseudo_legal(s) if chess.Legal(s, m)]


def own_moves(s: Position) -> Iterator[Moved]:
    """What is tried, from the squares of the side to move alone."""
    for q, place in enumerate(s.board):
        if place is not None and place.colour == s.turn:
            yield from MOVES_FROM[q]


def some_reply(s: Position) -> Optional[Moved]:
    return next((m for m in own_moves(s) if chess.Legal(s, m)), None)


def found(s: Position, moves: Iterable[Moved], codes: Optional[set[int]] = None) -> bytes:
    """These moves, or those with these codes, each with its code, as a lookup tells them."""
    by_code = sorted((chess.encode_move(s, m), chess.spelling(m)) for m in moves)
    return b" ".join(b"%b %d" % (word, code) for code, word in by_code
                     if codes is None or code in codes) or b"-"


def unlike(answer: bytes, due: bytes) -> str:
    """What one of two answers to a lookup has alone, if any: moves with their codes."""
    these, those = ({b" ".join(pair) for pair in zip(words[::2], words[1::2])}
                    for words in (answer.split(b" "), due.split(b" ")))
    parts = [f"{who} {b', '.join(sorted(alone)).decode()} alone"
             for who, alone in (("pbook finds", these - those), ("due is", those - these)) if alone]
    return "; ".join(parts) or ("" if answer == due else f"pbook answers {answer!r}")


def judged(text: bytes) -> bytes:
    """What `fen` answers to a text: the refusals that are due first, or the text."""
    parts = text.split(b" ")
    first = [chess.word_of(error) for error in chess.fen_errors if chess.IsFirstOf(
        chess.fen_errors, lambda e: chess.IsDueFen(parts, e), error)]
    return b"refused fen " + b" ".join(first) if first else text


# What Stockfish takes


def rights_at_home(s: Position) -> Rights:
    """The rights whose king and rook stand at home. Others let nothing castle."""
    homes = ((White, 4, 7), (White, 4, 0), (Black, 60, 63), (Black, 60, 56))
    return Rights(*(
        right and s.board[king] == chess.piece_of(side, chess.King)
        and s.board[rook] == chess.piece_of(side, chess.Rook)
        for right, (side, king, rook) in zip(s.rights, homes)))


def taken(s: Position) -> Optional[Position]:
    """The setup as Stockfish takes it, if it does: it looks for rooks of rights, passes over an en
    passant square that no double step made, and has room for 256 moves."""
    if not chess.IsSetup(s) or not chess.IsPlayable(s) or len(pseudo_legal(s)) > 250:
        return None
    return s._replace(rights=rights_at_home(s), ep=s.ep if chess_setups.is_stepped(s) else None)


def fen_by_stockfish(f: Record) -> bytes:
    """The record as Stockfish tells it: no pawn beside, no en passant square."""
    s = f.setup
    if s.ep is not None and not chess.has_capturer(
            s.board, s.turn, chess.double_stepped(s.turn, s.ep)):
        s = s._replace(ep=None)
    return chess.fen_text(f._replace(setup=s))


# ---- what was answered, and whether the definitions say the same


@dataclass
class OfRecord:
    """What is answered of a record, and told by that."""
    record: Record

    def __str__(self) -> str:
        return chess.fen_text(self.record).decode()


@dataclass
class Setup(OfRecord):
    """The legal moves of a setup, its texts and its key."""
    taken: Optional[Position]
    randoms: Sequence[int]
    # The codes under each key of the book that was probed.
    book: dict[int, set[int]]
    stockfish: Optional[set[str]] = None
    all_codes: Optional[bytes] = None
    probed: bytes = b""
    epd: bytes = b""

    def complaint(self) -> str:
        s = self.record.setup
        if not chess.IsRecord(self.record):
            return "it is no record"
        if chess.setup_text(s) != self.epd:
            return f"pbook puts its EPD as {self.epd!r}"
        if self.taken is not None and self.stockfish is not None:
            said = {chess.spelling(m).decode() for m in legal(self.taken)}
            if said != self.stockfish:
                return (f"Stockfish lists {sorted(self.stockfish - said)} alone,"
                        f" due is {sorted(said - self.stockfish)} alone")
        if self.all_codes is not None and found(s, legal(s)) != self.all_codes:
            return unlike(self.all_codes, found(s, legal(s)))
        due = found(s, legal(s), self.book.get(chess.key(self.randoms, s), set()))
        return "" if due == self.probed else "under its key " + unlike(self.probed, due)


@dataclass
class Codes(OfRecord):
    """What is found for a setup of all numbers of 16 bits: the moves that any of them stands for,
    promotions to a pawn and a king tried too."""
    answer: bytes

    def complaint(self) -> str:
        s = self.record.setup
        return unlike(self.answer, found(s, [m for m in CODED if chess.Legal(s, m)]))


@dataclass
class Play:
    """Moves from a record, and what `fen` and Stockfish tell."""
    record: Record
    moves: list[Moved]
    fen: Optional[bytes] = None
    stockfish: Optional[bytes] = None

    def complaint(self) -> str:
        record = self.record
        for number, m in enumerate(self.moves, 1):
            if self.fen is not None and not chess.Legal(record.setup, m):
                due = b"refused illegal %d" % number
                return "" if self.fen == due else f"pbook answers {self.fen!r}, due is {due!r}"
            record = chess.record_after(record, m)
        if self.fen is not None and chess.fen_text(record) != self.fen:
            return f"pbook answers {self.fen!r}, due is {chess.fen_text(record)!r}"
        if self.stockfish is not None and fen_by_stockfish(record) != self.stockfish:
            return f"Stockfish tells {self.stockfish!r}, due is {fen_by_stockfish(record)!r}"
        return ""

    def __str__(self) -> str:
        return told(self.record, self.moves)


@dataclass
class Games:
    """Games that were collected: the book and its export."""
    games: list[tuple[Record, list[Moved]]]
    randoms: Sequence[int]
    replies: list[bytes] = field(default_factory=list)
    entries: set[tuple[int, int]] = field(default_factory=set)
    texts: set[bytes] = field(default_factory=set)
    book: bytes = b""
    exported: list[bytes] = field(default_factory=list)

    def lines(self) -> list[bytes]:
        return [b"\t".join((b"g%d" % n, b"1/2-1/2", chess.fen_text(start),
                            b" ".join(chess.spelling(m) for m in moves)))
                for n, (start, moves) in enumerate(self.games, 1)]

    def due(self) -> tuple[bytes, list[bytes]]:
        """The book and the lines of the export: a drawn ply counts one."""
        counts: dict[int, collections.Counter[int]] = collections.defaultdict(collections.Counter)
        words: dict[tuple[int, int], bytes] = {}
        keys: dict[bytes, int] = {}
        for start, moves in self.games:
            s = start.setup
            for m in moves:
                key, code = chess.key(self.randoms, s), chess.encode_move(s, m)
                counts[key][code] += 1
                words[key, code] = chess.spelling(m)
                keys[chess.setup_text(s)] = key
                s = chess.after(s, m)
        under = {key: sorted(codes.items(), key=lambda c: (-c[1], c[0]))
                 for key, codes in counts.items()}
        book = b"".join(chess_programs.ENTRY.pack(key, code, count, 0)
                        for key in sorted(under) for code, count in under[key])
        return book, [b"%b bkm %b;" % (text, b" ".join(
            b"%b %d" % (words[key, code], count) for code, count in under[key]))
            for text, key in sorted(keys.items())]

    def ask(self, place: str) -> None:
        self.replies, self.book, self.exported = chess_programs.collected(place, self.lines())
        self.entries = {entry[:2] for entry in chess_programs.ENTRY.iter_unpack(self.book)}
        self.texts = {line.partition(b" bkm ")[0] for line in self.exported}

    def complaint(self) -> str:
        for n, reply in enumerate(self.replies, 1):
            if reply != b"ok g%d %d" % (n, n):
                return f"pbook replies {reply!r} to {told(*self.games[n - 1])}"
        complaints = (game.complaint() for game in self.each())
        book, lines = self.due()
        if book != self.book:
            return "pbook makes another book: " + next(filter(None, complaints), "other counts")
        if lines != self.exported:
            return "pbook exports other lines: " + next(filter(None, complaints), "other moves")
        return ""

    def each(self) -> list[Game]:
        return [Game(n, self) for n in range(len(self.games))]

    def __str__(self) -> str:
        return f"{len(self.games)} games"


@dataclass
class Game:
    """A game of those: its entries and its setups are in what was made."""
    number: int
    of: Games

    def complaint(self) -> str:
        start, moves = self.of.games[self.number]
        s = start.setup
        for m in moves:
            if (chess.key(self.of.randoms, s), chess.encode_move(s, m)) not in self.of.entries:
                return f"the book hasn't {chess.spelling(m)!r} in {chess.setup_text(s)!r}"
            if chess.setup_text(s) not in self.of.texts:
                return f"the export hasn't {chess.setup_text(s)!r}"
            s = chess.after(s, m)
        return ""

    def __str__(self) -> str:
        return told(*self.of.games[self.number])


@dataclass
class Text:
    """A text that may be a FEN record."""
    text: bytes
    checked: bytes = b""
    fen: Optional[bytes] = None

    def complaint(self) -> str:
        due = judged(self.text)
        if self.fen is not None and due != self.fen:
            return f"pbook answers {self.fen!r}, due is {due!r}"
        if (due != self.text) != (self.checked == b"fen"):
            return f"`check` answers {self.checked!r}, due is {due!r}"
        spelt = any(chess.IsRecord(f) and chess.fen_text(f) == self.text
                    for f in chess.records_for(self.text))
        if spelt != (due == self.text):
            return f"it is{'' if spelt else ' not'} a record's text, but due is {due!r}"
        return ""

    def __str__(self) -> str:
        return repr(self.text)


@dataclass
class Checked(OfRecord):
    """Whether a game may start from the record."""
    checked: bytes = b""

    def complaint(self) -> str:
        due = b"" if chess.IsPlayable(self.record.setup) else b"start"
        return "" if self.checked == due else f"`check` answers {self.checked!r}, due is {due!r}"


@dataclass
class Successor:
    """What is said of a setup after a move without another program: the relation holds of it, and
    of none that differs in one place."""
    setup: Position
    move: Moved
    number: int

    def complaint(self) -> str:
        s, m = self.setup, self.move
        t = chess.after(s, m)
        if not chess.IsSetup(t):
            return "it leads to no setup"
        if not chess.IsAfter(s, m, t):
            return "IsAfter doesn't hold of after"
        q = self.number % 64
        other = Position(chess.slice_set(t.board, q, None if t.board[q] else
                                         chess.piece_of(White, Knight)), *t[1:])
        wrong = (other, other, other, t._replace(turn=s.turn),
                 t._replace(ep=5 if t.ep is None else None),
                 t._replace(rights=Rights(*(not right for right in t.rights))))[self.number % 6]
        return "IsAfter holds of another setup" if chess.IsAfter(s, m, wrong) else ""

    def __str__(self) -> str:
        return told(Record(self.setup, 0, 1), [self.move])


@dataclass
class Key:
    """What is said of a key bit by bit: it holds of the one that is made, and of no other."""
    setup: Position
    randoms: Sequence[int]
    bit: int

    def complaint(self) -> str:
        key = chess.key(self.randoms, self.setup)
        if not chess.IsKey(self.randoms, self.setup, key):
            return "IsKey doesn't hold of key"
        other = key ^ 1 << self.bit
        return "IsKey holds of another key" if chess.IsKey(self.randoms, self.setup, other) else ""

    def __str__(self) -> str:
        return chess.setup_text(self.setup).decode()


def told(start: Record, moves: Sequence[Moved]) -> str:
    return " ".join([chess.fen_text(start).decode(),
                     *(chess.spelling(m).decode() for m in moves)])


Fact = Setup | Codes | Play | Games | Game | Text | Checked | Successor | Key


# ---- what is asked


class Asked:
    """All that was asked and answered."""

    def __init__(self, given: argparse.Namespace, place: str) -> None:
        self.chance = random.Random(given.seed)
        self.randoms = [self.chance.getrandbits(64) for _ in range(781)]
        self.place = place
        self.given = given
        self.played: list[tuple[Record, list[Moved]]] = []
        self.records = self.all_records()
        self.setups = self.asked_setups()
        # A word that spells a legal move, or none, after a move of a setup as Stockfish takes it.
        self.replies: dict[tuple[Optional[Position], Moved], str] = {}
        self.beside = self.asked_successors()
        self.games = self.asked_games()
        self.plays = self.asked_plays()
        self.texts = self.asked_texts()
        self.checked = self.asked_starts()
        self.successors = [Successor(f.setup, m, self.chance.randrange(1 << 20))
                           for f in self.records for m in legal(f.setup)]
        self.keys = [Key(f.setup, self.randoms, 63 if n % 2 else n % 64)
                     for n, f in enumerate(self.chance.sample(self.records, self.so_many(300)))]

    def so_many(self, count: int) -> int:
        return round(count * self.given.times)

    def all_records(self) -> list[Record]:
        """A record for each setup, all of which differ."""
        chance, so_many = self.chance, self.so_many
        records: dict[Position, Record] = {}

        def add(record: Record) -> None:
            records.setdefault(record.setup, record)

        def play(start: Record, plies: int) -> None:
            plies_of = list(chess_setups.game(chance, start, plies, legal))
            for record, _ in plies_of:
                add(record)
            self.played.append((start, [m for _, m in plies_of if m]))
        for _ in range(max(1, so_many(20))):
            play(Record(chess_setups.START, 0, 1), 60)
        made = list(records)
        strange = [make(chance) for make, count in chess_setups.STRANGE
                   for _ in range(so_many(count))]
        strange += [chess_setups.spoiled(chance, chance.choice(made)) for _ in range(so_many(300))]
        for s in strange:
            if chess.IsSetup(s):
                add(Record(s, *chess_setups.clocks(chance)))
        starts = [f for f in list(records.values())[len(made):] if chess.IsPlayable(f.setup)]
        for start in chance.sample(starts, so_many(20)):
            play(start, 20)
        return list(records.values())

    def asked_setups(self) -> list[Setup]:
        chance = self.chance
        book: dict[int, set[int]] = collections.defaultdict(set)
        setups = []
        for f in self.records:
            book[chess.key(self.randoms, f.setup)] |= {
                chess.encode_move(f.setup, m) for m in self.near_moves(f.setup)}
            setups.append(Setup(f, taken(f.setup), self.randoms, book))
        by_stockfish = [setup for setup in setups if setup.taken is not None]
        for setup, moves in zip(by_stockfish, chess_programs.moves_by_stockfish(
                [chess.fen_text(Record(s.taken, 0, 1)).decode() for s in by_stockfish if s.taken])):
            setup.stockfish = moves
        lookups = chess_programs.Lookups(self.place, self.randoms)
        lookups.book("near.bin", book)
        fens = [chess.fen_text(setup.record) for setup in setups]
        texts = [chess.setup_text(setup.record.setup) for setup in setups]
        for setup, probed, epd in zip(
                setups, lookups.look_up("table.txt", "near.bin", fens), chess_programs.answers(
                    chess_programs.pbook("epd", lines=texts), len(texts))):
            setup.probed, setup.epd = probed, epd
        some = chance.sample(setups, len(setups))
        fens = [chess.fen_text(setup.record) for setup in some]
        for setup, answer in zip(some, lookups.all_codes(fens, self.given.seconds / 2)):
            setup.all_codes = answer
        promoting = [setup.record for setup in some
                     if any(m.promo for m in legal(setup.record.setup))][:10]
        self.codes = [Codes(f, answer) for f, answer in zip(promoting, lookups.look_up(
            "zeros.txt", "whole.bin", [chess.fen_text(f) for f in promoting]))]
        return setups

    def near_moves(self, s: Position) -> list[Moved]:
        """What is legal but for check, each move of two files by the king, and others of its
        side."""
        others = list(own_moves(s))
        king = chess.piece_of(s.turn, chess.King)
        castlings = [m for m in others if chess.Holds(s.board, m.from_, king)
                     and abs(m.to - m.from_) == 2 and m.promo is None]
        return pseudo_legal(s) + castlings + self.chance.sample(others, 150)

    def one_move(self, s: Position) -> list[Moved]:
        """A legal move of the setup, or none where there is none: a seldom one rather than
        others."""
        moves = legal(s)
        return self.chance.choices(
            moves, [chess_setups.weight(s, m) for m in moves]) if moves else []

    def asked_successors(self) -> list[Play]:
        """What Stockfish tells of each legal move of the setups that it takes; and a reply to it,
        by which a game goes on."""
        plays = []
        for setup in self.setups:
            if setup.taken is not None:
                f = Record(setup.taken, self.chance.randrange(90), self.chance.randrange(1, 300))
                plays += [Play(f, [m]) for m in legal(setup.taken)]
        orders = [told(play.record, []) + " moves " + chess.spelling(play.moves[0]).decode()
                  for play in plays]
        for play, record, moves in zip(plays, chess_programs.records_by_stockfish(orders),
                                       chess_programs.moves_by_stockfish(orders)):
            play.stockfish = record.encode()
            reply = self.chance.choice(sorted(moves) or [""])
            self.replies[play.record.setup, play.moves[0]] = reply
        return plays

    def asked_games(self) -> Games:
        """The games that were played, and two plies from each legal move of the setups that games
        may start from, as many as are tried in the time given."""
        games = []
        for setup in self.setups:
            s = setup.record.setup
            for m in legal(s) if chess.IsPlayable(s) else ():
                word = self.replies.get((setup.taken, m))
                reply = BY_WORD.get(word) if word is not None else some_reply(chess.after(s, m))
                games.append((setup.record, [m, reply] if reply else [m]))
        self.chance.shuffle(games)
        asked = Games(self.played + games[:300], self.randoms)
        begin = chess_programs.processor_time()
        asked.ask(self.place)
        a_game = (chess_programs.processor_time() - begin) / len(asked.games)
        asked.games = self.played + games[:round(self.given.seconds / 2 / a_game)]
        asked.ask(self.place)
        return asked

    def asked_plays(self) -> list[Play]:
        chance = self.chance
        plays = [Play(start, moves) for start, moves in self.played]
        for f in chance.sample(self.records, self.so_many(250)):
            near = pseudo_legal(f.setup) or [chance.choice(MOVES)]
            plays.append(Play(f, self.one_move(f.setup)))
            plays.append(Play(f, [m for m in (chance.choice(near),) if m.from_ != m.to]))
        for play in plays:
            play.fen = chess_programs.pbook(
                "fen", chess.fen_text(play.record), *map(chess.spelling, play.moves)).rstrip(b"\n")
        return plays

    def checked_by_pbook(self, texts: Sequence[bytes]) -> list[bytes]:
        """The reason for which `check` refuses a game without moves from each text, if any."""
        lines = [b"g\t1/2-1/2\t%b\t" % text for text in texts]
        told_lines = chess_programs.answers(
            chess_programs.pbook("check", lines=lines), len(lines))
        return [line.removeprefix(b"ok g").removeprefix(b"refused g ") for line in told_lines]

    def asked_texts(self) -> list[Text]:
        chance = self.chance
        stepped = [f for f in self.records if f.setup.ep is not None]
        texts = [Text(make(chance, chance.choice(records))) for make, records in (
            (chess_setups.defective, self.records), (chess_setups.defective, stepped),
            (chess_setups.unruly, self.records), (chess_setups.unruly, stepped))
            for _ in range(self.so_many(750))]
        chance.shuffle(texts)
        for text, checked in zip(texts, self.checked_by_pbook([t.text for t in texts])):
            text.checked = checked
        for text in texts[:self.so_many(500)]:
            text.fen = chess_programs.pbook("fen", "--", text.text).rstrip(b"\n")
        return texts

    def asked_starts(self) -> list[Checked]:
        answers = self.checked_by_pbook([chess.fen_text(f) for f in self.records])
        return [Checked(f, answer) for f, answer in zip(self.records, answers)]

    def facts(self) -> dict[str, Sequence[Fact]]:
        """What was asked, by what it is."""
        return {
            "setups": self.setups, "setups with all 16 bits of a code": self.codes,
            "successors by their relation": self.successors,
            "successors beside Stockfish": self.beside,
            f"books, of {len(self.games.games):,} games": [self.games],
            "keys by their relation": self.keys, "plays": self.plays, "texts": self.texts,
            "starts": self.checked}

    def seers(self) -> dict[str, list[Fact]]:
        """What sees wrong definitions, in an order by chance."""
        groups: dict[str, Sequence[Fact]] = {
            "setups": self.setups, "codes": self.codes, "successors": self.successors,
            "keys": self.keys, "plays": self.plays + self.beside, "games": self.games.each(),
            "texts": self.texts, "starts": self.checked}
        return {seer: self.chance.sample(facts, len(facts)) for seer, facts in groups.items()}


# ---- all of it


def tell(name: str, facts: Sequence[Fact]) -> int:
    """Tells what is wrong of these, and how many are."""
    failed = 0
    for fact in facts:
        complaint = fact.complaint()
        if complaint:
            failed += 1
            if failed <= 5:
                print(f"    FAIL {name}: {fact}: {complaint}")
    print(f"{name}: {len(facts) - failed:,} of {len(facts):,}", flush=True)
    return failed


def seen(wrong: chess_wrong.Wrong, facts: Sequence[Fact]) -> int:
    """How many answers are looked at until the wrong definition is seen, or 0."""
    with chess_wrong.made(wrong):
        pseudo_legal.cache_clear()
        legal.cache_clear()
        return next((n for n, fact in enumerate(facts, 1) if fact.complaint()), 0)


def tell_wrong(groups: dict[str, list[Fact]]) -> tuple[int, int]:
    """Tells which wrong definitions aren't seen: how many there are, and how many aren't. Moves
    from empty squares and of the other side aren't tried again."""
    global tried
    tried = own_moves
    unseen = 0
    for wrong in chess_wrong.WRONG:
        if not seen(wrong, groups[wrong.seen_in]):
            print(f"    FAIL {wrong.what} ({wrong.name}): not seen in {wrong.seen_in}")
            unseen += 1
    print(f"wrong definitions that are seen: {len(chess_wrong.WRONG) - unseen}"
          f" of {len(chess_wrong.WRONG)}")
    return len(chess_wrong.WRONG), unseen


def tell_followed(specs: Specs) -> tuple[int, int]:
    """Tells which definitions aren't followed: how many there are, and how many aren't. A change of
    any text has to be seen, and a definition that is new."""
    followed = table()
    complaints = list(unfollowed(specs, followed))
    behind = behind_seeds(specs) if not complaints else {}
    for name, own in behind.items():
        own.lines.append("now")
        changed = list(unfollowed(specs, followed))
        own.lines.pop()
        new = list(unfollowed(specs, {n: followed[n] for n in followed if n != name}))
        if [complaint.split()[0] for complaint in changed + new] != [name, name]:
            complaints.append(f"{name}: a change of its text isn't seen, or that it is new")
    for complaint in complaints:
        print(f"    FAIL {complaint}")
    print(f"definitions that are followed: {len(behind)}", flush=True)
    return max(len(behind), 1), len(complaints)


def main() -> None:
    words = argparse.ArgumentParser(
        description=__doc__, formatter_class=argparse.RawDescriptionHelpFormatter)
    for name, number in ("seed", 1), ("seconds", 20):
        words.add_argument("--" + name, type=int, default=number)
    words.add_argument("--times", type=float, default=1)
    words.add_argument("--crates", default="crates")
    words.add_argument("--write", action="store_true")
    given = words.parse_args()
    specs = Specs(pathlib.Path(given.crates))
    if given.write:
        write(specs)
        return
    if not chess_programs.STOCKFISH:
        sys.exit("not tried, Stockfish is wanted: definitions")
    if not os.access(chess_programs.PROGRAM, os.X_OK):
        sys.exit(f"not tried, no program stands at {chess_programs.PROGRAM}: definitions")
    os.environ.setdefault("ASAN_OPTIONS", "detect_leaks=0")
    count, failed = tell_followed(specs)
    with tempfile.TemporaryDirectory() as place:
        asked = Asked(given, place)
    told_by = [f for f in asked.setups if f.stockfish is not None]
    whole = [f for f in asked.setups if f.all_codes is not None]
    print(f"{len(told_by):,} setups beside Stockfish, {len(whole):,} of {len(asked.setups):,} with"
          f" all {len(chess_programs.CODES):,} moves on the program", flush=True)
    for name, facts in asked.facts().items():
        count += len(facts)
        failed += tell(name, facts)
    if given.times >= 1:
        wrong, unseen = tell_wrong(asked.seers())
        count, failed = count + wrong, failed + unseen
    print(f"{chess_programs.processor_time():.0f} s of a processor")
    print(f"{count - failed:,} passed, {failed:,} failed")
    sys.exit(failed > 0)


if __name__ == "__main__":
    main()
