"""Setups to try definitions on: those along random games, and strange ones."""
from __future__ import annotations

import random
from collections.abc import Callable, Iterator
from typing import Optional

from lib import chess
from lib.chess import (Black, COLOURS, King, KINDS, Knight, Moved, Pawn, Piece, Place, Position,
                       Queen, Record, Rights, Rook, SQUARES, White, piece_of)

BACK = (Rook, Knight, chess.Bishop, Queen, King, chess.Bishop, Knight, Rook)
START = Position((*(piece_of(White, kind) for kind in BACK), *[piece_of(White, Pawn)] * 8,
                  *[None] * 32, *[piece_of(Black, Pawn)] * 8,
                  *(piece_of(Black, kind) for kind in BACK)), White, Rights(*[True] * 4), None)
# All that is tried as a move: from a square to a square, promoting to nothing or a piece.
MOVES = tuple(Moved(a, b, promo) for a in SQUARES for b in SQUARES
              for promo in (None, Knight, chess.Bishop, Rook, Queen))

# What plays a game: the legal moves of a setup.
Lister = Callable[[Position], list[Moved]]


def weight(s: Position, m: Moved) -> int:
    """How often a random game takes the move: seldom moves are taken more often."""
    p = s.board[m.from_]
    assert p
    if p.kind == King:
        return 60 if chess.files_apart(m.from_, m.to) == 2 else 1
    if m.promo:
        return 8
    if p.kind == Pawn:
        return 60 if m.to == s.ep else 12 if chess.ranks_apart(m.from_, m.to) == 2 else 3
    return 3


def game(chance: random.Random, start: Record, plies: int,
         legal: Lister) -> Iterator[tuple[Record, Optional[Moved]]]:
    """The records along a random game, each with the move that is played there, if any."""
    record = start
    for ply in range(plies):
        moves = legal(record.setup) if ply < plies - 1 else []
        if not moves:
            break
        weights = [weight(record.setup, m) for m in moves]
        move = chance.choices(moves, weights)[0]
        yield record, move
        record = chess.record_after(record, move)
    yield record, None


def is_stepped(s: Position) -> bool:
    """Whether the last move may have been a double step over the en passant square: the pawn goes
    back over empty squares to a setup that is playable."""
    if s.ep is None:
        return True
    landed = chess.double_stepped(s.turn, s.ep)
    begun = 2 * s.ep - landed
    back = chess.slice_set(chess.slice_set(s.board, begun, s.board[landed]), landed, None)
    return s.board[begun] is None and chess.IsPlayable(
        Position(back, chess.opponent(s.turn), s.rights, None))


# ---- strange ones


def some_rights(chance: random.Random) -> Rights:
    return Rights(*(chance.random() < 0.6 for _ in range(4)))


def en_passant_squares(board: tuple[Place, ...], turn: str) -> list[int]:
    return [q for q in SQUARES if chess.EnPassantHolds(board, turn, q)]


def finished(chance: random.Random, board: dict[int, Piece],
             rights: Optional[Rights] = None) -> Position:
    """A setup of these pieces, with a turn, rights and perhaps an en passant square by chance."""
    places = tuple(board.get(q) for q in SQUARES)
    turn = chance.choice(COLOURS)
    squares = en_passant_squares(places, turn)
    ep = chance.choice(squares) if squares and chance.random() < 0.8 else None
    return Position(places, turn, some_rights(chance) if rights is None else rights, ep)


def put(chance: random.Random, board: dict[int, Piece], piece: Piece,
        squares: Optional[list[int]] = None) -> None:
    """Puts the piece on one of these squares, or anywhere, that is free. No pawn stands on rank 1
    or 8."""
    free = [q for q in squares or SQUARES if q not in board
            and (piece.kind != Pawn or 0 < chess.rank(q) < 7)]
    if free:
        board[chance.choice(free)] = piece


def any_piece(chance: random.Random) -> Piece:
    return piece_of(chance.choice(COLOURS), chance.choice((Pawn, Pawn, *KINDS[1:5])))


def with_kings(chance: random.Random) -> dict[int, Piece]:
    board: dict[int, Piece] = {}
    for side in COLOURS:
        put(chance, board, piece_of(side, King))
    return board


def pieces(least: int, most: int) -> Callable[[random.Random], Position]:
    """Makes setups of kings and so many other pieces."""
    def make(chance: random.Random) -> Position:
        board = with_kings(chance)
        for _ in range(chance.randint(least, most)):
            put(chance, board, any_piece(chance))
        return finished(chance, board)
    return make


def many_promoted(chance: random.Random) -> Position:
    """More officers than a side begins with, and pawns about to be promoted."""
    board = with_kings(chance)
    for side, first in (White, 48), (Black, 8):
        for _ in range(chance.randrange(0, 4)):
            put(chance, board, piece_of(side, Pawn), list(range(first, first + 8)))
        for _ in range(chance.randrange(2, 12)):
            put(chance, board, piece_of(side, chance.choice(KINDS[1:5])))
    return finished(chance, board)


def before_castling(chance: random.Random) -> Position:
    """Kings and rooks at home, or nearly so, and few pieces in the way."""
    board: dict[int, Piece] = {}
    for side, first in (White, 0), (Black, 56):
        home = first + 4 if chance.random() < 0.8 else chance.choice(SQUARES)
        if home in board:
            home = first + 4
        board[home] = piece_of(side, King)
        for corner in (home - 4) % 64, (home + 3) % 64:
            if corner not in board and chance.random() < 0.85:
                other = chance.random() < 0.1
                kind = chance.choice(KINDS[1:5]) if other else Rook
                board[corner] = piece_of(chess.opponent(side) if other else side, kind)
    for _ in range(chance.randrange(0, 8)):
        put(chance, board, any_piece(chance))
    return finished(chance, board, Rights(*(chance.random() < 0.8 for _ in range(4))))


def before_en_passant(chance: random.Random) -> Position:
    """A pawn as after a double step, pawns beside it, and what may be pinned there."""
    turn = chance.choice(COLOURS)
    landed = (32 if turn == White else 24) + chance.randrange(8)
    board = {landed: piece_of(chess.opponent(turn), Pawn)}
    for q in landed - 1, landed + 1:
        if chess.rank(q) == chess.rank(landed) and chance.random() < 0.7:
            board[q] = piece_of(turn, Pawn)
    row = [8 * chess.rank(landed) + n for n in range(8)]
    put(chance, board, piece_of(turn, King), row if chance.random() < 0.5 else None)
    put(chance, board, piece_of(chess.opponent(turn), King))
    for _ in range(chance.randrange(1, 6)):
        put(chance, board, any_piece(chance), row if chance.random() < 0.3 else None)
    places = tuple(board.get(q) for q in SQUARES)
    over = landed + (8 if turn == White else -8)
    ep = over if chess.EnPassantHolds(places, turn, over) else None
    return Position(places, turn, some_rights(chance), ep)


def spoiled(chance: random.Random, s: Position) -> Position:
    """A setup of a game with other rights, en passant square, turn or pieces."""
    board = {q: place for q, place in enumerate(s.board) if place}
    for _ in range(chance.randrange(0, 4)):
        q = chance.choice(SQUARES)
        if q not in board:
            put(chance, board, any_piece(chance), [q])
        elif board[q].kind != King:
            del board[q]
    return finished(chance, board)


# How many are made of each.
STRANGE = ((pieces(1, 8), 100), (pieces(10, 49), 100), (many_promoted, 100), (before_castling, 300),
           (before_en_passant, 200))


def clocks(chance: random.Random) -> tuple[int, int]:
    """Clocks of a record, now and then near their ends."""
    half = chance.choice((0, 1, chance.randrange(200), 65534, 65535))
    return half, chance.choice((1, chance.randrange(1, 300), 65534, 65535))


# ---- defective records


def unruly(chance: random.Random, f: Record) -> bytes:
    """A record of a setup that may break each rule: with kings more or less, pawns on rank 1 or 8,
    and any en passant square, which may be taken."""
    s = f.setup
    board = list(s.board)
    for _ in range(chance.randrange(1, 3)):
        how = chance.randrange(4)
        q = chance.choice((*range(8), *range(56, 64))) if how < 2 else chance.choice(SQUARES)
        if how == 3 and s.ep is not None:
            q = chance.choice((s.ep, chess.double_stepped(s.turn, s.ep)))
        kind = Pawn if how < 2 else chance.choice((King, Pawn))
        board[q] = piece_of(chance.choice(COLOURS), kind)
        if chance.random() < 0.3:
            board[chance.choice(SQUARES)] = None
    row = 40 if s.turn == White else 16
    ep = chance.choice((s.ep, s.ep, row + chance.randrange(8), chance.choice(chess.PLACES)))
    return chess.fen_text(Record(Position(tuple(board), s.turn, s.rights, ep), f.half, f.full))


def defective(chance: random.Random, f: Record) -> bytes:
    """The text of a record with one or two defects, or what may be taken for one."""
    text = chess.fen_text(f)
    for _ in range(chance.choice((1, 1, 2))):
        text = chance.choice(DEFECTS)(chance, text)
    return text


def changed_field(number: int, texts: tuple[bytes, ...]) -> Callable[[random.Random, bytes], bytes]:
    """Puts one of these texts in the place of the field of this number."""
    def change(chance: random.Random, text: bytes) -> bytes:
        parts = text.split(b" ")
        if number < len(parts):
            parts[number] = chance.choice(texts)
        return b" ".join(parts)
    return change


def changed_byte(chance: random.Random, text: bytes) -> bytes:
    """Changes, adds or drops a byte anywhere."""
    at = chance.randrange(len(text) + 1)
    new = chance.choice((b"", bytes([chance.choice(b"pPnNbBrRqQkK0123456789/ -wbKQkqaeh.")])))
    return text[:at] + new + text[at + chance.randrange(2):]


def moved_parts(chance: random.Random, parts: list[bytes]) -> list[bytes]:
    """Drops, doubles or swaps parts."""
    a, b = chance.randrange(len(parts)), chance.randrange(len(parts))
    how = chance.randrange(3)
    if how == 0:
        parts[a], parts[b] = parts[b], parts[a]
    elif how == 1:
        del parts[a]
    else:
        parts.insert(a, parts[b])
    return parts


def changed_fields(chance: random.Random, text: bytes) -> bytes:
    """Drops, doubles or swaps fields, or adds an empty one."""
    parts = text.split(b" ")
    if chance.random() < 0.25:
        parts.insert(chance.randrange(len(parts)), b"")
        return b" ".join(parts)
    return b" ".join(moved_parts(chance, parts))


def changed_ranks(chance: random.Random, text: bytes) -> bytes:
    """Changes the ranks of a placement: their order, their number, and how empty squares stand."""
    placement, _, others = text.partition(b" ")
    ranks = placement.split(b"/")
    if chance.random() < 0.5:
        ranks = moved_parts(chance, ranks)
    else:
        a = chance.randrange(len(ranks))
        ranks[a] = chance.choice((chance.choice(RANK_TEXTS), ranks[a].swapcase(), chance.choice((
            ranks[a].replace(b"k", b"K"), ranks[a].replace(b"K", b"q")))))
    return b"/".join(ranks) + b" " + others


RANK_TEXTS = (b"8", b"44", b"9", b"7", b"0", b"08", b"", b"kK6", b"pppppppp", b"PPPPPPPPP", b"3PP3",
              b"1111Q3", b"71", b"8p")
SQUARE_TEXTS = tuple(b"%c%c" % (a, b) for a in b"abcdefgh" for b in b"3645")
NUMBER_TEXTS = (b"00", b"01", b"+1", b"-1", b"65535", b"65536", b"65537", b"99999", b"100000", b"",
                b"1.", b"x", b"0x1", b"4294967297", b"18446744073709551617", b"6553", b"0", b"1")
DEFECTS = (
    changed_byte, changed_byte, changed_fields, changed_ranks, changed_ranks,
    changed_field(1, (b"w", b"b", b"W", b"B", b"", b"-", b"wb", b"white")),
    changed_field(2, (b"QK", b"KQqk", b"KK", b"", b"--", b"KQkq-", b"HAha", b"kqKQ", b"K", b"kq",
                      b"k", b"Qk", b"KQkqK", b"-")),
    changed_field(3, (*SQUARE_TEXTS, b"e", b"e9", b"i6", b"E6", b"e6e6", b"", b"--", b"-")),
    changed_field(4, NUMBER_TEXTS),
    changed_field(5, NUMBER_TEXTS),
)
