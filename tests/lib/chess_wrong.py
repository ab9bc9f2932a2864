"""Definitions of tests/lib/chess.py that are made wrong, each in one way, and who sees it."""
from __future__ import annotations

from collections.abc import Callable, Iterator
from contextlib import contextmanager
from dataclasses import dataclass
from functools import partial
from typing import Any

from lib import chess
from lib.chess import Black, King, Knight, Moved, Pawn, Position, Rook, White


@dataclass(frozen=True)
class Wrong:
    """What is said wrong in the place of a definition, and in which answers it is seen."""
    what: str
    name: str
    # What is called in its place, with what is right before its own arguments; or what makes its
    # value of that.
    make: Callable[..., Any]
    seen_in: str


@contextmanager
def made(wrong: Wrong) -> Iterator[None]:
    """The definition is wrong for so long."""
    right = getattr(chess, wrong.name)
    is_call = callable(right)
    setattr(chess, wrong.name, partial(wrong.make, right) if is_call else wrong.make(right))
    forget()
    try:
        yield
    finally:
        setattr(chess, wrong.name, right)
        forget()


def forget() -> None:
    for value in vars(chess).values():
        if hasattr(value, "cache_clear"):
            value.cache_clear()


def castles_without(part: str) -> Callable[..., bool]:
    """Castling of which one part isn't asked."""
    def castles(_right: Any, s: Position, m: Moved) -> bool:
        def attacked(q: int) -> bool:
            return chess.IsAttacked(s.board, chess.opponent(s.turn), q)
        parts = {
            "goes": lambda: chess.is_castling(s.turn, m),
            "right": lambda: chess.has_right(s.rights, s.turn, m.from_ < m.to),
            "rook": lambda: chess.Holds(s.board, chess.rook_home(m), chess.piece_of(s.turn, Rook)),
            "way": lambda: chess.Clear(s.board, m.from_, m.to) and chess.IsEmpty(s.board, m.to),
            "whole way": lambda: chess.Clear(s.board, m.from_, chess.rook_home(m)),
            "unchecked": lambda: not attacked(m.from_),
            "crosses": lambda: not attacked(chess.middle(m))}
        return all(holds() for name, holds in parts.items() if name != part)
    return castles


def pushes(s: Position, m: Moved, *, first: bool, way: bool) -> bool:
    return (chess.file(m.to) == chess.file(m.from_)
            and (chess.IsForward(s.turn, 1, m.from_, m.to)
                 or ((chess.rank_for(s.turn, m.from_) == 1 or not first)
                     and chess.IsForward(s.turn, 2, m.from_, m.to)))
            and (chess.Clear(s.board, m.from_, m.to) or not way)
            and chess.IsEmpty(s.board, m.to))


def only_with_capturer(right: Any, s: Position, m: Moved) -> Position:
    t = right(s, m)
    has = t.ep is not None and chess.has_capturer(
        t.board, t.turn, chess.double_stepped(t.turn, t.ep))
    return t._replace(ep=t.ep if has else None)


def keeping_en_passant(right: Any, s: Position, m: Moved) -> Position:
    t = right(s, m)
    return t._replace(ep=s.ep if t.ep is None else t.ep)


def capturer_over_the_edge(_right: Any, board: chess.Board, turn: str, q: int) -> bool:
    return any(chess.is_piece(chess.pawn_of(turn), chess.at(board, beside))
               for beside in (q - 1, q + 1))


def two_of(parts: tuple[str, ...], a: str, b: str) -> tuple[str, ...]:
    """The same, with these two in each other's place."""
    swapped = {a: b, b: a}
    return tuple(swapped.get(part, part) for part in parts)


def pseudo_legal_unpromoted(_right: Any, s: Position, m: Moved) -> bool:
    return any(chess.IsMove(m) and chess.MayGo(s, m, kind)
               and (m.promo is None or (kind == Pawn and chess.rank_for(s.turn, m.to) == 7))
               for kind in chess.kinds_of(chess.at(s.board, m.from_), s.turn))


# By who sees it: what is said wrong, of which definition, and how.
BY_SEERS: dict[str, tuple[tuple[str, str, Callable[..., Any]], ...]] = {
    "setups": (
        # ---- legal moves
        ("a knight goes one and three", "Pattern",
         lambda right, kind, a, b: a * b == 3 if kind == Knight else right(kind, a, b)),
        ("a rook goes like a queen", "Pattern",
         lambda right, kind, a, b: right("Queen" if kind == Rook else kind, a, b)),
        ("pieces jump", "Clear", lambda right, board, a, b: True),
        ("what lies between needn't be on the line", "IsBetween",
         lambda right, a, q, b: q not in (a, b)
         and chess.files_apart(a, q) + chess.files_apart(q, b) == chess.files_apart(a, b)
         and chess.ranks_apart(a, q) + chess.ranks_apart(q, b) == chess.ranks_apart(a, b)),
        ("pawns go both ways", "IsForward",
         lambda right, side, n, a, b: abs(chess.rank(b) - chess.rank(a)) == n),
        ("pawns go two ranks from anywhere", "Pushes",
         lambda right, s, m: pushes(s, m, first=False, way=True)),
        ("pawns jump", "Pushes", lambda right, s, m: pushes(s, m, first=True, way=False)),
        ("pawns needn't be promoted", "PseudoLegal", pseudo_legal_unpromoted),
        ("nothing is taken en passant", "MayLand",
         lambda right, s, kind, q: right(s._replace(ep=None), kind, q)),
        ("every piece takes en passant, and so passes over no piece", "MayLand",
         lambda right, s, kind, q: chess.IsCapturable(s, q) or s.ep == q),
        ("own pieces are taken", "IsCapturable",
         lambda right, s, q: s.board[q] is not None and s.board[q].kind != King),
        ("kings are taken", "IsCapturable",
         lambda right, s, q: s.board[q] is not None and s.board[q].colour != s.turn),
        ("the mover may be in check", "Legal", lambda right, s, m: chess.PseudoLegal(s, m)),
        ("only the first half of the board attacks", "IsAttacked",
         lambda right, board, side, q: right(board[:32], side, q)),
        ("castling from anywhere", "is_castling",
         lambda right, side, m: m.to in (m.from_ + 2, m.from_ - 2)),
        ("castling from the other home", "king_home",
         lambda right, side: right(chess.opponent(side))),
        ("castling by three files", "is_castling",
         lambda right, side, m: m.from_ == chess.king_home(side)
         and m.to in (m.from_ + 2, m.from_ - 3)),
        ("castling without the right", "Castles", castles_without("right")),
        ("castling with the other right", "has_right",
         lambda right, r, side, is_short: right(r, side, not is_short)),
        ("castling without the rook", "Castles", castles_without("rook")),
        ("castling over a piece beside the rook", "Castles", castles_without("whole way")),
        ("castling out of check", "Castles", castles_without("unchecked")),
        ("castling through check", "Castles", castles_without("crosses")),
        # ---- keys, codes and words
        ("each en passant square is in the key", "has_capturer",
         lambda right, board, turn, q: True),
        ("a pawn beyond the edge captures", "has_capturer", capturer_over_the_edge),
        ("a pawn of either side captures", "has_capturer",
         lambda right, board, turn, q: right(board, turn, q)
         or right(board, chess.opponent(turn), q)),
        ("rights are in the key in another order", "of_rights",
         lambda right, r, a, b, c, d: right(r, b, a, c, d)),
        ("Black to move is in the key", "offsets", lambda right, s: tuple({*right(s)} ^ {780})),
        ("white pieces come first", "piece_number",
         lambda right, p: 2 * chess.kind_number(p.kind) + chess.colour_number(p.colour)),
        ("castling is coded as e1g1", "encoded_to", lambda right, s, m: m.to),
        ("promotions are coded by other numbers", "kind_number",
         lambda right, kind: {"Knight": 2, "Bishop": 1}.get(kind, right(kind))),
        ("a word names the other square first", "spelling",
         lambda right, m: right(m._replace(from_=m.to, to=m.from_))),
        ("a promotion's letter is a capital", "piece_of",
         lambda right, side, kind: chess.Piece(
             White if side == Black and kind == "Queen" else side, kind))),
    "codes": (
        ("a pawn becomes a king", "IsMove",
         lambda right, m: right(m._replace(promo=None)) and m.promo != Pawn),),
    # ---- setups and records after moves
    "plays": (
        ("the en passant square is kept", "after", keeping_en_passant),
        ("the en passant square is where the pawn has landed", "middle", lambda right, m: m.to),
        ("the turn stays", "after", lambda right, s, m: right(s, m)._replace(turn=s.turn)),
        ("rights stay when the rook is taken", "touches",
         lambda right, m, king, rook: m.from_ in (king, rook)),
        ("rights stay when the king moves", "touches",
         lambda right, m, king, rook: rook in (m.from_, m.to)),
        ("the rook stays at castling", "besides", lambda right, board, m, side, kind:
         () if kind == King else right(board, m, side, kind)),
        ("the pawn stays that is taken en passant", "besides", lambda right, board, m, side, kind:
         () if kind == Pawn else right(board, m, side, kind)),
        ("pawns stay pawns", "changes",
         lambda right, board, m, p: right(board, m._replace(promo=None), p)),
        ("the square that is left keeps its piece", "changes",
         lambda right, board, m, p: right(board, m, p)[1:]),
        ("captures don't reset the clock", "resets", lambda right, s, m: chess.is_piece(
            chess.pawn_of(s.turn), chess.at(s.board, m.from_))),
        ("the number rises after White's move", "full_after",
         lambda right, side, full: right(chess.opponent(side), full)),
        ("clocks pass 65,535", "one_more", lambda right, n: n + 1)),
    "games": (
        ("the en passant square is set only where a pawn may take", "after", only_with_capturer),),
    "successors": (
        ("other squares may change", "Differs",
         lambda right, old, new, now: all(chess.at(new, q) == p for q, p in now)),),
    "keys": (
        ("a pawn anywhere on the rank captures", "HasCapturer", lambda right, s, q: any(
            chess.Holds(s.board, a, chess.pawn_of(s.turn)) for a in chess.SQUARES
            if chess.rank(a) == chess.rank(chess.double_stepped(s.turn, q)))),
        ("a key says nothing of its last bit", "bit_at",
         lambda right, n, bit: right(n, bit) if bit < 63 else 0)),
    # ---- records and their texts
    "texts": (
        ("an empty square is a 1", "empty_squares", lambda right, n: b"1" * n),
        ("nine squares in a rank", "rank_text",
         lambda right, n, squares: right(n, squares) + b"1" * (len(squares) == 7)),
        ("ranks from the first one", "placement_text",
         lambda right, board: b"/".join(right(board).split(b"/")[::-1])),
        ("rights from Black's on", "castling_text",
         lambda right, r: bytes(sorted(right(r), reverse=True))),
        ("no dash for no rights", "castling_text", lambda right, r: right(r).replace(b"-", b"")),
        ("two kings of a side", "IsOnlyKing", lambda right, board, side, q: chess.Holds(
            board, q, chess.piece_of(side, King))),
        ("pawns on rank 1", "HasNoEdgePawn",
         lambda right, board: right((None,) * 8 + board[8:])),
        ("pawns on rank 8", "HasNoEdgePawn", lambda right, board: right(board[:56])),
        ("an en passant square of the wrong rank", "OnEnPassantRank",
         lambda right, turn, q: chess.rank(q) in (2, 5)),
        ("an en passant square without its pawn", "EnPassantHolds",
         lambda right, board, turn, ep: ep is None or (
             chess.OnEnPassantRank(turn, ep) and chess.IsEmpty(board, ep))),
        ("an en passant square that is taken", "IsEmpty", lambda right, board, q: True),
        ("clocks of a record pass 65,535", "IsRecord",
         lambda right, f: chess.IsSetup(f.setup) and 0 < f.full),
        ("the move of a record may be number 0", "IsRecord",
         lambda right, f: right(f._replace(full=f.full or 1))),
        ("pawns are looked for before kings", "fen_errors",
         lambda right: two_of(right, "Kings", "Pawns")),
        ("clocks are looked for before rights", "fen_errors",
         lambda right: two_of(right, "Half", "Castling")),
        ("numbers with zeros before them", "decimal", lambda right, n: b"%02d" % n),
        ("other words of refusals", "word_of",
         lambda right, error: {"Pawns": b"kings"}.get(error, right(error))),
        ("each refusal that is due", "IsFirstOf", lambda right, errors, due, e: due(e))),
    "starts": (
        ("a setup is playable where the mover isn't in check", "IsPlayable",
         lambda right, s: not chess.InCheck(s.board, s.turn)),)}
WRONG = tuple(Wrong(*wrong, seer) for seer, wrongs in BY_SEERS.items() for wrong in wrongs)
