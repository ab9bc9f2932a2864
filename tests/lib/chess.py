"""What the definitions of chess, FEN, keys and codes say, a function for each, named as it is
there.

They follow crates/pb_board/specs, pb_moves/specs and pb_poly/specs word by word, and nothing of the
code. A list is a tuple, and bytes where it is a text. What is said of every number, square or move
is tried for those that matter: nothing stands off the board. The parts of an `and` stand in the
order that is quickest to try. What a definition asks for and doesn't make, such as a board that is
spelt so, comes from a function at the end of this file.
"""
from __future__ import annotations

from collections.abc import Callable, Sequence
from functools import cache, reduce
from typing import NamedTuple, Optional

White, Black = COLOURS = ("White", "Black")
Pawn, Knight, Bishop, Rook, Queen, King = KINDS = (
    "Pawn", "Knight", "Bishop", "Rook", "Queen", "King")
SQUARES = range(64)


class Piece(NamedTuple):
    colour: str
    kind: str


class Rights(NamedTuple):
    white_short: bool
    white_long: bool
    black_short: bool
    black_long: bool


# ---- pb_board.Piece


def opponent(side: str) -> str:
    return Black if side == White else White


@cache
def piece_of(side: str, kind: str) -> Piece:
    return Piece(side, kind)


def pawn_of(side: str) -> Piece:
    return Piece(side, Pawn)


def colour_number(side: str) -> int:
    return {White: 0, Black: 1}[side]


def kind_number(kind: str) -> int:
    return {Pawn: 0, Knight: 1, Bishop: 2, Rook: 3, Queen: 4, King: 5}[kind]


@cache
def piece_number(p: Piece) -> int:
    return 2 * kind_number(p.kind) + monus(1, colour_number(p.colour))


# ---- pb_board.Board

Place = Optional[Piece]
Board = tuple[Place, ...]


def file(square: int) -> int:
    return square % 8


def rank(square: int) -> int:
    return square // 8


def rank_for(side: str, square: int) -> int:
    return rank(square) if side == White else monus(7, rank(square))


def at(board: Board, square: int) -> Place:
    return board[square] if square < len(board) else None


def Holds(board: Board, square: int, piece: Piece) -> bool:
    return at(board, square) == piece


def IsEmpty(board: Board, square: int) -> bool:
    return at(board, square) is None


def IsForward(side: str, n: int, a: int, b: int) -> bool:
    return rank(b) == rank(a) + n if side == White else rank(a) == rank(b) + n


def is_piece(piece: Piece, place: Place) -> bool:
    return place is not None and piece_number(place) == piece_number(piece)


# ---- pb_board.Position


class Position(NamedTuple):
    board: Board
    turn: str
    rights: Rights
    ep: Optional[int]


def IsOnlyKing(board: Board, side: str, king: int) -> bool:
    return all(Holds(board, q, piece_of(side, King)) == (q == king) for q in SQUARES)


def HasKings(board: Board) -> bool:
    return all(any(IsOnlyKing(board, side, king)
                   for king in squares_of(board, piece_of(side, King)))
               for side in COLOURS)


def HasNoEdgePawn(board: Board) -> bool:
    return all(0 < rank(q) < 7 for side in COLOURS
               for q in squares_of(board, piece_of(side, Pawn)))


def double_stepped(side: str, q: int) -> int:
    return monus(q, 8) if side == White else q + 8


def OnEnPassantRank(turn: str, q: int) -> bool:
    return rank_for(turn, q) == 5


def EnPassantHolds(board: Board, turn: str, ep: Optional[int]) -> bool:
    return ep is None or (OnEnPassantRank(turn, ep) and IsEmpty(board, ep)
                          and Holds(board, double_stepped(turn, ep), piece_of(opponent(turn), Pawn)))


def IsSetup(p: Position) -> bool:
    return (len(p.board) == 64 and HasKings(p.board) and HasNoEdgePawn(p.board)
            and EnPassantHolds(p.board, p.turn, p.ep))


class Record(NamedTuple):
    setup: Position
    half: int
    full: int


def IsRecord(f: Record) -> bool:
    return IsSetup(f.setup) and f.half < 2 ** 16 and 0 < f.full and f.full < 2 ** 16


# ---- pb_board.Rights


def only_if(flag: bool, n: int) -> tuple[int, ...]:
    return (n,) if flag else ()


def of_rights(r: Rights, a: int, b: int, c: int, d: int) -> tuple[int, ...]:
    return (only_if(r.white_short, a) + only_if(r.white_long, b)
            + only_if(r.black_short, c) + only_if(r.black_long, d))


# ---- pb_board.Fields


def field(parts: Sequence[bytes], i: int) -> bytes:
    return parts[i] if i < len(parts) else b""


# ---- pb_board.Text


def piece_letter(p: Piece) -> int:
    return b"pPnNbBrRqQkK"[piece_number(p)]


def empty_squares(n: int) -> bytes:
    return bytes(only_if(not n == 0, 48 + n))


@cache
def rank_text(n: int, squares: Board) -> bytes:
    if not squares:
        return empty_squares(n)
    first, others = squares[0], squares[1:]
    if first is None:
        return rank_text(n + 1, others)
    return empty_squares(n) + bytes([piece_letter(first)]) + rank_text(0, others)


def placement_text(board: Board) -> bytes:
    return join_with_byte(47, [rank_text(0, board[8 * r:][:8]) for r in (7, 6, 5, 4, 3, 2, 1, 0)])


def turn_text(side: str) -> bytes:
    return b"w" if side == White else b"b"


def castling_text(r: Rights) -> bytes:
    letters = of_rights(r, 75, 81, 107, 113)
    return b"-" if len(letters) == 0 else bytes(letters)


def square_text(q: int) -> bytes:
    return bytes([97 + file(q), 49 + rank(q)])


def en_passant_text(ep: Optional[int]) -> bytes:
    return b"-" if ep is None else square_text(ep)


def setup_fields(p: Position) -> list[bytes]:
    return [placement_text(p.board), turn_text(p.turn), castling_text(p.rights),
            en_passant_text(p.ep)]


def setup_text(p: Position) -> bytes:
    return join_with_byte(32, setup_fields(p))


def fen_text(f: Record) -> bytes:
    return join_with_byte(32, setup_fields(f.setup) + [decimal(f.half), decimal(f.full)])


# ---- pb_board.Refusal and pb_board.Words. An error is its name.


def IsFirstOf(errors: Sequence[str], due: Callable[[str], bool], e: str) -> bool:
    return any(d == e and due(e) and not any(due(b) for b in errors[:i])
               for i, d in enumerate(errors))


def SpellsBoard(parts: Sequence[bytes], board: Board) -> bool:
    return len(board) == 64 and field(parts, 0) == placement_text(board)


def SpellsSquare(parts: Sequence[bytes], turn: str, ep: Optional[int]) -> bool:
    return (field(parts, 1) == turn_text(turn) and field(parts, 3) == en_passant_text(ep)
            and (ep is None or OnEnPassantRank(turn, ep)))


def IsDueFen(parts: Sequence[bytes], error: str) -> bool:
    if error == "Fields":
        return len(parts) != 6
    if error == "Placement":
        return not any(SpellsBoard(parts, board) for board in boards_for(parts))
    if error == "Turn":
        return all(field(parts, 1) != turn_text(turn) for turn in COLOURS)
    if error == "Castling":
        return all(field(parts, 2) != castling_text(rights) for rights in all_rights())
    if error == "EnPassantText":
        return not any(SpellsSquare(parts, turn, ep) for turn in COLOURS for ep in PLACES)
    if error == "Half":
        return all(field(parts, 4) != decimal(n) for n in numbers_for(field(parts, 4))
                   if n < 2 ** 16)
    if error == "Full":
        return all(field(parts, 5) != decimal(n) for n in numbers_for(field(parts, 5))
                   if 0 < n < 2 ** 16)
    spelled = [board for board in boards_for(parts) if SpellsBoard(parts, board)]
    if error == "Kings":
        return all(not HasKings(board) for board in spelled)
    if error == "Pawns":
        return all(not HasNoEdgePawn(board) for board in spelled)
    assert error == "EnPassantPawn"
    return all(not EnPassantHolds(board, turn, ep) for board in spelled for turn in COLOURS
               for ep in PLACES if SpellsSquare(parts, turn, ep))


fen_errors = ("Fields", "Placement", "Turn", "Castling", "EnPassantText", "Half", "Full", "Kings",
              "Pawns", "EnPassantPawn")


def word_of(error: str) -> bytes:
    return {"Fields": b"fields", "Placement": b"placement", "Turn": b"turn",
            "Castling": b"castling", "EnPassantText": b"ep-text", "Half": b"half",
            "Full": b"full", "Kings": b"kings", "Pawns": b"pawns",
            "EnPassantPawn": b"ep-pawn"}[error]


# ---- pb_moves.Moved and pb_moves.Spelling


class Moved(NamedTuple):
    from_: int
    to: int
    promo: Optional[str]


def IsPromotion(kind: str) -> bool:
    return kind != Pawn and kind != King


def IsMove(m: Moved) -> bool:
    return (m.from_ < 64 and m.to < 64 and m.from_ != m.to
            and (m.promo is None or IsPromotion(m.promo)))


def spelling(m: Moved) -> bytes:
    return square_text(m.from_) + square_text(m.to) + bytes(
        piece_letter(piece_of(Black, kind)) for kind in option_to_list(m.promo))


# ---- pb_moves.Attacks


@cache
def files_apart(a: int, b: int) -> int:
    return abs(file(a) - file(b))


@cache
def ranks_apart(a: int, b: int) -> int:
    return abs(rank(a) - rank(b))


@cache
def Pattern(kind: str, files: int, ranks: int) -> bool:
    if kind == Pawn:
        return files == 1 and ranks == 1
    if kind == Knight:
        return files * ranks == 2
    if kind == Bishop:
        return files == ranks and 0 < files
    if kind == Rook:
        return files * ranks == 0 and 0 < files + ranks
    if kind == Queen:
        return (files == ranks or files * ranks == 0) and 0 < files + ranks
    return max(files, ranks) == 1


def IsBetween(a: int, q: int, b: int) -> bool:
    return (q != a and q != b
            and files_apart(a, q) + files_apart(q, b) == files_apart(a, b)
            and ranks_apart(a, q) + ranks_apart(q, b) == ranks_apart(a, b)
            and files_apart(a, q) * ranks_apart(a, b) == ranks_apart(a, q) * files_apart(a, b))


def Clear(board: Board, a: int, b: int) -> bool:
    for q in squares_between(a, b):
        if not IsEmpty(board, q):
            return False
    return True


def Attacks(side: str, kind: str, board: Board, a: int, b: int) -> bool:
    return (Pattern(kind, files_apart(a, b), ranks_apart(a, b))
            and (kind != Pawn or IsForward(side, 1, a, b)) and Clear(board, a, b))


def IsAttacked(board: Board, side: str, square: int) -> bool:
    for a in SQUARES:
        for kind in kinds_of(at(board, a), side):
            if Attacks(side, kind, board, a, square):
                return True
    return False


def InCheck(board: Board, side: str) -> bool:
    return any(IsAttacked(board, opponent(side), king)
               for king in squares_of(board, piece_of(side, King)))


def IsPlayable(s: Position) -> bool:
    return not InCheck(s.board, opponent(s.turn))


# ---- pb_moves.Successor

Changes = tuple[tuple[int, Place], ...]


def king_home(side: str) -> int:
    return 4 if side == White else 60


def is_castling(side: str, m: Moved) -> bool:
    return m.from_ == king_home(side) and (m.to == m.from_ + 2 or m.from_ == m.to + 2)


def rook_home(m: Moved) -> int:
    return m.to + 1 if m.from_ < m.to else monus(m.to, 2)


def middle(m: Moved) -> int:
    return (m.from_ + m.to) // 2


def besides(board: Board, m: Moved, side: str, kind: str) -> Changes:
    if kind == Pawn and not file(m.to) == file(m.from_) and at(board, m.to) is None:
        return ((8 * rank(m.from_) + file(m.to), None),)
    if kind == King and is_castling(side, m):
        return (rook_home(m), None), (middle(m), at(board, rook_home(m)))
    return ()


def changes(board: Board, m: Moved, p: Piece) -> Changes:
    becomes = p.kind if m.promo is None else m.promo
    return (((m.from_, None), (m.to, piece_of(p.colour, becomes)))
            + besides(board, m, p.colour, p.kind))


def touches(m: Moved, king: int, rook: int) -> bool:
    return m.from_ == king or m.to == king or (m.from_ == rook or m.to == rook)


def rights_after(r: Rights, m: Moved) -> Rights:
    return Rights(r.white_short and not touches(m, 4, 7), r.white_long and not touches(m, 4, 0),
                  r.black_short and not touches(m, 60, 63), r.black_long and not touches(m, 60, 56))


def en_passant_after(m: Moved, p: Piece) -> Optional[int]:
    if kind_number(p.kind) == 0 and ranks_apart(m.from_, m.to) == 2:
        return middle(m)
    return None


def after(s: Position, m: Moved) -> Position:
    p = at(s.board, m.from_)
    if p is None:
        return s
    return Position(reduce(lambda board, c: slice_set(board, c[0], c[1]), changes(s.board, m, p),
                           s.board),
                    opponent(s.turn), rights_after(s.rights, m), en_passant_after(m, p))


def Differs(old: Board, new: Board, now: Changes) -> bool:
    named = [q for q, _ in now]
    return (len(new) == 64 and all(at(new, q) == place for q, place in now)
            and all(at(new, q) == at(old, q) for q in SQUARES if q not in named))


def IsAfter(s: Position, m: Moved, t: Position) -> bool:
    return any(Differs(s.board, t.board, changes(s.board, m, piece))
               and t.turn == opponent(s.turn) and t.rights == rights_after(s.rights, m)
               and t.ep == en_passant_after(m, piece)
               for piece in option_to_list(at(s.board, m.from_)))


# ---- pb_moves.Legal


def IsCapturable(s: Position, square: int) -> bool:
    return any(kind != King for kind in kinds_of(at(s.board, square), opponent(s.turn)))


def MayLand(s: Position, kind: str, square: int) -> bool:
    if kind == Pawn:
        return IsCapturable(s, square) or s.ep == square
    return IsCapturable(s, square) or IsEmpty(s.board, square)


def Pushes(s: Position, m: Moved) -> bool:
    return (file(m.to) == file(m.from_)
            and (IsForward(s.turn, 1, m.from_, m.to)
                 or (rank_for(s.turn, m.from_) == 1 and IsForward(s.turn, 2, m.from_, m.to)))
            and Clear(s.board, m.from_, m.to) and IsEmpty(s.board, m.to))


def has_right(r: Rights, side: str, is_short: bool) -> bool:
    if side == White:
        return r.white_short if is_short else r.white_long
    return r.black_short if is_short else r.black_long


def Castles(s: Position, m: Moved) -> bool:
    return (is_castling(s.turn, m) and has_right(s.rights, s.turn, m.from_ < m.to)
            and Holds(s.board, rook_home(m), piece_of(s.turn, Rook))
            and Clear(s.board, m.from_, rook_home(m))
            and not IsAttacked(s.board, opponent(s.turn), m.from_)
            and not IsAttacked(s.board, opponent(s.turn), middle(m)))


def MayGo(s: Position, m: Moved, kind: str) -> bool:
    return ((Attacks(s.turn, kind, s.board, m.from_, m.to) and MayLand(s, kind, m.to))
            or (kind == Pawn and Pushes(s, m)) or (kind == King and Castles(s, m)))


def PseudoLegal(s: Position, m: Moved) -> bool:
    for kind in kinds_of(at(s.board, m.from_), s.turn):
        if ((m.promo is not None) == (kind == Pawn and rank_for(s.turn, m.to) == 7)
                and IsMove(m) and MayGo(s, m, kind)):
            return True
    return False


def Legal(s: Position, m: Moved) -> bool:
    return PseudoLegal(s, m) and not InCheck(after(s, m).board, s.turn)


# ---- pb_moves.Clocks


def resets(s: Position, m: Moved) -> bool:
    return is_piece(pawn_of(s.turn), at(s.board, m.from_)) or at(s.board, m.to) is not None


def one_more(n: int) -> int:
    return min(n + 1, 65535)


def half_after(f: Record, m: Moved) -> int:
    return 0 if resets(f.setup, m) else one_more(f.half)


def full_after(side: str, full: int) -> int:
    return full if side == White else one_more(full)


def record_after(f: Record, m: Moved) -> Record:
    return Record(after(f.setup, m), half_after(f, m), full_after(f.setup.turn, f.full))


# ---- pb_poly.Key


def piece_offset(p: Piece, square: int) -> int:
    return 64 * piece_number(p) + square


def piece_offsets(board: Board, square: int) -> tuple[int, ...]:
    return tuple(64 * piece_number(p) + q for q, p in enumerate(board, square) if p is not None)


def has_capturer(board: Board, turn: str, q: int) -> bool:
    return ((not file(q) == 0 and is_piece(piece_of(turn, Pawn), at(board, monus(q, 1))))
            or (not file(q) == 7 and is_piece(piece_of(turn, Pawn), at(board, q + 1))))


def en_passant_offsets(s: Position) -> tuple[int, ...]:
    return () if s.ep is None else only_if(
        has_capturer(s.board, s.turn, double_stepped(s.turn, s.ep)), 772 + file(s.ep))


def offsets(s: Position) -> tuple[int, ...]:
    return (piece_offsets(s.board, 0) + of_rights(s.rights, 768, 769, 770, 771)
            + en_passant_offsets(s) + only_if(colour_number(s.turn) == 0, 780))


def key(randoms: Sequence[int], s: Position) -> int:
    return reduce(lambda k, offset: k ^ randoms[offset], offsets(s), 0)


def HasCapturer(s: Position, square: int) -> bool:
    return any(rank(capturer) == rank(double_stepped(s.turn, square))
               and files_apart(capturer, double_stepped(s.turn, square)) == 1
               for capturer in squares_of(s.board, piece_of(s.turn, Pawn)))


def HasOffset(s: Position, offset: int) -> bool:
    return (any(offset == piece_offset(p, square)
                for square, p in enumerate(s.board) if p is not None)
            or offset in of_rights(s.rights, 768, 769, 770, 771)
            or any(HasCapturer(s, square) and offset == 772 + file(square)
                   for square in option_to_list(s.ep))
            or (s.turn == White and offset == 780))


def AreOffsets(s: Position, given: Sequence[int]) -> bool:
    return (len(set(given)) == len(given)
            and all((offset in given) == HasOffset(s, offset) for offset in range(TABLE_LENGTH)))


def IsKey(randoms: Sequence[int], s: Position, k: int) -> bool:
    return k < 2 ** 64 and any(
        AreOffsets(s, given) and all(
            bit_at(k, bit) == sum(bit_at(randoms[offset], bit) for offset in given) % 2
            for bit in range(64))
        for given in offsets_of(s))


# ---- pb_poly.Code


def encoded_to(s: Position, m: Moved) -> int:
    if is_piece(piece_of(s.turn, King), at(s.board, m.from_)) and is_castling(s.turn, m):
        return rook_home(m)
    return m.to


def encode_move(s: Position, m: Moved) -> int:
    to = encoded_to(s, m)
    return (file(to) + 8 * rank(to) + 64 * file(m.from_) + 512 * rank(m.from_)
            + 4096 * (0 if m.promo is None else kind_number(m.promo)))


# ---- Words of the standard library.


def monus(a: int, b: int) -> int:
    return max(a - b, 0)


def decimal(n: int) -> bytes:
    return b"%d" % n


def join_with_byte(byte: int, texts: Sequence[bytes]) -> bytes:
    return bytes([byte]).join(texts)


def option_to_list(option: Optional[object]) -> list:
    return [] if option is None else [option]


def bit_at(n: int, bit: int) -> int:
    return n >> bit & 1


def slice_set(board: Board, square: int, place: Place) -> Board:
    return (*board[:square], place, *board[square + 1:]) if square < len(board) else board


# ---- What is asked for, and not made: all that a definition may speak of.

# Every en passant square, and none.
PLACES = (None, *SQUARES)
# A setup has no offset that a table hasn't.
TABLE_LENGTH = 781


@cache
def squares_between(a: int, b: int) -> tuple[int, ...]:
    return tuple(q for q in SQUARES if IsBetween(a, q, b))


def squares_of(board: Board, piece: Piece) -> list[int]:
    """The squares that hold the piece."""
    return [q for q, place in enumerate(board) if place == piece]


@cache
def kinds_of(place: Place, side: str) -> tuple[str, ...]:
    """The kinds of this side's pieces that stand there: one or none."""
    return tuple(kind for kind in KINDS if place == piece_of(side, kind))


def offsets_of(s: Position) -> list[list[int]]:
    """The only list of all that the setup has, but for its order."""
    return [[offset for offset in range(TABLE_LENGTH) if HasOffset(s, offset)]]


def all_rights() -> list[Rights]:
    return [Rights(*(bool(n >> bit & 1) for bit in range(4))) for n in range(16)]


def numbers_for(text: bytes) -> list[int]:
    """The numbers that a text of decimal digits may write."""
    return [int(text)] if text.isdigit() and len(text) < 20 else []


def boards_for(parts: Sequence[bytes]) -> list[Board]:
    """The only board that the first part may spell: each of its bytes says what stands there."""
    board: list[Place] = []
    for row in reversed(field(parts, 0).split(b"/")):
        for letter in row:
            if letter in b"12345678":
                board += [None] * (letter - 48)
            else:
                board += [p for p in PIECES if piece_letter(p) == letter]
    return [tuple(board)]


def records_for(text: bytes) -> list[Record]:
    """The only record that a text may spell: each of its parts says what it is."""
    parts = text.split(b" ")
    return [Record(Position(board, turn, rights, ep), half, full)
            for board in boards_for(parts)
            for turn in COLOURS if turn_text(turn) == field(parts, 1)
            for rights in all_rights() if castling_text(rights) == field(parts, 2)
            for ep in PLACES if en_passant_text(ep) == field(parts, 3)
            for half in numbers_for(field(parts, 4)) for full in numbers_for(field(parts, 5))]


PIECES = tuple(piece_of(side, kind) for side in COLOURS for kind in KINDS)
