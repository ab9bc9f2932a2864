"""The runs that crashes meet, and the judge of what a crash has left."""
from __future__ import annotations

import functools
import os
import pathlib
import subprocess
import tempfile
from collections.abc import Iterator
from dataclasses import dataclass, field

from lib.crash_model import Entry, State
from lib.calls import PATIENCE

PROGRAM = os.path.abspath(os.environ.get("PROGRAM", "build/pbook"))
TABLE = os.path.abspath("examples/table.txt")
# A folder in memory is quick.
ROOM = "/dev/shm" if os.access("/dev/shm", os.W_OK) else None
BOOK, LEDGER, JOURNAL = "book.bin", "games.ledger", "games.journal"
# A second name of the ledger, such as a backup.
SECOND = "second"
HEADER = b"pbook-ledger 1\n"
TO_LEDGER, TO_JOURNAL = ("--ledger", LEDGER), ("--journal", JOURNAL)
SYNCED = (*TO_JOURNAL, "--sync")

# The games that lines give their numbers to, by id.
Games = dict[bytes, int]


def id_of(line: bytes) -> bytes:
    return line.split(b"\t", 1)[0]


def lines_of(text: bytes) -> list[bytes]:
    """The lines that an LF ended."""
    return text.splitlines(keepends=True)[:text.count(b"\n")]


def games_in(text: bytes) -> list[bytes]:
    """The lines of a list of submissions, in their order, without a ledger's first line."""
    return [line for line in lines_of(text) if line != HEADER]


def replied(replies: bytes) -> Games:
    """What is answered by whole lines."""
    words = [line.split() for line in lines_of(replies)]
    return {word[1]: int(word[2]) for word in words if word[0] == b"ok"}


def put(state: State, place: str) -> None:
    """Makes the files of a state in this folder, and the folders that links lead to."""
    made: dict[int, str] = {}
    for entry in state:
        path = os.path.join(place, entry.path)
        os.makedirs(os.path.dirname(path), exist_ok=True)
        if entry.file in made:
            os.link(made[entry.file], path)
        elif entry.link:
            target = os.path.join(place, os.fsdecode(entry.data))
            os.makedirs(os.path.dirname(target), exist_ok=True)
            os.symlink(entry.data, path)
        else:
            pathlib.Path(path).write_bytes(entry.data)
            made[entry.file] = path


def got(place: str) -> State:
    """The state of the files in a folder."""
    found: list[Entry] = []
    numbers: dict[int, int] = {}
    paths = (os.path.join(folder, name) for folder, _, names in os.walk(place) for name in names)
    for path in sorted(paths):
        link = os.path.islink(path)
        data = os.fsencode(os.readlink(path)) if link else pathlib.Path(path).read_bytes()
        number = numbers.setdefault(os.lstat(path).st_ino, len(numbers))
        found.append(Entry(os.path.relpath(path, place), number, data, link))
    return tuple(found)


def read(place: str, name: str) -> bytes | None:
    """What a name leads to, where it does."""
    path = pathlib.Path(place, name)
    return path.read_bytes() if path.exists() else None


@dataclass(frozen=True)
class Run:
    """A run over these lines. `failing` is a call that fails, as strace's `inject` has it."""
    options: tuple[str, ...]
    lines: tuple[bytes, ...]
    failing: str = ""
    status: int = 0


@dataclass(frozen=True)
class Scenario:
    """Runs over the files that are found, one after the other. Files of the names `unsynced` are
    not on the disk when the first begins."""
    name: str
    runs: tuple[Run, ...]
    files: State = ()
    unsynced: frozenset[str] = frozenset()

    @property
    def options(self) -> tuple[str, ...]:
        return self.runs[-1].options

    @property
    def keeper(self) -> str:
        """The file that keeps games, if there is one."""
        return self.options[1] if self.options else ""

    @property
    def found(self) -> list[bytes]:
        """The games that the first run finds."""
        return [line for entry in self.files if os.path.basename(entry.path) == self.keeper
                and not entry.link for line in games_in(entry.data)]

    @functools.cached_property
    def sent(self) -> dict[bytes, bytes]:
        """The line of each game that was ever sent, by its id."""
        lines = [*self.found, *(line for run in self.runs for line in run.lines)]
        return {id_of(line): line for line in lines}

    @functools.cached_property
    def again(self) -> bytes:
        """All that was ever sent, so that numbers that are right come of what was kept."""
        return b"".join(reversed(self.sent.values()))


def command(options: tuple[str, ...]) -> list[str]:
    return [PROGRAM, "collect", *options, "-q", TABLE, BOOK]


def collect(place: str, options: tuple[str, ...], lines: bytes) -> tuple[int, bytes]:
    """Runs `collect` in this folder. The answer is its status and its replies."""
    run = subprocess.run(command(options), cwd=place, input=lines, capture_output=True,
                         timeout=PATIENCE, check=False)
    return run.returncode, run.stdout


@functools.cache
def book_of(lines: bytes) -> bytes:
    """The book of one run over these lines, which nothing has interrupted."""
    with tempfile.TemporaryDirectory(dir=ROOM) as place:
        status, _ = collect(place, (), lines)
        assert status == 0
        return pathlib.Path(place, BOOK).read_bytes()


@dataclass(frozen=True)
class Promise:
    """What a crash may not take: games with their numbers, and the book or books that are due."""
    games: Games
    books: tuple[bytes | None, ...]


@dataclass
class Progress:
    """What may not be taken by a kill, and what not by a power cut, as runs go on."""
    scenario: Scenario
    kill: Promise
    power: Promise
    lines: bytes = b""
    answered: Games = field(default_factory=dict)

    @classmethod
    def at_first(cls, scenario: Scenario, book: bytes | None) -> Progress:
        """What is found before the first run."""
        kept = [] if scenario.unsynced else scenario.found
        promise = Promise({id_of(line): n for n, line in enumerate(kept, 1)}, (book,))
        return cls(scenario, promise, promise, b"".join(scenario.found))

    def add(self, kill: Games, power: Games, *books: bytes | None) -> None:
        self.kill = Promise(self.kill.games | kill, books)
        self.power = Promise(self.power.games | power, books)

    def begin(self, run: Run) -> None:
        """A run begins, whose book is that of all lines so far."""
        self.lines, self.answered = self.lines + b"".join(run.lines), {}
        if run.status == 0:
            self.add({}, {}, *self.kill.books, book_of(self.lines))

    def reply(self, run: Run, replies: bytes) -> None:
        """The run has answered: a journal keeps these games now, a ledger once it has ended."""
        games = replied(replies)
        self.answered |= games
        if self.scenario.keeper == JOURNAL:
            self.add(games, games if "--sync" in run.options else {}, *self.kill.books)

    def end(self, run: Run) -> None:
        """The run has ended: a ledger has its games, and a journal was put on the disk, if its name
        was there."""
        if run.status == 0:
            kept = self.answered if self.scenario.keeper and not self.scenario.unsynced else {}
            self.add(kept, kept, self.kill.books[-1])


def complaint(scenario: Scenario, state: State, promise: Promise) -> str:
    """What is wrong with what a crash has left, or with what a run then makes of it: the first
    such thing, or nothing."""
    with tempfile.TemporaryDirectory(dir=ROOM) as place:
        put(state, place)
        return next(complaints(scenario, place, promise), "")


def complaints(scenario: Scenario, place: str, promise: Promise) -> Iterator[str]:
    kept = games_in(read(place, scenario.keeper) or b"") if scenario.keeper else []
    if lost := [game for game in promise.games if scenario.sent[game] not in kept]:
        yield f"lost: {b' '.join(lost).decode()}"
    old = {entry.path: entry.data for entry in scenario.files}
    if read(place, SECOND) != old.get(SECOND):
        yield "a second name hasn't kept the old ledger"
    book = read(place, BOOK)
    if book not in promise.books:
        yield f"the book is neither the old nor the new one: {book and len(book)} bytes"
    if scenario.keeper and read(place, scenario.keeper) is None:
        # It was made just before, and is made again.
        pathlib.Path(place, scenario.keeper).touch()
    status, replies = collect(place, scenario.options, scenario.again)
    if status != scenario.runs[-1].status:
        yield f"the run that goes on ends with status {status}: {replies[-80:]!r}"
    left = got(place)
    if drafts := [entry.path for entry in left if entry.path.endswith(".pbook")]:
        yield f"drafts are left: {drafts}"
    if status != 0:
        if left != scenario.files:
            yield "a run that was refused has changed files"
        return
    if read(place, SECOND) != old.get(SECOND):
        yield "a second name hasn't kept the old ledger at the end"
    links = {entry.path for entry in left if entry.link}
    if not links.issuperset(entry.path for entry in scenario.files if entry.link):
        yield "a link is gone"
    if read(place, BOOK) != book_of(scenario.again):
        yield "the book at the end isn't that of all games"
    yield from of_numbers(scenario, replied(replies), promise.games)
    if scenario.keeper:
        yield from of_games_kept(scenario, replied(replies), read(place, scenario.keeper) or b"")


def of_numbers(scenario: Scenario, numbers: Games, due: Games) -> Iterator[str]:
    if numbers.keys() != scenario.sent.keys():
        yield f"games sent again aren't taken: {sorted(scenario.sent.keys() - numbers.keys())}"
    for game, number in due.items():
        if numbers[game] != number:
            yield f"a number has changed: {game.decode()} was {number} and is {numbers[game]}"
    if sorted(numbers.values()) != list(range(1, len(numbers) + 1)):
        yield f"a game that nobody sent has a number: {sorted(numbers.values())}"


def of_games_kept(scenario: Scenario, numbers: Games, kept: bytes) -> Iterator[str]:
    by_number = [scenario.sent[game] for game in sorted(numbers, key=numbers.__getitem__)]
    if scenario.keeper == LEDGER and kept != HEADER + b"".join(by_number):
        yield "the ledger isn't that of the games that were answered"
    # Between them a journal may have lines that were torn.
    whole = [line for line in lines_of(kept) if line in by_number]
    if scenario.keeper == JOURNAL and whole != by_number:
        yield "the journal hasn't each game that was answered once"


def files(data: dict[str, bytes | str]) -> State:
    """Files of these names, and links where there is the name of what they lead to."""
    return tuple(Entry(path, number, os.fsencode(text), isinstance(text, str))
                 for number, (path, text) in enumerate(sorted(data.items())))


def without_last_move(text: bytes) -> bytes:
    """A text whose last line was cut so that it is a shorter game, and has no LF."""
    return text[:text.rindex(b" ")]


def examples() -> tuple[tuple[bytes, ...], bytes, bytes]:
    """Lines for runs, of which two come again and two have many sectors; older games; and the
    front of a line, which is a shorter game."""
    played = lines_of(pathlib.Path("examples/games.txt").read_bytes())
    games = list({id_of(line): line for line in reversed(played)}.values())[::-1]
    long = [b"long-%d\t1/2-1/2\t%b %d\t%b\n" % (
        n, b"rnbqkbnr/pppppppp/8/8/8/8/PPPPPPPP/RNBQKBNR w KQkq - 0", n,
        b" ".join([b"g1f3 g8f6 f3g1 f6g8"] * 60)) for n in (1, 2)]
    lines = (*games[:4], games[0], *long, games[4], games[2])
    return lines, b"".join(games[12:18]), without_last_move(games[20])


def scenarios() -> list[Scenario]:
    lines, old, _ = examples()
    run = (Run((), lines),)
    book = book_of(old)
    return [
        Scenario("book", run, files({BOOK: book})),
        Scenario("new book", run),
        Scenario("book behind a link", run, files({"far/" + BOOK: book, BOOK: "far/" + BOOK})),
        *of_ledgers(),
        *of_journals("journal", TO_JOURNAL),
        *of_journals("journal --sync", SYNCED),
        *of_runs_in_a_row()]


def of_ledgers() -> list[Scenario]:
    lines, old, _ = examples()
    run, far, ledger = (Run(TO_LEDGER, lines),), "far/" + LEDGER, HEADER + old
    book = {BOOK: book_of(old)}
    found = files({LEDGER: ledger, **book})
    second = (*found, Entry(SECOND, found[1].file, ledger))
    cut = files({LEDGER: ledger[:-3], **book})
    return [
        Scenario("ledger", run, found),
        Scenario("new ledger", run, files({LEDGER: b""})),
        Scenario("ledger behind a link", run, files({far: ledger, LEDGER: far, **book})),
        Scenario("ledger with a second name", run, second),
        Scenario("ledger that was cut", (Run(TO_LEDGER, lines, status=1),), cut)]


def of_journals(name: str, options: tuple[str, ...]) -> list[Scenario]:
    lines, old, torn = examples()
    run, far = (Run(options, lines),), "far/" + JOURNAL
    book = {BOOK: book_of(old)}
    return [
        Scenario(name, run, files({JOURNAL: old, **book})),
        Scenario(f"{name}, torn", run, files({JOURNAL: old + torn, **book})),
        Scenario(f"{name}, behind a link", run, files({far: old, JOURNAL: far})),
        Scenario(f"{name}, made just before", run, files({JOURNAL: b""}), frozenset({JOURNAL})),
        Scenario(f"{name}, made just before behind a link", run, files({far: b"", JOURNAL: far}),
                 frozenset({far}))]


def of_runs_in_a_row() -> list[Scenario]:
    """Journals that earlier runs, which were killed before a sync, have left in the system's memory
    alone."""
    lines, old, _ = examples()
    found = files({JOURNAL: old, BOOK: book_of(old)})
    fails, last = "fsync,fdatasync:error=EIO:when=", Run(SYNCED, lines)
    first, second = (Run(TO_JOURNAL, some, "fsync,fdatasync:signal=KILL", -9)
                     for some in (lines[:3], lines[2:5]))
    return [
        Scenario("journal --sync, after runs without", (first, second, last), found),
        Scenario("journal --sync, after a sync that failed", (
            Run(SYNCED, lines[:3], fails + "3", 3), last), found),
        Scenario("journal --sync, after a run without whose bytes the disk has refused", (
            first, Run(SYNCED, lines[:1], fails + "1", 3), last), found)]
