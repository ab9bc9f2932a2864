#!/usr/bin/env python3
"""Has the prover refuse the wrong bodies of crates/*/bodies/, many of them in one run.

Usage: scripts/bodies.py [--anew] [CRATE..]   tries the bodies of these crates, or of all
       scripts/bodies.py --goals CRATE NAME   tells which goals this wrong body breaks, whether they
                                              have written answers, and what refusing it costs
It runs at the top of the repository. `make test-bodies` and `make test` call it.

docs/WRONG_BODIES.md says what a body is, and how they are tried. One is refused where a goal of its
own function is told as unproved that the right body has too: by an error in the function's answers,
by a note at its lines, or by its line of the report. That the function isn't proved is not enough,
since one that calls a wrong one isn't either. Nor is an answer that names what the edit took away.
A body whose goals wait for the proof of another wrong one is tried again without that one.

What has passed is kept in ~/.cache/pbook, by a sum of the crate, its bodies, what it stands on,
the toolchain and this script. --anew looks at nothing kept. RT_JOBS says how many runs go side by
side. Each run's report is written to the folder BODIES_LOGS where that is set. The last line is
`N passed, N failed`.
"""
import collections
import concurrent.futures
import dataclasses
import functools
import hashlib
import os
import pathlib
import re
import shutil
import subprocess
import sys
import tempfile
import time

from lib import libraries
from lib.specs import TOKEN, Specs, imports, lines_of

CRATES = pathlib.Path("crates")
SCRIPT = pathlib.Path("scripts/bodies.py")
CACHE = os.environ.get("XDG_CACHE_HOME") or pathlib.Path.home() / ".cache"
KEPT = pathlib.Path(CACHE) / "pbook"
PARTS = ("src", "specs", "proofs")
# The files of a function's own proof, which no other one sees.
OWN_PROOFS = ("Answers.antt", "Invariants.antt", "Proof.antt")
# The memory that a run may take, in bytes: twice what most take.
ROOM = 3_200_000_000
# What is said of a text that names what an edit took away, and of an answer that does.
MISSING = r"has no field|is not in scope|has no `"
GONE = re.compile(MISSING + "|was not admitted")
# What shows that a goal is open, by the words of the toolchain.
SHOWN = {"allow values": "values", "gave up": "a search that gave up"}


def rt(word):
    """What the toolchain's command says of this word."""
    return subprocess.run(["rt", word], capture_output=True, text=True, check=True).stdout.strip()


VERSION, KIT = rt("version"), pathlib.Path(rt("doc")).parent


class BadEdit(Exception):
    """An edit that can't be read, or whose text isn't there once."""


@dataclasses.dataclass(frozen=True)
class Function:
    """A function by the name that the prover gives it, and its lines in a file: of all of it, from
    its first to its last, and the one with which its body begins."""

    name: str
    file: str
    first: int
    body: int
    last: int

    @property
    def path(self):
        """The name below the crate."""
        return self.name.partition("::")[2]


def module_of(path):
    """The module of a source file, as names below the crate."""
    parts = pathlib.PurePath(path).with_suffix("").parts[1:]
    return tuple(it for it in parts if it not in ("lib", "main"))


def modules_of(crate):
    """Each type and trait of the crate, and the module that declares it, where its methods are."""
    found = {}
    for file in sorted((CRATES / crate / "src").rglob("*.rt")):
        declared = r"^(?:pub(?:\(\w+\))? )?(?:struct|enum|trait) (\w+)"
        names = re.findall(declared, file.read_text(encoding="utf-8"), re.M)
        found.update(dict.fromkeys(names, module_of(file.relative_to(CRATES / crate))))
    return found


def functions_of(crate, path):
    """The functions of a source file that have a body, by the layout of `rt fmt`."""
    lines = (CRATES / crate / path).read_text(encoding="utf-8").split("\n")
    modules, found, owner = modules_of(crate), [], module_of(path)
    for at, line in enumerate(lines):
        if re.match(r"(unsafe )?impl\b|(pub(\(\w+\))? )?trait\b", line):
            to, trait = owner_of(" ".join(lines[at:]).partition("{")[0])
            home = module_of(path) if trait else modules.get(to, module_of(path))
            owner = (*home, to + trait)
        elif line.startswith("}"):
            owner = module_of(path)
        begun = re.match(r"( *)(?:pub(?:\([a-z ]+\))? )?(?:const |unsafe )*fn (\w+)", line)
        body, last = lines_of(lines[at:], begun[1]) if begun else (0, 0)
        if body:
            # (the prover's notes begin with a function's attribute)
            first = at if lines[at - 1].lstrip().startswith("#[") else at + 1
            name = "::".join([crate, *owner, begun[2]])
            found.append(Function(name, path, first, at + body, at + last))
    return found


@functools.cache
def without_bodies(path):
    """A file's lines, of a source file without those of its functions' bodies."""
    lines = path.read_text(encoding="utf-8").split("\n")
    for it in functions_of(path.parts[1], "/".join(path.parts[2:])) if path.suffix == ".rt" else ():
        # (what a `const fn` gives may be the value of a constant)
        if "const " not in lines[it.first - 1] + lines[it.first]:
            lines[it.body : it.last - 1] = [""] * (it.last - 1 - it.body)
    return lines


def owner_of(head):
    """The type of an `impl`, and its trait with the trait's arguments; or a trait and nothing."""
    head = re.sub(r"'\w+\b,? ?|\bwhere\b.*", "", head.replace("->", "  "))
    declared = re.match(r".*\btrait (\w+)", head)
    if declared:
        return declared[1], ""
    _, of, to = re.match(r"(?:unsafe )?impl(<.*?>)? (?:(.*) for )?(.*)", head).groups()
    while re.search(r"(<[^<>]*)<[^<>]*>", of or ""):
        of = re.sub(r"(<[^<>]*)<[^<>]*>", r"\1", of)
    names = re.findall(r"(\w+)(?=[<>,]|$)", re.sub(r"\s", "", of or ""))
    to = re.search(r"(\w+)\s*(<|$)", to)
    return to[1] if to else "", "".join(names)


@dataclasses.dataclass(frozen=True)
class Body:
    """An edit: in which line of which file a text takes another's place, and in what functions. It
    is tried alone where it turns more than imports and bodies, as what it says others rest on, but
    for a definition that a law of its own judges."""

    name: str
    pairs: tuple
    functions: frozenset
    is_alone: bool
    # The path of the function, mostly a law, that refuses a definition or what is tried alone.
    judge: str | None

    @staticmethod
    def read(crate, file):
        """The edit that a file has. A text has one line, so lines keep their numbers."""
        pairs, functions, is_alone, texts = [], set(), False, {}
        path, old, judge, is_judged = None, None, None, False
        for line in file.read_text(encoding="utf-8").split("\n"):
            word, _, rest = line.partition(":")
            rest = rest.removeprefix(" ")
            if word in ("judged by", "judged alone by") and path is None:
                # (what isn't a law rests on the contracts of those that it calls)
                judge = rest.strip()
                is_judged = word == "judged by" and judge.startswith("laws::")
            elif word == "file":
                path = rest.strip()
                texts.setdefault(path, (CRATES / crate / path).read_text(encoding="utf-8"))
            elif word == "old":
                old = rest
            elif word == "new" and path and old:
                text, count = texts[path], texts[path].count(old)
                if count != 1:
                    raise BadEdit(f"a text stands {count} times in {path}, and not once: {old}")
                at = text[: text.index(old)].count("\n") + 1
                texts[path] = text.replace(old, rest)
                places = functions_of(crate, path) if path.startswith("src/") else []
                places = [it for it in places if it.first <= at <= it.last]
                # (an import that loses or renames a name turns all functions of the file)
                is_import = re.match(r"(ghost )?use ", text.split("\n")[at - 1])
                names, kept = ({*re.findall(r"[^\s{},;]+", it)} for it in (old, rest))
                is_import = is_import and names <= kept and " as " not in rest
                is_inside = bool(places or is_import) and all(at >= it.body for it in places)
                is_alone = is_alone or not is_inside
                functions.update(places)
                pairs.append((path, at, old, rest, text.split("\n")[at - 1]))
                old = None
        if not pairs:
            raise BadEdit("it has no lines `file:`, `old:` and `new:`")
        is_alone = (is_alone or not functions) and not is_judged
        body = Body(file.stem, tuple(pairs), frozenset(functions), is_alone, judge)
        if judge and not (body.is_definition or body.is_alone):
            raise BadEdit("what turns functions alone is judged by these")
        return body

    @property
    def files(self):
        """The files that it turns."""
        return {path for path, *_ in self.pairs}

    @property
    def is_definition(self):
        """Whether it turns definitions alone."""
        return all(path.startswith("specs/") for path in self.files)

    def plant(self, room):
        """Exchanges the texts in a copy of the crate, whatever other bodies write elsewhere."""
        for path, at, old, new, _ in self.pairs:
            lines = (room / path).read_text(encoding="utf-8").split("\n")
            lines[at - 1] = lines[at - 1].replace(old, new)
            (room / path).write_text("\n".join(lines), encoding="utf-8")


@dataclasses.dataclass(frozen=True)
class Said:
    """What the prover reports of a run, and the processor time that it took."""

    text: str
    seconds: float

    def line_of(self, function):
        """What the report says of this function, or None."""
        found = re.search(rf"^fn {re.escape(function.name)}: (.*)", self.text, re.M)
        return found and found[1]

    def answers_of(self, function):
        """A pattern of where the answers to this function's goals stand, before what is said."""
        # (the folder of a function that calls itself has a plus in front of its name)
        folder = re.sub(r"(\w+)$", r"\\+?\1", "proofs/" + function.path.replace("::", "/"))
        return rf"^(?:\./)?{folder}/(?:\S+/)?\w+\.antt:\d+:\d+: error: "

    def lemma_of(self, function):
        """A lemma that isn't proved and on which an answer of this function rests, or None; none
        where a text names what isn't there."""
        rests = r"\d+ declarations? that depends? on `([^`]+)`, which was (?:rejected|not admitted)"
        found = re.search(self.answers_of(function) + rests, self.text, re.M)
        return found and not re.search(MISSING, self.text) and f"lemma {found[1]}"

    def goals_of(self, function):
        """The goals of this function that are told as unproved, each with what shows that."""
        # (a long message goes on in lines that are indented)
        answers = self.answers_of(function) + r"`([^`]+)`: (.*(?:\n  .*)*)"
        answered = [it for it in re.findall(answers, self.text, re.M) if not GONE.search(it[1])]
        found = {goal: "a difference" for goal, _ in answered}
        at = rf"^note: {re.escape(function.file)}:(\d+):\d+: it is not proved that "
        for line, why, goal in re.findall(at + r"(.*?\(`([^`]+)`\).*)", self.text, re.M):
            if function.first <= int(line) <= function.last:
                shown = (it for word, it in SHOWN.items() if word in why)
                found.setdefault(goal, next(shown, "a search to its end"))
        searched = re.search(r"`search` did not prove ([^;]+)", self.line_of(function) or "")
        for goal in re.findall(r"`([^`]+)`", searched[1] if searched else ""):
            found.setdefault(goal, "a search")
        return found

    def waits_of(self, function):
        """The names of the functions whose proof this one's goals may wait for."""
        line = self.line_of(function) or ""
        return set(re.findall(r"`([\w:]+)`", line.partition("it calls")[2]))

    def unread(self):
        """A line by which a text of the crate can't be read, or None."""
        errors = r"^((?:\./)?(?:src|specs)/\S+:\d+:\d+: error: (`[^`]*`: )?(.*))"
        for line, label, why in re.findall(errors, self.text, re.M):
            if not label or GONE.search(why):
                return line
        # (the last line of a run that came to its end counts the functions)
        if re.search(r"^only=\d+ proved=\d+\n\Z", self.text, re.M):
            return None
        lines = self.text.strip().split("\n")
        return next((it for it in lines if "error" in it), lines[-1])


class Crate:
    """A crate, as the toolchain's command reads it too."""

    def __init__(self, made):
        self.made, self.name, self.folder = made, made.name, CRATES / made.name

    @staticmethod
    def read_all():
        """The libraries by name, each after those that it stands on."""
        return {name: Crate(it) for name, it in libraries.read_all().items()}

    def below(self):
        """The crates that this one stands on."""
        return [Crate(it) for it in self.made.below()]

    def bodies(self):
        """The files of its wrong bodies."""
        return sorted((self.folder / "bodies").glob("*.edit"))

    def files(self):
        """The files that its proof is made of."""
        found = [it for part in PARTS for it in (self.folder / part).rglob("*")]
        return sorted(it for it in found if it.is_file())

    def functions(self):
        """Its functions that have a body."""
        files = sorted((self.folder / "src").rglob("*.rt"))
        files = [str(it.relative_to(self.folder)) for it in files]
        return [it for file in files for it in functions_of(self.name, file)]

    def kept(self):
        """The file that says that its bodies have passed, as they are and over what they rest on:
        no proof sees the bodies of the functions below, nor how those are proved."""
        said = [it.made.said for it in (*self.below(), self)]
        seen = [it for crate in self.below() for it in crate.files() if it.name not in OWN_PROOFS]
        own = [*self.files(), *self.bodies(), SCRIPT]
        texts = [*map(without_bodies, seen), *(it.read_bytes() for it in own)]
        files = [str(it) for it in (*seen, *own)]
        total = hashlib.sha256(repr((VERSION, said, files, texts)).encode())
        return KEPT / f"{self.name}-{total.hexdigest()}"

    def has_goal(self, goal, function, made=None):
        """Whether the right body of this function has the goal: by its written answers, or by what
        the prover has written to a folder. Where it has no answers, each goal is left to a search,
        for a wrong body as for the right one."""
        *above, name = function.path.split("::")
        folder = made / f"Rattle-{self.name}-proofs" if made else self.folder / "proofs"
        for last in (name, f"+{name}"):
            file = folder.joinpath(*above, last, "Goals.antt" if made else "Answers.antt")
            if file.is_file():
                text = file.read_text(encoding="utf-8")
                return re.search(rf"pub (the-fit-)?{re.escape(goal)} :", text) is not None
        return not made

    def check(self, bodies, functions, kept, made=None):
        """Checks these functions of a copy that has these bodies, over what earlier runs kept; or
        has all of their goals written to a folder."""
        with tempfile.TemporaryDirectory(prefix="pbook-body-") as room:
            room = pathlib.Path(room)
            for part in PARTS:
                if (self.folder / part).is_dir():
                    shutil.copytree(self.folder / part, room / part)
            for body in bodies:
                body.plant(room)
            words = [KIT / "bin/rattle", "check", *self.made.words(["--jobs", "1"])]
            words += ["--incremental", kept]
            words += ["--generated", made] if made else []
            how = "--start" if made else "--only"
            words += [word for path in functions for word in (how, path)]
            how = {"stdout": subprocess.PIPE, "stderr": subprocess.STDOUT}
            with subprocess.Popen(words, cwd=room, stdin=subprocess.DEVNULL, **how) as ran:
                text = ran.stdout.read().decode(errors="replace")
                _, _, used = os.wait4(ran.pid, 0)
                ran.returncode = 0
        return Said(text, used.ru_utime + used.ru_stime)


class Trial:
    """The trial of a crate's bodies: what came of each, and what it took."""

    def __init__(self, crate):
        self.crate, self.kept, self.lines, self.failed = crate, None, [], 0
        self.seconds, self.runs, self.specs = 0.0, 0, Specs(CRATES)
        # The functions that judge a body, and what it is not tried beside: wrong bodies of these
        # functions, and edits of these definitions.
        self.judges, self.apart = {}, collections.defaultdict(set)
        # The goals of bodies that broke none with a written answer.
        self.doubts = {}
        self.read_bodies()

    def cost(self):
        """How dear it is, about: its runs, by the functions, dearer the more crates are below."""
        shared = (it for body in self.judges if not body.is_alone for it in body.functions)
        runs = max(collections.Counter(shared).values(), default=0)
        runs += sum(body.is_alone for body in self.judges)
        return runs * len(self.crate.functions()) * (1 + len(self.crate.below()))

    def tell(self, name, goal, function, how):
        where = f"refused at `{goal}` of {function.name}, by {how}"
        self.lines.append(f"{self.crate.name}/{name}: {where}")

    def fail(self, name, why):
        self.failed += 1
        self.lines.append(f"{self.crate.name}/{name}: FAILED: {why}")

    def run(self, bodies, functions, made=None):
        said = self.crate.check(bodies, functions, self.kept, made)
        self.seconds, self.runs = self.seconds + said.seconds, self.runs + 1
        logs = os.environ.get("BODIES_LOGS")
        if logs:
            text = f"{' '.join(it.name for it in bodies)}\n{said.text}"
            pathlib.Path(logs, f"{self.crate.name}-{self.runs}").write_text(text, encoding="utf-8")
        return said

    def read_bodies(self):
        """Reads the bodies, each with what judges it. One that turns more than functions is judged by
        what it names, or by laws and its functions, or where it has none, by those of the modules
        that it turns or that its name begins with."""
        functions = self.crate.functions()
        for file in self.crate.bodies():
            try:
                body = Body.read(self.crate.name, file)
                if not body.is_alone and not body.judge:
                    self.judges[body] = sorted(body.functions, key=lambda it: it.first)
                elif body.judge:
                    judges = [it for it in functions if it.path == body.judge]
                    if not judges:
                        raise BadEdit(f"no function has the path {body.judge}")
                    self.judges[body], self.apart[body] = judges, self.rests(judges[0])
                else:
                    modules = {f"src/{body.name.partition('-')[0]}.rt", *body.files}
                    of_modules = [it for it in functions if it.file in modules]
                    laws = [it for it in functions if it.file == "src/laws.rt"]
                    self.judges[body] = [*laws, *(body.functions or of_modules)]
            except (BadEdit, OSError, UnicodeDecodeError) as error:
                self.fail(file.stem, str(error))

    def rests(self, law):
        """The definitions on which a law rests."""
        text = (self.crate.folder / law.file).read_text(encoding="utf-8")
        known, lines = imports(text), text.split("\n")[law.first - 1 : law.last]
        words = TOKEN.findall("\n".join(lines))
        return {*self.specs.closure(self.specs.find_import(known.get(it)) for it in words)}

    def turned(self, body):
        """The names of the functions that a body turns, its lines, the definitions, and its law."""
        lines = {(f"{self.crate.name}.{pathlib.PurePath(it[0]).stem}", it[4]) for it in body.pairs}
        all_lines = [(it, line) for it in self.specs.definitions.values() for line in it.lines]
        found = {it for it, line in all_lines if (it.file, line) in lines}
        found |= {it.name for it in body.functions} | {it[:2] for it in body.pairs}
        return found | ({body.judge} if body.judge else set())

    def try_all(self):
        """Tries bodies of functions in rounds, then definitions that laws of their own judge, and
        then each of the others alone."""
        bodies = list(self.judges)
        shared = [it for it in bodies if not it.is_alone]
        groups = [[it for it in shared if not it.judge], [it for it in shared if it.judge]]
        for left in (*groups, *([it] for it in bodies if it.is_alone)):
            while left:
                taken = self.next_round(left)
                left = [it for it in left if it not in taken] + self.try_round(taken)
        if self.doubts:
            self.settle()

    def next_round(self, left):
        """The bodies of a round: one a function, line and definition, none beside what its goals
        waited for, or what its judge rests on."""
        taken, edited, avoided = [], set(), set()
        for body in left:
            turned = self.turned(body)
            if not turned & (edited | avoided) and not self.apart[body] & edited:
                taken.append(body)
                edited |= turned
                avoided |= self.apart[body]
        return taken

    def try_round(self, bodies):
        """Tries bodies together, and returns those that have to be tried again."""
        said = self.run(bodies, sorted({it.path for body in bodies for it in self.judges[body]}))
        if said.unread() and len(bodies) > 1:
            return [again for body in bodies for again in self.try_round([body])]
        again = []
        for body in bodies:
            judges = self.judges[body]
            beside = {it for other in bodies if other is not body for it in self.turned(other)}
            waits = set().union(*(said.waits_of(it) for it in judges))
            goals = [(goal, it, how) for it in judges for goal, how in said.goals_of(it).items()]
            own = [it for it in goals
                   if it[1] not in body.functions or self.crate.has_goal(*it[:2])]
            # A definition also breaks a lemma. Beside others it might be theirs.
            lemmas = [(lemma, it, "a lemma") for it in judges if (lemma := said.lemma_of(it))]
            lemmas = lemmas if body.is_definition else []
            if said.unread():
                self.fail(body.name, f"the prover can't read it: {said.unread()[:300]}")
            elif own or lemmas and not beside:
                self.tell(body.name, *(own or lemmas)[0])
            elif not all(said.line_of(it) for it in judges):
                self.fail(body.name, f"no report of {' '.join(it.name for it in judges)}")
            elif beside and (waits or lemmas):
                # it waits for a wrong body itself, or for a function that does
                self.apart[body] |= waits & beside or beside
                again.append(body)
            elif goals:
                self.doubts[body] = goals
            elif all(said.line_of(it).startswith("proved") for it in judges):
                self.fail(body.name, "NOT REFUSED: what judges it is proved")
            else:
                self.fail(body.name, "NOT REFUSED: an answer names what it took away")
        return again

    def settle(self):
        """Tells of bodies that broke no goal with a written answer whether they broke one that the
        right body has."""
        paths = {it.path for goals in self.doubts.values() for _, it, _ in goals}
        with tempfile.TemporaryDirectory(prefix="pbook-goals-") as made:
            self.run([], sorted(paths), made)
            for body, goals in self.doubts.items():
                own = [it for it in goals if self.crate.has_goal(*it[:2], pathlib.Path(made))]
                if own:
                    self.tell(body.name, *own[0])
                else:
                    why = f"the right body has no goal `{goals[0][0]}`, so this shows nothing"
                    self.fail(body.name, f"NOT REFUSED: {why}")


def try_crate(trial):
    """Tries a crate's bodies, and keeps it where all have passed. The answer is what to print, how
    many have passed and failed, and the seconds that it took."""
    crate, kept = trial.crate, trial.crate.kept()
    with tempfile.TemporaryDirectory(prefix="pbook-kept-") as trial.kept:
        trial.try_all()
    text = "".join(f"{it}\n" for it in sorted(trial.lines))
    if not trial.failed:
        KEPT.mkdir(parents=True, exist_ok=True)
        kept.write_text(text, encoding="utf-8")
    passed = len(trial.lines) - trial.failed
    text += f"{crate.name}: {passed} refused, {trial.failed} failed, in {trial.runs} runs, "
    return f"{text}{trial.seconds:.0f} s of processor time\n", passed, trial.failed, trial.seconds


def prove(crates):
    """Has these crates proved whose libraries don't stand."""
    names = dict.fromkeys(it.name for it in crates if not it.made.is_built())
    if names:
        subprocess.run(["sh", "scripts/build.sh", *names], check=True)


def lanes():
    """How many runs go side by side: as there are processors and memory, or as RT_JOBS says."""
    free = re.search(r"MemAvailable:\s+(\d+)", pathlib.Path("/proc/meminfo").read_text())
    room = min(len(os.sched_getaffinity(0)), 1024 * int(free[1]) // ROOM)
    return max(int(os.environ.get("RT_JOBS") or room), 1)


def try_crates(names, anew):
    """Tries the bodies of these crates, or of all, side by side, and returns the status."""
    known = Crate.read_all()
    if not {*names} <= {*known}:
        sys.exit("crates.txt doesn't name each of these crates")
    crates = [it for it in known.values() if it.bodies() and it.name in (names or known)]
    begin, passed, failed, seconds = time.time(), 0, 0, 0.0
    for crate in [it for it in crates if it.kept().is_file() and not anew]:
        print(f"{crate.kept().read_text(encoding='utf-8')}{crate.name}: as is kept", flush=True)
        passed += len(crate.bodies())
        crates.remove(crate)
    prove([below for it in crates for below in it.below()])
    trials = sorted(map(Trial, crates), key=Trial.cost, reverse=True)
    with concurrent.futures.ThreadPoolExecutor(lanes()) as pool:
        for done in concurrent.futures.as_completed([pool.submit(try_crate, it) for it in trials]):
            text, good, bad, took = done.result()
            print(text, end="", flush=True)
            passed, failed, seconds = passed + good, failed + bad, seconds + took
    minutes = (time.time() - begin) / 60
    print(f"{seconds / 60:.1f} minutes of processor time, {minutes:.1f} by the clock")
    print(f"{passed} passed, {failed} failed")
    return 1 if failed or not passed else 0


def tell_goals(name, edit):
    """Tells which goals a wrong body breaks, those without a written answer apart, and the time of
    a check over what `rt check` has kept."""
    crate = Crate.read_all()[name]
    [file] = crate.folder.glob(f"*/{edit}.edit")
    body = Body.read(name, file)
    prove(crate.below())
    functions = body.functions or functions_of(name, "src/laws.rt")
    kept = (crate.folder / "out/incremental").resolve()
    said = crate.check([body], [it.path for it in functions], kept)
    for it in functions:
        print(f"{it.path}: {said.line_of(it)}")
        for goal in said.goals_of(it):
            print(f"  {goal}{'' if crate.has_goal(goal, it) else ', without an answer'}")
    print(f"{said.unread() or ''}{said.seconds:.1f} s of processor time")


def main():
    words = sys.argv[1:]
    if words[:1] == ["--goals"] and len(words) == 3:
        return tell_goals(*words[1:])
    names = [it for it in words if it != "--anew"]
    if any(it.startswith("-") for it in names):
        sys.exit(__doc__)
    return try_crates(names, "--anew" in words)


sys.exit(main())
