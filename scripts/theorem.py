#!/usr/bin/env python3
"""Prints what the theorem of `pbook collect` rests on, in reading order, and what its laws do.

Usage: python3 -B scripts/theorem.py [--count] [--of CRATE.FILE.NAME]
       python3 -B scripts/theorem.py --index [CRATE..]
       python3 -B scripts/theorem.py --check
It runs at the top of the repository. `make theorem` and `make test` call it.

First comes the contract of the call that the program makes with its words, then the definitions of
the case that a book is made, then what its laws and the rest of that contract rest on besides. Each
is printed as it stands in crates/*/specs, with its comments. Then come the types of the code that
definitions name, and the words of the toolchain's library, where `rt` is to be had. --of begins
with another definition, without the call and the laws. --count prints the last lines alone, which
tell how much it is (scripts/lib/specs.py says what counts). --index prints each public call with
the first sentence of its comment, its clauses, and the definitions that they cite. --check compares
docs/THEOREM.md with the counts, also those of the code that it calls trusted.
"""
import argparse
import itertools
import json
import pathlib
import re
import shutil
import signal
import subprocess
import sys

from lib.specs import BEFORE, TOKEN, Specs, bodies, calls, count_of, imports

DOCUMENT = pathlib.Path("docs/THEOREM.md")
HEADLINE = "pb_commands.Headline.HasHeadline"
# The theorem's sentence, as one law, and the answers that the replies say.
SENTENCE = "pb_commands.Sentence"
LAW = pathlib.Path("crates/pb_commands/src/laws.rt"), "sentence"
ANSWERS = "pb_commands.Answered", "SayAnswers"
# The call that the program makes. Its contract is the theorem, and how else it may end.
PROGRAM = pathlib.Path("crates/pb_program/src/ordered.rt"), "collect"
# The files of specs in reading order. All others come after them, by their crates.
ORDER = """
    pb_commands.Headline
    pb_accepted.Replying pb_accepted.Refusals pb_games.Refusing pb_board.Refusal
    pb_games.Submissions pb_games.Ids pb_games.Results pb_games.Tokens
    pb_io.Lines pb_board.Fields pb_board.Text pb_board.Rights pb_moves.Spelling
    pb_board.Board pb_board.Piece pb_board.Position
    pb_moves.Attacks pb_moves.Moved pb_moves.Successor pb_moves.Legal pb_moves.Played
    pb_poly.Table pb_poly.Key pb_poly.Code
    pb_accepted.Counting pb_accepted.Rules pb_points.Weight
    pb_poly.Book pb_poly.Entry
    pb_commands.Runs pb_io.Source pb_io.Count pb_io.Sink
""".split()


def crate_names():
    """The crates, the lower ones first."""
    return re.findall(r"^(\w+):", pathlib.Path("crates.txt").read_text(encoding="utf-8"), re.M)


def in_order(found, first):
    """Definitions in reading order: those of this file first."""
    crates = crate_names()

    def place(own):
        crate, name = own.file.split(".")
        at = ORDER.index(own.file) if own.file in ORDER else len(ORDER)
        return own.file != first, at, crates.index(crate), name

    return sorted(found, key=place)


def declared_of(folder, module):
    """The file below this folder and the name of the type whose names the module has, or none."""
    crate, declared, place = module.removeprefix("Rattle.").partition(".specs.declared.")
    *folders, name = re.sub(r"\.The\w+$", "", place).split(".")
    file = folder.joinpath(crate, "src", *folders).with_suffix(".rt")
    return (file, name) if declared and file.is_file() else None


def declaration(source, name):
    """The declaration of a type with its doc comments, without attributes."""
    above = r"(?:^(?:///|#\[)[^\n]*\n)*"
    kind = rf"^(?:pub(?:\(\w+\))? )?(?:struct|enum) {name}\b(?:[^;{{]*;|.*?^\}})"
    found = re.search(f"{above}{kind}", source, re.M | re.S)
    return re.sub(r"^ *#\[[^]]*\]\n", "", found[0], flags=re.M)


class Library:
    """The toolchain's library, which declares the words of std."""

    def __init__(self):
        told = subprocess.run(["rt", "doc"], capture_output=True, text=True, check=True).stdout
        self.root = pathlib.Path(told.strip()).parent / "rattle"
        project = (self.root / "logic/antt-project.json").read_text(encoding="utf-8")
        self.mounts = {"Rattle": "..", **json.loads(project)["mounts"]}

    def file(self, module):
        """The file of a module, or none: one that is built in has none."""
        root, *rest = module.split(".")
        folder = self.root / "logic" / self.mounts.get(root, root)
        files = [it.joinpath(*rest).with_suffix(".antt") for it in (folder, folder / "src")]
        return next((it.resolve() for it in files if it.is_file()), None)

    def passed_on(self, module):
        """The module that a crate passes on by its Lib in the place of this one, or none."""
        place = re.fullmatch(r"(Rattle\.\w+\.specs)\.(\w+)(.*)", module)
        lib = place and self.file(f"{place[1]}.Lib")
        passed = imports(lib.read_text(encoding="utf-8")).get(place[2]) if lib else None
        return passed and passed[0] + place[3]

    def find(self, module, name):
        """Where a word is declared that is imported so, and its first line with its comment."""
        declared, file = declared_of(self.root, module), self.file(module)
        if declared:
            return declared
        if not file:
            passed = self.passed_on(module)
            return self.find(passed, name) if passed else (module, name)
        source = file.read_text(encoding="utf-8")
        line = rf"((?:^ *-- .*\n)*)^ *{BEFORE}((?:\w+ )*{re.escape(name)} .*: .*)"
        found = re.search(line, source, re.M)
        passed = imports(source).get(name)
        if passed and not found:
            return self.find(*passed)
        comment = re.sub(r"(?m)^ *(.*)\n", r"\n        \1", found[1]) if found else ""
        return file, found[2] + comment if found else name


def print_definitions(specs, found):
    """Prints definitions below the paths of their files and the comments that they stand under."""
    for file, of_file in itertools.groupby(found, key=lambda own: own.file):
        print(f"==== crates/{file.replace('.', '/specs/')}.antt\n")
        told = {""}
        for own in of_file:
            for comment in (specs.heads.get(file, ""), own.part):
                if comment not in told:
                    print(f"{comment}\n")
                    told.add(comment)
            print(*own.lines, "", sep="\n")


def print_types(specs, imported):
    """Prints the types of the code that definitions name, and what they see in place of others
    that these have in their fields."""
    types = {}
    for path, name in filter(None, (declared_of(specs.crates, it) for it, _ in imported)):
        types.setdefault(path, {})[name] = declaration(path.read_text(encoding="utf-8"), name)
    for path, names in types.items():
        print(f"==== {path}", *names.values(), "", sep="\n\n", end="")
    texts = "".join(it for names in types.values() for it in names.values())
    fields = set(re.findall(r"(?:: |[(<])(\w+)", re.sub("///.*", "", texts)))
    # (what a type has as a parameter is no type of the code)
    for names in re.findall(r"struct \w+<([^>]*)>", texts):
        fields -= {*names.split(", ")}
    model = r"^impl(?:<[^>]*>)? Model for (\w+)(?:(?!^\}).)*?ghost Value = \{ (.*?) \};"
    print("==== What definitions see in the place of types of fields\n")
    for path in sorted(specs.crates.glob("*/src/*.rt")):
        for name, value in re.findall(model, path.read_text(encoding="utf-8"), re.M | re.S):
            if name in fields:
                print(f"{name} ({path}): {value}")


def print_words(specs, imported):
    """Prints the words of the toolchain's library that stand in definitions, by where they are
    declared; without the toolchain, by where they are imported from."""
    library, places = Library() if shutil.which("rt") else None, {}
    for module, name in imported:
        if name and not (specs.crates / module.split(".")[1]).is_dir():
            place, line = library.find(module, name) if library else (module, name)
            line = line if name in line.split() else f"{name}: {line}"
            places.setdefault(str(place), {})[line] = None
    print("\n==== Words of the toolchain's library")
    for place, lines in sorted(places.items()):
        print("", place, *(f"    {it}" for it in lines), sep="\n")


def calls_with_cited(specs, path):
    """The calls of a file, each with the definitions that its clauses cite, each once."""
    source = path.read_text(encoding="utf-8")
    known = imports(source)
    for call in calls(source):
        found = (specs.find_import(known.get(it)) for it in TOKEN.findall(" ".join(call.clauses)))
        yield call, list(dict.fromkeys(filter(None, found)))


def call_at(specs, path, name):
    """The call of this name in a file with what it cites; none where there is no file."""
    found = calls_with_cited(specs, path) if path.is_file() else ()
    return next((it for it in found if it[0].name == name), (None, []))


def print_index(specs, names):
    """Prints the public calls of these crates, with what their contracts say and cite."""
    for crate in names:
        print(f"==== {crate}\n")
        for path in sorted(specs.crates.glob(f"{crate}/src/*.rt")):
            for call, cited in calls_with_cited(specs, path):
                if call.is_public:
                    names = ", ".join(f"{it.name} ({it.file})" for it in cited)
                    print(f"{path.stem}::{call.name}: {call.sentence or '(no comment)'}")
                    print(*(f"    {it}" for it in call.clauses), sep="\n")
                    print(f"    by {names}\n" if names else "")


def trusted_lines(cell):
    """How many lines the bodies of the code have that a cell of the document names: of the
    functions of a file, or of these alone; or of all files of folders, but of these."""
    names, count = set(re.findall(r"`([\w:]+)`", cell)), 0
    for path in map(pathlib.Path, re.findall(r"\]\(\.\./([^)]*)\)", cell)):
        is_all = path.is_dir() or not names
        files = [it for it in path.glob("*.rt") if it.stem not in names] or [path]
        for file in files:
            found = bodies(file.read_text(encoding="utf-8"))
            count += sum(n for name, n in found if is_all or name in names)
    return count


def check_trusted(text):
    """Says whether the document tells how many lines of code are trusted, row by row and in all."""
    part = text.partition("### The code that is trusted")[2].partition("\n## ")[0]
    rows = re.findall(r"^\| (.*) \| .* \| (\d+) \|$", part, re.M)
    for cell, told in rows:
        if trusted_lines(cell) != int(told):
            sys.exit(f"{DOCUMENT}: {cell} has {trusted_lines(cell)} lines, and not {told}")
    of_files = sum(int(told) for cell, told in rows if "/crates/pb_files/" in cell)
    due = f"Of its {sum(int(told) for _, told in rows)} lines"
    if not rows or due not in part or f"{of_files} are about files" not in " ".join(part.split()):
        sys.exit(f"{DOCUMENT}: it has to say '{due}', of which '{of_files} are about files'")


def check(counted, found):
    """Says whether the document tells how much these definitions are, by what each are, and whether
    the order names no other file than theirs."""
    told = " ".join(DOCUMENT.read_text(encoding="utf-8").split())
    for words, own in counted.items():
        lines = sum(len(it.tokens) for it in own)
        due = f"{words.rpartition(', ')[2]}: {len(own)}, on {lines} lines"
        if due not in told:
            sys.exit(f"{DOCUMENT}: it has to say '{due}'")
    left = {*ORDER} - {it.file for it in found}
    if left:
        sys.exit(f"scripts/theorem.py: the order names {' '.join(sorted(left))} for nothing")
    if "### The code that is trusted" in told:
        check_trusted(DOCUMENT.read_text(encoding="utf-8"))
    print(f"{DOCUMENT} tells how much the theorem rests on: {count_of(found)}")


def main():
    # A reader may leave before the end.
    signal.signal(signal.SIGPIPE, signal.SIG_DFL)
    parser = argparse.ArgumentParser(usage=__doc__)
    for option in ("--count", "--check"):
        parser.add_argument(option, action="store_true")
    parser.add_argument("--of", default=HEADLINE)
    parser.add_argument("--index", nargs="*")
    given = parser.parse_args()
    specs = Specs(pathlib.Path("crates"))
    if given.index is not None:
        print_index(specs, given.index or [it for it in crate_names() if it.startswith("pb_")])
        return
    file, _, name = given.of.rpartition(".")
    found = specs.closure([specs.find(file, name)])
    if not found:
        sys.exit(f"scripts/theorem.py: no definition is named {given.of}")
    (law, laws), (call, cited) = ((call_at(specs, *it) if given.of == HEADLINE else (None, []))
                                  for it in (LAW, PROGRAM))
    more = specs.closure([*laws, specs.find(*ANSWERS)] if law else [])
    more, whole = [it for it in more if it not in found], specs.closure(cited)
    counted = {"the definitions": found, "with its laws": found + more if more else [],
               "the program's call, however it ends": whole}
    counted = {words: own for words, own in counted.items() if own}
    if given.check:
        return check(counted, found)
    if not given.count:
        words = [it for it in cited if it not in found + more]
        rest = [it for it in whole if it not in found + more + words]
        first = cited[0].file if cited else ""
        for title, of, own, begun in (
                (f"The program's call: {PROGRAM[0]}", call, [], ""),
                ("The words of its contract; the first case is the theorem", None, words, first),
                ("", None, found, file),
                (f"Its law, and what else that rests on: {LAW[0]}", law, more, SENTENCE),
                ("What else the call's contract says", None, rest, first)):
            print(f"==== {title}\n\n" if title and (of or own) else "", end="")
            print(f"{of.text}\n\n" if of else "", end="")
            print_definitions(specs, in_order(own, begun))
        imported = specs.imported([*in_order(found, file), *more, *words, *rest])
        print_types(specs, imported)
        print_words(specs, imported)
        print()
    for words, own in counted.items():
        print(count_of(own) if own is found else f"{words}: {count_of(own)}")


main()
