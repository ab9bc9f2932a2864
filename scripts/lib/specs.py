"""Reads the definitions of crates/*/specs, finds what rests on what, and counts it.

A definition rests on those whose names stand in it, by the imports of its file. A line of it counts
where it has a token: a name, a number or a run of signs. Brackets, commas, comments, ℕ, λ, and the
words `pub`, `abbrev`, `unfoldable` and `inline` are none. A line that begins with a closing brace
doesn't count.
"""
import dataclasses
import functools
import re

TOKEN = re.compile(r"[A-Za-z_][\w'-]*|\d+|[^\s\w(){}\[\],]+")
NO_TOKENS = {"pub", "abbrev", "unfoldable", "inline"}
# A module with the names that are taken from it, or with a name for itself, or with its own.
IMPORT = re.compile(r"^\s*(?:\w+ )*use ([\w.]*?)(\w+)(?:\.\{([^}]*)\}| as (\w+))?;?$", re.M)
# The words before the name of what is defined.
BEFORE = r"(?:(?:abbrev|unfoldable|inline|pub|record|data) )*"


def imports(source):
    """What each imported name stands for: a module and a name there. A name for a module stands for
    the module and none."""
    found = {}
    for above, last, names, alias in IMPORT.findall(source):
        for item in filter(None, (it.strip() for it in names.split(","))):
            name, _, local = item.partition(" as ")
            found[local or name] = above + last, name
        if not names:
            found[alias or last] = above + last, None
    return found


@dataclasses.dataclass(frozen=True)
class Call:
    """A function: its name, whether it is public, as a member of a trait is, the first sentence of
    its comment, its clauses, and its text up to the body, with the comment."""

    name: str
    is_public: bool
    sentence: str
    clauses: list
    text: str


# Comments and attributes, the indent, what stands before `fn`, the name, and all up to a body that
# begins on a line of its own, as that of a function with clauses does, or to the last clause.
CALL = re.compile(r"((?:^ *(?:///|#\[)[^\n]*\n)*)^( *)((?:pub(?:\(crate\))? )?)(?:const )?fn (\w+)"
                  r"((?:(?!\n\n).)*?)(^\2(?=\{)|\};$)", re.M | re.S)


def calls(source):
    """The functions of a file that have clauses, in their order."""
    for found in re.finditer(CALL, source):
        above, _, before, name, rest, end = found.groups()
        notes = " ".join(re.findall(r"^ *///\s*(.*)", above, re.M))
        clauses = re.split(r"\n\s*(?=(?:ensures|requires)\b)", rest + end.strip(";"))[1:]
        if clauses:
            yield Call(name, before == "pub " or end == "};", re.split(r"(?<=\.)\s", notes)[0],
                       [" ".join(it.split()) for it in clauses], found[0].rstrip())


def lines_of(lines, indent):
    """Where the body of the function begins and ends that the first line begins, counted from it.
    A declaration in a trait has none, which is 0."""
    body, open_braces = 0, 0
    for at, line in enumerate(lines, 1):
        open_braces += line.count("{") - line.count("}")
        is_own = line.startswith(indent) and not line.startswith(indent + " ")
        if not body and is_own and line.endswith(("{", "{}")):
            body = at
        if body and is_own and line.endswith("}"):
            return body, at
        if not body and open_braces == 0 and line.endswith(";"):
            break
    return 0, 0


def bodies(source):
    """The functions of a file that have a body, by the layout of `rt fmt`: their names, behind that
    of their type, and how many lines of the body are no comment."""
    lines, owner = source.split("\n"), ""
    for at, first in enumerate(lines):
        if re.match(r"\w", first):
            to = re.match(r"impl(?:<.*?>)? (?:.* for )?(\w+)", first)
            owner = to[1] + "::" if to else ""
        begun = re.match(r"( *)(?:pub(?:\(\w+\))? )?(?:const )?fn (\w+)", first)
        body, last = lines_of(lines[at:], begun[1]) if begun else (0, 0)
        if body:
            inner = (it.strip() for it in lines[at + body : at + last - 1])
            yield owner + begun[2], sum(1 for it in inner if it and not it.startswith("//"))


def count_of(found):
    """How much these definitions are."""
    lines, files = [line for it in found for line in it.tokens], {it.file for it in found}
    tokens = sum(map(len, lines))
    return f"{len(found)} definitions, {len(lines)} lines, {tokens} tokens, {len(files)} files"


@dataclasses.dataclass(eq=False)
class Definition:
    """A definition: its file as CRATE.FILE, its name, the comment over its part of the file, and
    its lines, with the comments above them."""

    file: str
    name: str
    part: str
    lines: list

    @functools.cached_property
    def tokens(self):
        """The tokens of each line that counts."""
        bare = [re.sub(r"^}.*|(^|\s)\s*--(\s.*|$)", "", line) for line in self.lines]
        found = [[it for it in TOKEN.findall(line) if it not in NO_TOKENS] for line in bare]
        return [it for it in found if it]

    @functools.cached_property
    def words(self):
        """All its tokens."""
        return {it for line in self.tokens for it in line}


class Specs:
    """The definitions of all crates below a folder, by file and name, the cases of each `data`, the
    imports of each file, and the comment with which it begins."""

    def __init__(self, crates):
        self.crates, self.imports, self.heads = crates, {}, {}
        self.definitions, self.cases = {}, {}
        for path in sorted(crates.glob("*/specs/*.antt")):
            self.read(f"{path.parts[-3]}.{path.stem}", path.read_text(encoding="utf-8"))

    def read(self, file, source):
        """Reads a file. A comment that stands alone is over what follows."""
        self.imports[file] = imports(source)
        own, part, is_data = None, "", False
        for block in source.split("\n\n"):
            notes = []
            for line in filter(None, block.split("\n")):
                if line.startswith("--"):
                    notes.append(line)
                elif line.startswith((" ", "}")):
                    own.lines.append(line)
                    case = is_data and re.match(r" +([a-z_]\w*) :", line)
                    if case:
                        self.cases[file, case[1]] = own
                elif not re.match(r"(pub )?(use|mod) ", line):
                    name = re.match(rf"{BEFORE}([^\s(:{{]+)", line)[1]
                    new = Definition(file, name, part, [])
                    own = self.definitions.setdefault((file, name), new)
                    own.lines += [*notes, line]
                    notes, is_data = [], line.startswith(("data ", "pub data "))
            if notes:
                part = "\n".join(notes)
                self.heads.setdefault(file, part)

    def find(self, file, name):
        """The definition that a name stands for in a file, or none."""
        own = self.definitions.get((file, name)) or self.cases.get((file, name))
        return own or self.find_import(self.imports.get(file, {}).get(name))

    def find_import(self, imported):
        """The definition that is imported so, or none. A crate may pass on a module by its Lib."""
        module, name = imported or ("", None)
        place = re.fullmatch(r"Rattle\.(\w+)\.specs\.(\w+)", module)
        if not place:
            return None
        passed = self.imports.get(f"{place[1]}.Lib", {}).get(place[2])
        if passed:
            return self.find_import((passed[0], name))
        return self.find(f"{place[1]}.{place[2]}", name)

    def cited(self, own):
        """The definitions that this one names, by their names or with that of a module in front."""
        known = self.imports[own.file]
        for line in own.tokens:
            yield from (self.find(own.file, word) for word in line)
            for alias, point, name in zip(line, line[1:], line[2:]):
                module, among = known.get(alias, ("", alias))
                if point == "." and not among:
                    yield self.find_import((module, name))

    def closure(self, seeds):
        """All that these definitions rest on, they included, in the order of their files."""
        seen, left = {None}, list(seeds)
        while left:
            own = left.pop()
            if own not in seen:
                seen.add(own)
                left += self.cited(own)
        return [it for it in self.definitions.values() if it in seen]

    def imported(self, found):
        """The imports whose names stand in these definitions, each once."""
        # (a circle in a name is the place of an argument)
        named = ((own, *it) for own in found for it in self.imports[own.file].items())
        named = (it for own, local, it in named
                 if own.words.issuperset(TOKEN.findall(local.replace("◌", " "))))
        return list(dict.fromkeys(named))
