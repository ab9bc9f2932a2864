#!/bin/sh
# Compares the list of docs/WRONG_BODIES.md under `What nobody may do` with the wrong bodies of
# crates/*/bodies: each line of the list names one of its own that is there, and the list has as
# many lines as it says.
# Usage: scripts/named_mistakes.sh (at the top of the repository).
set -eu
exec python3 -B - << 'END'
import collections, pathlib, re, sys
document = pathlib.Path("docs/WRONG_BODIES.md")
text = document.read_text(encoding="utf-8")
part = re.search(r"^## What nobody may do\n(.*?)(^## |\Z)", text, re.M | re.S)[1]
lines = re.findall("^- .*", part, re.M)
edits = [re.findall("`(crates/[^/`]*/bodies/[^/`]*[.]edit)`", line) for line in lines]
named = collections.Counter(sum(edits, []))
wrong = [f"no edit is named: {line}" for line, own in zip(lines, edits) if not own]
wrong += [f"there is no {path}" for path in named if not pathlib.Path(path).is_file()]
wrong += [f"it is named twice: {path}" for path in named if named[path] > 1]
if not lines or f"each of these {len(lines)} for ever" not in part:
    wrong.append(f"{document}: the list doesn't have as many lines as it says, but {len(lines)}")
print(*wrong or [f"{len(lines)} named mistakes have their edits"], sep="\n")
sys.exit(bool(wrong))
END
