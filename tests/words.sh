#!/bin/sh
# Tries that each thing has one word: none that docs/GLOSSARY.md forbids stands in the code, the
# definitions or the documents, be it one or many.
# Usage: tests/words.sh (at the top of the repository).
set -eu
. tests/lib/harness.sh

one_word_each() {
    sed -n 's/^- .*: never \(.*\)\.$/\1/p' docs/GLOSSARY.md | tr ',' '\n' |
        sed 's/^ *//; s/$/s\\?/' > "$work/doubles"
    note "$(wc -l < "$work/doubles") words"
    holds test -s "$work/doubles"
    holds not grep -rniw -f "$work/doubles" --include='*.md' --include='*.rt' --include='*.antt' \
        --exclude=GLOSSARY.md README.md CHANGELOG.md docs crates/*/src crates/*/specs
}

try_all one_word_each
