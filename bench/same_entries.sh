#!/bin/sh
# Compares the entries of the books that `pbook collect` makes of 20,000 games, by several rules of what counts, with those of the ones that
# PolyGlot's `make-book` makes of them, where polyglot and pgn-extract are installed. The published words of the keys are read out of the program polyglot, which holds them
# in a row. PolyGlot leaves open in which order moves of one key and one weight stand, so the entries are compared in sorted order.
set -eu
PATH=$PATH:/usr/games
if ! command -v polyglot > /dev/null || ! command -v pgn-extract > /dev/null; then
    echo 'entries beside PolyGlot: not compared, polyglot and pgn-extract are wanted'
    exit 0
fi
work=$(mktemp -d)
trap 'rm -rf "$work"' EXIT
. bench/rows.sh

# The first word as it lies in the program, and 781 words of 8 bytes from there on.
program=$(command -v polyglot)
first='\x41\x6d\x77\x33\x7e\x24\x39\x9d'
offset=$(LC_ALL=C grep -obUaP "$first" "$program" | head -1 | cut -d: -f1)
od -An -v -tx8 -w8 -j "$offset" -N $((781 * 8)) "$program" | tr -d ' ' > "$work/table"

lines 20000 > "$work/lines"
awk -F'\t' '{ printf "[Event \"?\"]\n[Result \"%s\"]\n\n%s %s\n\n", $2, $4, $2 }' "$work/lines" > "$work/moves.pgn"
pgn-extract -s -Wsan "$work/moves.pgn" > "$work/games.pgn" 2> "$work/warnings"

# entries BOOK: a line for each entry, sorted
entries() {
    od -An -v -tx1 -w16 "$1" | LC_ALL=C sort
}

for rules in '1024 1' '24 3' '8 2'; do
    plies=${rules% *} least=${rules#* }
    polyglot make-book -pgn "$work/games.pgn" -bin "$work/other" -max-ply "$plies" -min-game "$least" > "$work/output"
    build/pbook collect --plies "$plies" --least "$least" "$work/table" "$work/book" < "$work/lines" > "$work/replies"
    entries "$work/book" > "$work/own"
    entries "$work/other" > "$work/others"
    cmp "$work/own" "$work/others"
    echo "entries beside PolyGlot, first $plies plies, at least $least times: the same $(wc -l < "$work/own")"
done
