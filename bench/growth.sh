#!/bin/bash
# Tells how time and memory grow with the games, for bench/growth.py to draw: `pbook collect` of so
# many games of 80 plies that bench/rows.sh gives, and `polyglot make-book` of the same games as PGN,
# in turn, all plies. Where MILLION is set, of a million games too, once: that takes a quarter of an
# hour and gigabytes.
# Usage: bench/growth.sh | python3 -B bench/growth.py > docs/growth.svg
set -eu
PATH=$PATH:/usr/games
work=$(mktemp -d)
trap 'rm -rf "$work"' EXIT
. bench/rows.sh

# grow ROUNDS GAMES: puts how many plies these games have, and then what bench/pair.sh says
grow() {
    lines "$2" > "$work/lines"
    awk -F'\t' '{ plies += split($4, moves, " ") } END { print NR " games of " plies " plies" }' "$work/lines"
    awk -F'\t' '{ printf "[Event \"?\"]\n[Result \"%s\"]\n\n%s %s\n\n", $2, $4, $2 }' "$work/lines" |
        pgn-extract -s -Wsan > "$work/games.pgn"
    bash bench/pair.sh "$1" "build/pbook collect examples/table.txt $work/book < $work/lines" \
        "polyglot make-book -pgn $work/games.pgn -bin $work/other -max-ply 1024 -min-game 1" 2>&1
}

for count in 5000 20000 100000; do
    grow 5 "$count"
done
[ -z "${MILLION:-}" ] || grow 1 1000000
