#!/bin/sh
# Counts the instructions and the mispredicted branches of `pbook collect` by callgrind's simulation,
# over 20,000 games that bench/rows.sh gives, where valgrind is installed. It takes a minute. Other
# work on the machine doesn't change these counts.
set -eu
command -v valgrind > /dev/null || {
    echo 'collect: no valgrind is installed, so no instructions are counted'
    exit 0
}
work=$(mktemp -d)
trap 'rm -rf "$work"' EXIT
. bench/rows.sh

lines 20000 > "$work/lines"
valgrind --tool=callgrind --branch-sim=yes --callgrind-out-file="$work/counts" \
    build/pbook collect examples/table.txt "$work/book" \
    < "$work/lines" > "$work/replies" 2> "$work/said" || { cat "$work/said" >&2; exit 1; }
plies=$(awk -F'\t' '{ plies += split($4, moves, " ") } END { print plies }' "$work/lines")
awk -v plies="$plies" '
    /^events: / { for (i = 2; i <= NF; i++) at[$i] = i }
    /^totals: / {
        printf "collect, 20,000 games: a ply takes %.0f instructions, of which %.2f are mispredicted ", \
            $at["Ir"] / plies, $at["Bcm"] / plies
        printf "branches and %.2f mispredicted jumps\n", $at["Bim"] / plies
    }' "$work/counts"
