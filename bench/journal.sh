#!/bin/sh
# Times `pbook collect --journal` on 20,000 games of 80 plies that bench/rows.sh gives, beside the same games by
# `collect` alone, then the replay of the journal that was left, and 500 games by `--sync`. Each time is the best of five runs.
set -eu
work=$(mktemp -d)
trap 'rm -rf "$work"' EXIT
. bench/best.sh
. bench/rows.sh

# The folder of the journal has to be on a disk for --sync to mean something; that of the repository is.
journal=build/bench.journal

alone() {
    build/pbook collect examples/table.txt "$work/book" < "$work/lines" > "$work/replies"
}

# journaled LINES OPTION..: makes the book, from a journal without games
journaled() {
    lines=$1
    shift
    : > "$journal"
    build/pbook collect --journal "$journal" "$@" examples/table.txt "$work/book" < "$lines" > "$work/replies"
}

replayed() {
    build/pbook collect --journal "$journal" examples/table.txt "$work/book" < /dev/null
}

tell() { awk -v name="$1" -v games="$2" -v time="$3" 'BEGIN { printf "%s: %.2f s, %.1f microseconds a game\n", name, time / 1e9, time / games / 1e3 }'; }

lines 20000 > "$work/lines"
head -n 500 "$work/lines" > "$work/few"
tell 'collect, 20,000 games' 20000 "$(best 5 alone)"
tell 'collect --journal, the same games' 20000 "$(best 5 journaled "$work/lines")"
tell 'collect --journal, that journal replayed' 20000 "$(best 5 replayed)"
tell 'collect --journal --sync, 500 games' 500 "$(best 5 journaled "$work/few" --sync)"
rm -f "$journal"
