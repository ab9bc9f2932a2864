#!/bin/sh
# Times `pbook export` on 20,000 games of 80 plies that bench/rows.sh gives, and says how many lines and
# how much memory that is. The time is the best of three runs.
set -eu
work=$(mktemp -d)
trap 'rm -rf "$work"' EXIT
. bench/best.sh
. bench/rows.sh

export_lines() {
    build/pbook export examples/table.txt < "$work/lines" > "$work/export"
}

lines 20000 > "$work/lines"
least=$(best 3 export_lines)
awk -v time="$least" 'END { printf "export, 20,000 games: %d lines in %.2f s\n", NR, time / 1e9 }' "$work/export"
if [ -x /usr/bin/time ]; then
    /usr/bin/time -f "    %M KB of memory at most" \
        build/pbook export examples/table.txt < "$work/lines" > "$work/export"
fi
