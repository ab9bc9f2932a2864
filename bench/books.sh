#!/bin/sh
# Times `pbook show` over a book of a million entries, and `pbook probe` and `pbook lookup` in it: the
# best of five runs.
set -eu
work=$(mktemp -d)
trap 'rm -rf "$work"' EXIT
. bench/best.sh

# A million entries of 16 bytes, with keys that rise, and those of the bundled book among them.
{
    awk 'BEGIN { for (i = 0; i < 1000000; i++) printf "%016x031c000100000000\n", i * 1000 }'
    xxd -p -c 16 examples/book.bin
} | LC_ALL=C sort -s -k 1.1,1.16 | xxd -r -p > "$work/book"
# Ten thousand positions, of which that book has each.
awk '{ lines[NR] = $0 } END { for (i = 0; i < 10000; i++) print lines[i % NR + 1] }' \
    examples/export.epd > "$work/positions"
# The lines go to a file, as they would be kept.
show() {
    build/pbook show "$work/book" > "$work/output"
}
lookup() {
    build/pbook lookup examples/table.txt "$work/book" < "$work/positions" > "$work/output"
}

least=$(best 5 show)
awk -v time="$least" 'BEGIN { printf "show: a million entries in %.2f s\n", time / 1e9 }'
START='rnbqkbnr/pppppppp/8/8/8/8/PPPPPPPP/RNBQKBNR w KQkq - 0 1'
least=$(best 5 build/pbook probe examples/table.txt "$work/book" "$START")
awk -v time="$least" 'BEGIN { printf "probe: in a million entries in %.3f s\n", time / 1e9 }'
least=$(best 5 lookup)
awk -v time="$least" -v found="$(grep -c '^[a-h]' "$work/output")" 'BEGIN {
    printf "lookup: 10,000 positions, of which it has %d, in a million entries in %.3f s\n", found, time / 1e9
}'
if [ -x /usr/bin/time ]; then
    /usr/bin/time -f 'show: %M KB of memory at most' build/pbook show "$work/book" > "$work/output"
fi
