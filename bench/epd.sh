#!/bin/sh
# Times `pbook epd` over a million generated lines of about 80 MB, in their ordered form: the best of five runs.
set -eu
lines=$(mktemp)
trap 'rm -f "$lines" "$lines.out"' EXIT
. bench/best.sh

awk 'BEGIN {
    count = split("r1bqkb1r/pppp1ppp/2n2n2/4p3/2B1P3/5N2/PPPP1PPP/RNBQK2R w KQkq -|" \
        "rnbqkbnr/pp1ppppp/8/2p5/4P3/8/PPPP1PPP/RNBQKBNR w KQkq c6|" \
        "8/2p5/3p4/KP5r/1R3p1k/8/4P1P1/8 w - -|" \
        "r4rk1/1pp1qppp/p1np1n2/2b1p1B1/2B1P1b1/P1NP1N2/1PP1QPPP/R4RK1 w - -", setups, "|")
    for (i = 0; i < 1000000; i++) printf "%s bm e2e4; id \"line %d\";\n", setups[i % count + 1], i
}' > "$lines"
epd() {
    build/pbook epd < "$lines" > "$lines.out"
}

least=$(best 5 epd)
awk -v bytes="$(wc -c < "$lines")" -v time="$least" \
    'BEGIN { printf "epd: %.0f MB in %.2f s, %.0f MB/s\n", bytes / 1e6, time / 1e9, bytes * 1000 / time }'
cmp "$lines" "$lines.out"
if [ -x /usr/bin/time ]; then
    /usr/bin/time -f 'epd: %M KB of memory at most' build/pbook epd < "$lines" > /dev/null
fi
