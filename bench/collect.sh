#!/bin/sh
# Times `pbook collect` on games of 80 plies that bench/rows.sh gives: 20,000 games, by other rules of
# what counts and over a table of equal words too, the same games sent twice, 100,000 games, and
# 100,000 ids of one game; and beside it `polyglot make-book` on the first 20,000 as PGN, where it and
# pgn-extract are installed. Each time is the best of three runs. Where MILLION is set, a million
# games too, once, and by the other rules: that takes some minutes and gigabytes.
set -eu
PATH=$PATH:/usr/games
work=$(mktemp -d)
trap 'rm -rf "$work"' EXIT
. bench/best.sh
. bench/rows.sh

# collect LINES OPTION..: makes a book of the lines
collect() {
    lines=$1
    shift
    build/pbook collect "$@" "$table" "$work/book" < "$lines" > "$work/replies"
}

# figures NAME LINES TIME: plies a second, and the most memory where /usr/bin/time is installed
figures() {
    plies=$(awk -F'\t' '{ plies += split($4, moves, " ") } END { print plies }' "$2")
    awk -v name="$1" -v plies="$plies" -v time="$3" \
        'BEGIN { printf "%s: %d plies in %.2f s, %.0f plies a second\n", name, plies, time / 1e9, plies * 1e9 / time }'
    if [ -x /usr/bin/time ]; then
        shift 3
        /usr/bin/time -f "    %M KB of memory at most" "$@" > "$work/output"
    fi
}

make_book() {
    polyglot make-book -pgn "$work/games.pgn" -bin "$work/other" -max-ply 1024 -min-game 1 > "$work/output"
}

table=examples/table.txt
lines 20000 > "$work/lines"
least=$(best 3 collect "$work/lines")
figures "collect, 20,000 games" "$work/lines" "$least" \
    sh -c "build/pbook collect $table $work/book < $work/lines"
figures "collect --plies 24 --least 3, 20,000 games" "$work/lines" \
    "$(best 3 collect "$work/lines" --plies 24 --least 3)" \
    sh -c "build/pbook collect --plies 24 --least 3 $table $work/book < $work/lines"
# A key is that word or 0 then, so that two parts of the tally hold all rows.
table=$work/equal
awk '{ print "0123456789abcdef" }' examples/table.txt > "$table"
figures "collect, 20,000 games, a table of equal words" "$work/lines" \
    "$(best 3 collect "$work/lines")" \
    sh -c "build/pbook collect $table $work/book < $work/lines"
table=examples/table.txt
cat "$work/lines" "$work/lines" > "$work/twice"
twice=$(best 3 collect "$work/twice")
figures "collect, the same games again" "$work/lines" $((twice - least)) \
    sh -c "build/pbook collect $table $work/book < $work/twice"
lines 100000 > "$work/many"
figures "collect, 100,000 games" "$work/many" "$(best 3 collect "$work/many")" \
    sh -c "build/pbook collect $table $work/book < $work/many"
awk -F'\t' -v OFS='\t' 'NR == 1 { for (n = 1; n <= 100000; n++) { $1 = "id-" n; print } exit }' "$work/lines" > "$work/one"
figures "collect, one game under 100,000 ids" "$work/one" "$(best 3 collect "$work/one")" \
    sh -c "build/pbook collect $table $work/book < $work/one"

if [ -n "${MILLION:-}" ]; then
    lines 1000000 > "$work/million"
    figures "collect, a million games" "$work/million" "$(best 1 collect "$work/million")" \
        sh -c "build/pbook collect $table $work/book < $work/million"
    figures "collect --plies 24 --least 3, a million games" "$work/million" \
        "$(best 1 collect "$work/million" --plies 24 --least 3)" \
        sh -c "build/pbook collect --plies 24 --least 3 $table $work/book < $work/million"
    rm "$work/million"
fi

if command -v polyglot > /dev/null && command -v pgn-extract > /dev/null; then
    awk -F'\t' '{ printf "[Event \"?\"]\n[Result \"%s\"]\n\n%s %s\n\n", $2, $4, $2 }' "$work/lines" > "$work/moves.pgn"
    pgn-extract -s -Wsan "$work/moves.pgn" > "$work/games.pgn"
    figures "polyglot make-book, 20,000 games" "$work/lines" "$(best 3 make_book)" \
        polyglot make-book -pgn "$work/games.pgn" -bin "$work/other" -max-ply 1024 -min-game 1
fi
