#!/bin/sh
# Runs each command on the examples, on random bytes, on packed and PGN input, and on files that
# are cut short, by a build of its own: with AddressSanitizer, and with a check in place of each
# proof. A bad access, a failed check and a run that doesn't end give another status than the one
# that is stated. It proves nothing.
# Usage: tests/noise.sh (at the top of the repository).
set -eu
unset PROGRAM
. tests/lib/harness.sh
. scripts/lib/unproved.sh
top=$PWD
mkdir "$work/data"
# What AddressSanitizer finds would be status 1 else.
export ASAN_OPTIONS=exitcode=99

cd "$work/data"
cp "$top/examples/table.txt" table
cp "$top/examples/book.bin" book
head -n 60 "$top/examples/games.txt" > games
{ cat games; sed -n 121p "$top/examples/games.txt"; } > games_refused
head -n 300 "$top/examples/export.epd" > listing
{ head -n 60 listing; awk -F'|' '{ print $1 }' "$top/examples/moves.txt" | head -n 5; } > places
head -c 1000 book > cut_book
head -c 65536 /dev/urandom > noise
gzip -c games > packed
: > empty
printf '[Event "one game"]\n[Result "1-0"]\n\n1. e4 e5 2. Nf3 1-0\n' > pgn
{ echo 'pbook-ledger 1'; head -n 10 games; } > ledger
{ head -n 20 games; printf 'torn\t1-0\trnbq'; } > journal

# ends_so STATUS INPUT WORD..: a run with these words on this input ends with this status
ends_so() {
    due=$1 input=$2 status=0
    shift 2
    rm -rf "$work/run"
    cp -R "$work/data" "$work/run"
    cd "$work/run"
    timeout "$patience" "$work/program" "$@" < "$input" > "$work/put" 2> "$work/errors" || status=$?
    if [ "$status" -eq "$due" ]; then return; fi
    echo "    the status is $status, and this is on standard error:"
    head -n 40 "$work/errors"
    return 1
}

# run STATUS INPUT WORD..: the check of these
run() { check "$*" ends_so "$@"; }

cd "$top"
check 'the program is built' build_unproved . "$work/program"
run 0 empty fen "$start" e2e4 c7c5 g1f3
run 1 empty fen "$start" e2e4 e2e4
run 1 empty fen 'rnbqkbnr/pppppppp/44/8/8/8/PPPPPPPP/RNBQKBNR w KQkq - 0 1'
run 0 listing epd
run 1 noise epd
run 1 packed epd
run 0 empty epd
run 1 games_refused check
run 0 games check
run 1 noise check
run 1 packed check
run 1 pgn check
run 0 empty check
run 0 places lookup table book
run 1 noise lookup table book
run 1 packed lookup table book
run 0 empty lookup table book
run 1 places lookup table noise
run 1 places lookup noise book
run 3 places lookup table missing
run 0 empty tree table book
run 0 empty tree --plies 8 --weight 2 table book "$start"
run 1 empty tree table noise
run 1 empty tree noise book
run 3 empty tree table missing
run 0 games collect --summary table new
run 0 games export --summary table
run 2 empty epd games
run 0 empty show book
run 1 empty show cut_book
run 1 empty show noise
run 3 empty show missing
run 0 empty probe table book "$start"
run 1 empty probe table noise "$start"
run 1 empty probe noise book "$start"
run 1 empty probe table book 'no record'
run 0 games collect table new
run 0 games collect --plies 8 --least 2 table new
run 0 noise collect table new
run 0 packed collect table new
run 0 pgn collect table new
run 1 games collect noise new
run 0 games collect --ledger ledger table new
run 0 games collect --ledger empty table new
run 1 games collect --ledger noise table new
run 0 games collect --journal journal table new
run 0 games collect --journal journal --sync table new
run 1 games collect --journal noise table new
run 0 games export table
run 0 games export --plies 8 --least 2 table
run 0 noise export table
run 1 games export noise
run 0 empty games journal ledger journal
run 0 empty games noise book
run 3 empty games journal missing
run 2 empty --help
run 2 empty --version
run 2 empty collect
run 2 games collect --plies x table new
run 2 empty
finish
