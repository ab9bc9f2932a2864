#!/bin/sh
# Two workers at once send the games of games.txt through a named pipe to one `pbook collect
# --journal`. Each sends a game again where it sees no answer, and each tenth game twice, as if
# the answer had got lost. The collector is killed once and started again on its journal. In the
# end the book has to be book.bin, which was made of each game once.
# Usage: PROGRAM=program examples/workers.sh (at the top of the repository).
set -eu
PROGRAM=${PROGRAM:-build/pbook}
[ -x "$PROGRAM" ] || { echo "no program $PROGRAM"; exit 1; }
work=$(mktemp -d)
keeper='' collector='' even='' odd=''
leave() {
    # Those that were started and not waited for; one may have ended all the same.
    for process in $keeper $collector $even $odd; do kill "$process" 2> /dev/null || true; done
    rm -rf "$work"
}
trap leave EXIT
trap 'exit 1' HUP INT TERM
tab=$(printf '\t')

# answers ID: how many answers to this id have come
answers() { grep -c -F " $1 " "$work/replies" || true; }

# send LINE: sends a game until an answer to it comes, again after each second, and gives up after
# five minutes
send() {
    id=${1%%"$tab"*}
    before=$(answers "$id")
    for _ in $(seq 300); do
        printf '%s\n' "$1" > "$work/games"
        for _ in $(seq 100); do
            [ "$(answers "$id")" -eq "$before" ] || return 0
            sleep 0.01
        done
    done
    return 1
}

# worker LINES: sends the games of a file, one after the other
worker() {
    count=0
    while IFS= read -r line; do
        send "$line"
        count=$((count + 1))
        [ $((count % 10)) -ne 0 ] || send "$line"
    done < "$1"
}

# collect: starts the collector, as a process of its own
collect() {
    "$PROGRAM" collect --journal "$work/journal" examples/table.txt "$work/book" \
        < "$work/games" >> "$work/replies" &
    collector=$!
}

# One worker has the ids of even numbers, the other those of odd ones: a game and its repeats come
# from one worker.
awk -F'\t' -v work="$work" '{ print > (work "/" ($1 ~ /[02468]$/ ? "even" : "odd")) }' \
    examples/games.txt
: > "$work/journal"
: > "$work/replies"
mkfifo "$work/games"
# The pipe is held open at both ends: so the collector waits when no worker has it open, and lines
# wait when no collector has.
sleep 3600 <> "$work/games" &
keeper=$!

collect
worker "$work/even" & even=$!
worker "$work/odd" & odd=$!
tries=0
while [ "$(wc -l < "$work/replies")" -lt 100 ]; do
    tries=$((tries + 1))
    [ "$tries" -lt 30000 ] || { echo 'no hundred answers came'; exit 1; }
    sleep 0.01
done
kill -9 "$collector"
# The shell may say that it was killed.
wait "$collector" 2> /dev/null || true
journaled=$(wc -l < "$work/journal")
echo "killed after $(wc -l < "$work/replies") answers, with $journaled games on the journal"
collect
wait "$even"
wait "$odd"

# Without its keeper the pipe ends, and the collector makes the book.
kill "$keeper"
wait "$collector"
keeper='' collector='' even='' odd=''
answered=$(grep -c '^ok' "$work/replies")
journaled=$(wc -l < "$work/journal")
echo "$(wc -l < examples/games.txt) lines, $answered answers ok, $journaled games"
cmp "$work/book" examples/book.bin
echo 'the book is examples/book.bin'
