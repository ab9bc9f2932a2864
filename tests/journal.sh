#!/bin/sh
# Kills `pbook collect --journal` with SIGKILL at 200 random moments while two workers send and
# resend games through a fifo, and starts it again on the journal each time: each game that was
# ever answered `ok` has to have its number in the last run, and BOOK has to be that of one run
# that nothing interrupted. Then the same with --sync, at fewer moments, and, as root, on a disk
# that fills up.
# Usage: PROGRAM=program KILLS=number tests/journal.sh (at the top of the repository; 200 kills
# where KILLS isn't given).
set -eu
PROGRAM=${PROGRAM:-build/pbook}
. tests/lib/harness.sh
cp examples/table.txt "$work/table"
kills=${KILLS:-200}
cd "$work"
mkfifo games

# Each number has a game of its own, in which kings walk to and fro. Two workers have one half of them
# each; each sends 60 in a run, of which 30 are those of the run before.
pawn_setups $((60 * (kills + 1))) | awk -F'\t' '{
    moves = "e1d1"
    for (turn = $1 % 30; turn > 0; turn--) moves = moves " e8d8 d1e1 d8e8 e1d1"
    printf "w%d-%d\t1-0\t%s\t%s\n", $1 % 2, $1, $2, moves
}' > all
grep '^w0' all > half0
grep '^w1' all > half1

# worker HALF RUN: sends the lines of a run, each at once
worker() {
    sed -n "$(($2 * 30 - 29 > 1 ? $2 * 30 - 29 : 1)),$(($2 * 30 + 30))p" "half$1" > "part$1"
    # The reader is killed in between. Where that is told by an error in place of a signal, it is
    # one for each line.
    while read -r line; do printf '%s\n' "$line" 2> /dev/null || return 0; done < "part$1" > games
}

# random BELOW COUNT: so many numbers, in thousandths, one a line
random() {
    awk -v below="$1" -v count="$2" \
        'BEGIN { srand(7); for (i = 0; i < count; i++) print int(rand() * below) / 1000 }'
}

# end PROCESS: kills a process of the background, which may have ended, and waits for it, which
# the shell may tell
end() {
    kill -9 "$1" 2> /dev/null || true
    wait "$1" 2> /dev/null || true
}

# wait_for_replies: waits for the first reply. It looks more often than `awaits`, as all replies
# have come soon after it.
wait_for_replies() {
    tries=0
    while [ ! -s replies ]; do
        tries=$((tries + 1))
        holds test "$tries" -lt $((patience * 1000))
        sleep 0.001
    done
}

# killed_runs COUNT OPTION..: so many runs on a new journal, each killed at some moment; their
# replies go to `answered`
killed_runs() {
    random 20 "$1" > moments
    shift
    : > journal
    : > answered
    run=0
    while read -r moment; do
        : > replies
        "$PROGRAM" collect -q --journal journal "$@" table book < games > replies 2> errors &
        collector=$!
        worker 0 "$run" & first=$!
        worker 1 "$run" & second=$!
        # Each fourth run is killed while it may still read the journal, the others once they have
        # answered.
        if [ $((run % 4)) -ne 3 ]; then wait_for_replies; fi
        sleep "$moment"
        end "$collector"
        # A worker may wait for a reader that never comes, and one that has only begun would lose
        # a signal to the trap of this script.
        end "$first"
        end "$second"
        holds test ! -s errors
        cat replies >> answered
        run=$((run + 1))
    done < moments
    note "$(count '^ok' answered) answers of $run runs, $(wc -l < journal) games on the journal"
    holds grep -q '^ok' answered
}

# goes_on OPTION..: a last run with these options, which nothing interrupts, takes all games, and
# tells no error. That a kill has cut a line is a warning, which -q leaves out.
goes_on() {
    "$PROGRAM" collect -q --journal journal "$@" table book < all > last 2> errors
    holds test ! -s errors
    # Each whole `ok` line that was ever written stands among its replies.
    grep '^ok [^ ]* [0-9]*$' answered | sort -u > acknowledged
    sort -u last > numbered
    comm -23 acknowledged numbered > lost
    holds test ! -s lost
    # No number was given to two games, and no game has two.
    for field in 2 3; do
        sort -u acknowledged numbered | cut -d ' ' -f "$field" | sort | uniq -d > twice
        holds test ! -s twice
    done
    # The book is that of one run over all games without a journal, and so is that of the journal.
    "$PROGRAM" collect table whole < all > one 2> errors
    holds cmp book whole
    "$PROGRAM" collect table again < journal > two 2>> errors
    holds test ! -s errors
    holds cmp again whole
}

killed() {
    killed_runs "$kills"
    goes_on
}

killed_synced() {
    killed_runs $((kills / 10)) --sync
    goes_on --sync
}

# A run is on a disk that fills up, and the last one elsewhere on the journal that it leaves.
full_disk() {
    mkdir small
    mount -t tmpfs -o size=64k tmpfs "$work/small"
    : > small/journal
    status=0
    "$PROGRAM" collect --journal small/journal table book < all > answered 2> errors || status=$?
    holds test "$status" -eq 3
    holds test "$(cat errors)" = 'pbook: small/journal: no space left on device'
    cp small/journal journal
    holds grep -q '^ok' answered
    goes_on
}

choose true '' killed killed_synced
choose is_root 'root is wanted' full_disk
try_all
