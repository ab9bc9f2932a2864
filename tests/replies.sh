#!/bin/sh
# Tries that the answer to a line has gone out before `collect` or `check` waits for the next one: a
# worker sends the games of examples/games.txt one by one, each once, and waits for the answer in
# between. So it goes with a saved ledger and a journal too.
# Usage: PROGRAM=program tests/replies.sh (at the top of the repository).
set -eu
PROGRAM=${PROGRAM:-build/pbook}
. tests/lib/harness.sh
. tests/lib/places.sh
. tests/lib/collector.sh
"$PROGRAM" collect "$table" "$work/book" < "$work/games" > "$work/due"

# asks STATUS WORD..: a run with these words gives the answers of $work/due, each before it has
# another line, and ends with this status. It has nothing to tell on standard error.
asks() {
    wanted=$1
    shift
    begin "$PROGRAM" "$@"
    while IFS= read -r line; do
        printf '%s\n' "$line" >&3
        timeout "$patience" head -n 1 <&4 > answer
        holds test -s answer
        cat answer >> answers
    done < "$work/games"
    holds end "$wanted"
    holds test ! -s told
    holds cmp answers "$work/due"
}

# collects_with OPTION..: so it is of `collect`, and its book is the new one
collects_with() {
    : > kept
    asks 0 collect "$@" "$table" "$book"
    holds is_new "$book"
}
collect() { collects_with; }
with_ledger() { collects_with --ledger kept; }
with_journal() { collects_with --journal kept; }

# A run of `check` holds no game, so the line that has the id of another one is a game too.
judged() {
    awk -F'\t' '$1 == "worker9-001" { print "refused", $1, "illegal 3"; next } { print "ok", $1 }' \
        "$work/games" > "$work/due"
    asks 1 check
}

try_all collect with_ledger with_journal judged
