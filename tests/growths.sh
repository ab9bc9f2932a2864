#!/bin/sh
# Refuses memory to calls of the library, growth by growth. The program `worked_examples` answers
# the rows that tests/growths.rows names, all of them in a run, with the n-th call that asks for
# memory refused, for n = 1, 2, .. until a run has no such call, and then so with all calls from
# the n-th on refused. What is due with ample memory is that program's expected output, which the
# gate compares. tests/growths.awk says what else may come of a run.
# Each row has to be seen to want memory, both ways: in the answer of its call, but for those of
# which the call tells none.
# The first run that may not be ends all; what was found is shown, and the folder with it stays:
# the output (put) and what is due.
# Usage: tests/growths.sh (at the top of the repository; `make test-growths` builds the program;
# cc has to be there). WORKED_EXAMPLES names another program than
# crates/worked_examples/out/worked_examples.
set -eu
examples=crates/worked_examples
PROGRAM=${WORKED_EXAMPLES:-$examples/out/worked_examples}
. tests/lib/harness.sh
. tests/lib/shim.sh
. tests/lib/refusals.sh

tab=$(printf '\t')
describe() { describe_refusals; }

# take_rows: makes the file of the rows and what is due of them, in the order of tests/growths.rows
take_rows() {
    sed -n "s/^\([^#$tab]*\)$tab.*/\1/p" tests/growths.rows > "$work/names"
    while read -r name; do
        holds grep "^$name$tab" "$examples/data/rows.txt" >> "$work/old/rows.txt"
        holds grep "^$name: " "$examples/stdout" >> "$work/due"
    done < "$work/names"
    note "$(wc -l < "$work/old/rows.txt")"
}

# judge_errors: standard error has the error of `main` where the status is 1, and else nothing
judge_errors() {
    : > "$work/error"
    [ "$status" -ne 1 ] || echo 'Error: Kind(OutOfMemory)' > "$work/error"
    cmp -s "$work/error" "$work/errors" ||
        fails 'standard error is not as it is due' "$work/error" "$work/errors"
}

# is_due: whether the run is as with ample memory
is_due() { [ "$status" -eq 0 ] && cmp -s "$work/due" "$work/put"; }

# judge: tells which row wants memory in what was printed, or why that may not be
judge() {
    awk -v how="$how" -v refused="$refused" -v status="$status" -f tests/growths.awk \
        tests/growths.rows "$work/due" "$work/put"
}

# judged: what may be printed where memory was refused
judged() {
    # No row changes the folder.
    untouched=true
    came=due
    if is_due; then return; fi
    came=$(judge) || fails "$came" "$work/due" "$work/put"
}

# changes_seen: the judge refuses what is due, but for the end of a line, whichever it is
changes_seen() {
    how=alone refused=1 status=0
    for line in $(seq "$(wc -l < "$work/due")"); do
        sed "${line}s/.\$/~/" "$work/due" > "$work/put"
        holds not judge > "$work/verdict"
        holds grep -q '^a row is answered as it may not be' "$work/verdict"
    done
    note "$line"
}

# are_seen HOW: whether each row was seen to want memory, as it may tell that
are_seen() {
    awk -F '\t' '/^[^#]/ { print $1, $2 == "alone" ? "failed" : "own" }' tests/growths.rows |
        sort > "$work/wanted"
    sed -n "s/^$1 [0-9]* //p" "$work/log" | sort -u | comm -13 - "$work/wanted" > "$work/unseen"
    [ ! -s "$work/unseen" ] || fails "rows are not seen to want memory" /dev/null "$work/unseen"
}

# refused_in HOW: refuses each call in turn
refused_in() {
    refuse_each "$1" judged /dev/null
    is_due || fails 'no memory was refused, and the output is another' "$work/due" "$work/put"
    [ "$calls" -gt 0 ] || fails 'it asks for no memory'
    growths=$calls
    as_counted /dev/null
    are_seen "$1"
    note "$calls growths refused"
}

check 'the rows and what is due of them are there' take_rows
check 'a change in any line is seen' changes_seen
check 'each growth is refused alone' refused_in alone
check 'each growth is refused with all that follow it' refused_in all
echo "$(logged '^alone 1') growths refused, $(logged .) runs"
finish
