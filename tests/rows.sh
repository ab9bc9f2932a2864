#!/bin/sh
# Has a build of `worked_examples` without proof answer rows of its data, and compares each answer
# with the one due. The gate has the proved one answer all rows. A build with a check in the place
# of each proof is a hundred times slower, so it gets those that it answers in a minute: the topics
# below without their slow rows.
# Usage: PROGRAM=program ROWS=pattern PATIENCE=seconds tests/rows.sh (at the top of the repository;
# scripts/check.sh builds the program). ROWS takes the rows in which that extended expression is
# found, and runs, in the place of the topics. Those that count sequences of moves take minutes,
# those of seventy thousand games an hour; PATIENCE is 300 where it isn't given.
set -eu
: "${PROGRAM:?scripts/check.sh rows builds it}"
. tests/lib/harness.sh
given=$PWD/crates/worked_examples
tab=$(printf '\t')
# Rows that count sequences of moves, cut a table at each byte, have hundreds of games or entries,
# or export a book of 218 moves.
slow="$tab(moves${tab}count|table${tab}cut)$tab|[0-9]{3}[*][a-z]*#|^line-of-218-moves-is-exported"

# rows_of PATTERN: the rows in which this is found
rows_of() { grep -v '^#' "$given/data/rows.txt" | grep -E "$1"; }

# due_to FILE: what is due to the rows of this file. The first line of an answer begins with its
# row's name, and those of a run that printed more come after it.
due_to() {
    awk 'part == 1 && sub(/\t.*/, "") { is_row[$0] }
        part == 2 && sub(/\t.*/, "") { is_due_row[$0] }
        part < 3 { next }
        { name = $0; sub(/: .*/, "", name) }
        name in is_row { is_due = name in is_due_row }
        is_due' part=1 "$given/data/rows.txt" part=2 "$1" part=3 "$given/stdout"
}

# answers PATTERN [PATTERN]: the rows in which the first pattern is found, and the second one isn't,
# are answered as is due
answers() {
    rm -rf "$work/run"
    cp -R "$given/data" "$work/run"
    rows_of "$1" | grep -Ev "${2-^$}" > "$work/run/rows.txt"
    due_to "$work/run/rows.txt" > "$work/due"
    note "$(wc -l < "$work/run/rows.txt") rows, $(wc -l < "$work/due") lines"
    cut -f 1 "$work/run/rows.txt" | LC_ALL=C sort > "$work/names"
    sed 's/: .*//' "$work/due" | LC_ALL=C sort -u | LC_ALL=C comm -23 "$work/names" - > "$work/without"
    holds test ! -s "$work/without"
    cd "$work/run"
    status=0
    timeout "$patience" env -i "$PROGRAM" < "$given/stdin" > "$work/put" 2> "$work/errors" ||
        status=$?
    if [ "$status" -eq 124 ]; then
        echo "    ended after $patience seconds; PATIENCE=$((patience * 4)) make check gives it longer"
        return 1
    fi
    diff "$work/due" "$work/put" > "$work/differs" || true
    # What runs of the program tell on standard error isn't compared.
    ! grep -q "^[^$tab]*${tab}run$tab" "$work/run/rows.txt" || : > "$work/errors"
    if [ "$status" -eq 0 ] && [ ! -s "$work/errors" ] && [ ! -s "$work/differs" ]; then return; fi
    echo "    the status is $status; what is due (<), what was answered (>), and errors:"
    head -n 20 "$work/differs" "$work/errors"
    return 1
}

if [ -n "${ROWS:-}" ]; then
    rows_of "$ROWS" > /dev/null || { echo "rows: none has $ROWS"; exit 1; }
    # Runs find the files of those before them.
    check "rows of $ROWS" answers "$ROWS|^[^$tab]*${tab}run$tab"
else
    for topic in record epd moves table book stream game points ledger words command surface run; do
        check "$topic" answers "^[^$tab]*$tab$topic($tab|\$)" "$slow"
    done
fi
finish
