#!/bin/sh
# Compares the counts of sequences of legal moves with published ones, those of sequences.txt. It prints a line for each position that
# agrees, and one for each count that differs or is missing, with status 1 then; all counts are taken before it ends.
# Usage: bench/sequences.sh, at the top of the repository. The counts are answers to rows (bench/rows.sh).
set -eu
work=$(mktemp -d)
trap 'rm -rf "$work"' EXIT
. bench/rows.sh

# A pipe would hide the status that the loop sets.
grep -v '^#' bench/sequences.txt > "$work/counts"
status=0
positions=0
while IFS='|' read -r name record published; do
    length=0
    agree=true
    for due in $published; do
        length=$((length + 1))
        count=$(answer perft "$length" "$record")
        if [ "$count" != "$due" ]; then
            echo "sequences: $name, length $length: $due are published, the program counts $count"
            agree=false
        fi
    done
    positions=$((positions + 1))
    if [ "$agree" = true ] && [ "$length" -eq 5 ]; then
        echo "sequences: $name: as published to length $length, $due"
    else
        echo "sequences: $name: not as published"
        status=1
    fi
done < "$work/counts"
if [ "$positions" -ne 6 ]; then
    echo "sequences: $positions positions were read, six are wanted"
    status=1
fi
exit "$status"
