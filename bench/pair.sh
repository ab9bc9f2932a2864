#!/bin/bash
# Compares commands that do the same work, such as two builds of the program, or the program and
# PolyGlot. They run in turn, so that other work on the machine disturbs each alike. For each it
# prints the least processor time (the user's and the system's) and the least time by the clock of
# so many rounds, and the most memory where /usr/bin/time is installed.
# Usage: bench/pair.sh ROUNDS COMMAND COMMAND.., each command one word, as
#     bench/pair.sh 9 'build/before collect examples/table.txt book < lines' \
#         'build/pbook collect examples/table.txt book < lines'
set -eu
rounds=$1
shift
work=$(mktemp -d)
trap 'rm -rf "$work"' EXIT
TIMEFORMAT='%U %S %R'

for ((round = 0; round < rounds; round++)); do
    number=0
    for command; do
        number=$((number + 1))
        { time bash -c "$command" > "$work/output" 2> "$work/error"; } 2>> "$work/times.$number"
    done
done

number=0
for command; do
    number=$((number + 1))
    awk -v command="$command" '
        NR == 1 || $1 + $2 < processor { processor = $1 + $2 }
        NR == 1 || $3 < clock { clock = $3 }
        END { printf "%.3f s of processor time, %.3f s by the clock: %s\n", processor, clock, command }
    ' "$work/times.$number"
    if [ -x /usr/bin/time ]; then
        /usr/bin/time -f '    %M KB of memory at most' bash -c "$command" > "$work/output"
    fi
done
