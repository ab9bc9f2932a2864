#!/bin/sh
# Refuses memory to `pbook`, call by call: each command is run on a small input with the n-th call
# that asks for memory refused, for n = 1, 2, .. until a run has no such call, and then so with
# all calls from the n-th on refused. The judges below say what may come of it, beside what comes
# with ample memory.
# A line is printed for each command. The first run that may not be ends all; what was found is
# shown, and the folder with it stays: the files before (old) and after (run), the output (put)
# and all inputs.
# Usage: PROGRAM=program tests/memory.sh (at the top of the repository; cc has to be there).
set -eu
PROGRAM=${PROGRAM:-build/pbook}
. tests/lib/harness.sh
. tests/lib/shim.sh
. tests/lib/refusals.sh
. tests/lib/small_runs.sh

echo 'fault memory' > "$work/fault"

describe() {
    describe_command
    describe_refusals
}

# lost_told: it is told how many games were refused for memory, which the output of an export doesn't
# say, and beside that at most that no game was accepted
lost_told() {
    lost='[1-9][0-9]*'
    [ "$judge" = exported ] || lost=$(grep -c '^refused [^ ]* memory$' "$work/put") || true
    pattern="pbook: refused for want of memory: $lost games?"
    [ "$(grep -Ecx "$pattern" "$work/errors")" -eq 1 ] ||
        fails "it is not told that $lost games found no memory"
    grep -Evx "$pattern" "$work/errors" > "$work/rest" || true
    if cmp -s "$work/ample.errors" "$work/rest"; then return; fi
    mv "$work/rest" "$work/errors"
    one_line_told 'pbook: no game was accepted(; book is an empty book)?'
    if grep -q '^ok ' "$work/put"; then fails 'a game was accepted, and none is told'; fi
}

# judge_errors: want of memory that ended the run is told in one line
judge_errors() {
    if is_same_output && is_same_told; then return; fi
    if [ "$status" -eq 3 ]; then
        one_line_told 'pbook: out of memory'
    elif [ "$status" -eq 0 ] && ! is_same_told; then
        lost_told
    else
        is_same_told ||
            fails 'another text is on standard error' "$work/ample.errors" "$work/errors"
    fi
}

# same_files FOLDER: BOOK and FILE have to be as they are in this folder
same_files() {
    is_of "$1" book || fails "BOOK is not as it is due (that of the folder $1)"
    is_of "$1" file || fails "FILE is not as it is due (that of the folder $1)"
}

# is_usual: whether the run is as with ample memory, or ended with nothing but the fault; then the
# files are as due too
is_usual() {
    if is_same_output; then
        came=same
        same_files ample
    elif [ "$status" -eq 3 ] && cmp -s "$work/fault" "$work/put" &&
        is_of old book && is_of old file; then
        wanted 1
        came=fault
        untouched=true
    else
        return 1
    fi
}

# due_after OUTPUT: what is due is the fault after so many lines of this output as were put before
# it
due_after() { head -n $(($(wc -l < "$work/put") - 1)) "$1" | cat - "$work/fault" > "$work/due"; }

# shown: what a command that takes no submissions may put
shown() {
    if is_usual; then return; fi
    due_after "$work/ample.put"
    faulted
}

# picked: what `games` may put, which has no line for a fault, but where its words weren't read for
# want of memory
picked() {
    if is_usual; then return; fi
    head -n "$(wc -l < "$work/put")" "$work/ample.put" > "$work/due"
    faulted
}

# helped: what a command that puts all or nothing may put
helped() {
    if is_usual; then return; fi
    fails 'the output is neither that of ample memory nor a fault' "$work/ample.put" "$work/put"
}

# faulted: the run ended with `fault memory` after the lines that are due before it, and the files
# are the old ones
faulted() {
    ends_as_due 3
    same_files old
    wanted 1
    came=fault
}

# ends_as_due STATUS: the output is what is due, and the status
ends_as_due() {
    cmp -s "$work/due" "$work/put" ||
        fails 'the output is not what is due (<)' "$work/due" "$work/put"
    [ "$status" -eq "$1" ] || fails "the status due is $1"
}

# wanted TIMES: want of memory was answered this often, and not oftener than memory was refused
wanted() { [ "$1" -le "$refused" ] || fails "want of memory was answered $1 times"; }

# The lines that are put by `collect` follow from which games were refused for memory, and from
# the line that came before a fault: those two are read from what was put, and all else is made
# anew, from the games of FILE, the submissions and the replies that came with ample memory. A
# line that is refused there for another reason than a conflict is no legal game. Tells whether
# there was a fault, the number of replies, how often a game was refused for memory, and for each
# submission whether it was answered `ok`.
replies_due() {
    awk -F '\t' -v due="$work/due" '
        FILENAME == ARGV[1] { text[$1] = $0; number[$1] = ++held; next }
        FILENAME == ARGV[2] { sub(/\r$/, ""); line[++lines] = $0; id[lines] = $1; next }
        FILENAME == ARGV[3] { ample[FNR] = $0; next }
        { put[FNR] = $0; puts = FNR }
        END {
            fault = put[puts] == "fault memory"
            replies = fault && puts <= lines ? puts - 1 : lines
            printf "" > due
            for (i = 1; i <= lines; i++) {
                name = id[i]
                reply = ""
                if (i > replies) reply = "none"
                else if (ample[i] ~ /^refused/ && ample[i] !~ / conflict [0-9]+$/) reply = ample[i]
                else if (name in number) {
                    if (text[name] != line[i]) reply = "refused " name " conflict " number[name]
                } else if (put[i] == "refused " name " memory") { reply = put[i]; wants++ }
                else { text[name] = line[i]; number[name] = ++held }
                mask = mask (reply == "" ? 1 : 0)
                if (reply == "") reply = "ok " name " " number[name]
                if (i <= replies) print reply > due
            }
            if (fault) print "fault memory" > due
            print fault, replies, wants + 0, mask
        }' "$work/held" "$input" "$work/ample.put" "$work/put"
}

# judge_replies WORD..: reads what was put as replies, sets `fault`, `replies` and `mask`, which
# has a 1 for each submission that was answered `ok`, and makes the folder $work/made-MASK of a
# run with ample memory over those. The files are those of that run, and BOOK after a fault is the
# old one.
judge_replies() {
    replies_due > "$work/choices"
    read -r fault replies wants mask < "$work/choices"
    if [ ! -e "$work/made-$mask" ]; then
        awk -v mask="$mask" 'substr(mask, NR, 1) == "1"' "$input" > "$work/taken"
        make_of "$mask" "$@"
        if grep -v '^ok ' "$work/made.put"; then fails 'a game that was answered ok is refused'; fi
    fi
    wanted $((wants + fault))
    ends_as_due $((3 * fault))
    if [ "$fault" -eq 0 ]; then
        came=games
        same_files "made-$mask"
    else
        came=fault
        is_of old book || fails 'BOOK is not the old one'
    fi
}

# collected WORD..: what a command that takes submissions may put, `refused <id> memory` in place of
# an `ok`; and what it leaves: the files of the games that were answered `ok` alone, or after a
# fault the old BOOK, with the FILE of these games or the old one
collected() {
    if is_usual; then return; fi
    judge_replies "$@"
    [ "$fault" -eq 1 ] || return 0
    if is_of "made-$mask" file; then
        if [ "$replies" -eq ${#mask} ] && ! is_of old file; then saved=true; fi
        return
    fi
    is_of old file ||
        fails 'FILE is neither the old one nor the new one' "$work/made-$mask/file" "$work/run/file"
    # FILE is made anew after a fault among the submissions or in the making of the book, where
    # memory is there for it. So, where one call is refused, FILE stays as it was for those calls
    # alone that are made to keep it, and they follow each other.
    if [ "$refused" -eq 1 ] && [ "$replies" -gt 0 ]; then
        [ "$replies" -eq ${#mask} ] || fails 'FILE has lost games that were answered ok'
        [ "$unsaved" -eq 0 ] || [ "$unsaved" -eq $((from - 1)) ] ||
            fails 'FILE has lost games that were answered ok, as it had before'
        unsaved=$from
    fi
}

# journaled WORD..: what `collect --journal` may put; the journal has each game that was answered,
# also where a fault ended the run
journaled() {
    if is_usual; then return; fi
    judge_replies "$@"
    is_of "made-$mask" file || fails 'the journal is not that of the games answered ok' \
        "$work/made-$mask/file" "$work/run/file"
}

# sum_of FILE: a name for what the file holds
sum_of() { cksum < "$1" | tr ' ' -; }

# keep_export FOLDER WORD..: keeps the export of the submissions in $work/taken
keep_export() {
    kept=$work/exports/$1
    shift
    run_in "$work/old" "$work/taken" "$@" > "$work/export"
    mv "$work/export" "$kept/$(sum_of "$work/export")"
}

# An export has no replies, so it may be that of any choice of the legal games; where one call
# alone was refused, of all of them or all but one.
make_exports() {
    mkdir -p "$work/exports/one" "$work/exports/all"
    run_in "$work" "$input" collect table book.of > "$work/replies"
    awk 'NR == FNR { legal[NR] = /^ok/ || / conflict [0-9]+$/; next }
        { sub(/\r$/, "") } legal[FNR] && !seen[$0]++' "$work/replies" "$input" > "$work/legal"
    choices=1
    for _ in $(seq "$(wc -l < "$work/legal")"); do choices=$((choices * 2)); done
    for choice in $(seq 0 $((choices - 1))); do
        awk -v choice="$choice" '{ if (choice % 2) print; choice = int(choice / 2) }' \
            "$work/legal" > "$work/taken"
        keep_export all "$@"
    done
    for without in $(seq 0 "$(wc -l < "$work/replies")"); do
        awk -v without="$without" 'NR != without' "$input" > "$work/taken"
        keep_export one "$@"
    done
}

# is_front_of_export: whether what was put before the last line is a front of an export of some of
# the games
is_front_of_export() {
    for export in "$work/exports/all"/*; do
        due_after "$export"
        if cmp -s "$work/due" "$work/put"; then return; fi
    done
    return 1
}

# exported: what `export` may put. With one call refused, no game was refused where that ended the
# run.
exported() {
    if is_usual; then return; fi
    if [ "$how" = alone ]; then choice=one; else choice=all; fi
    if [ "$status" -eq 0 ] && cmp -s "$work/exports/$choice/$(sum_of "$work/put")" "$work/put"; then
        wanted 1
        came=games
    elif [ "$how" = alone ]; then
        shown
    else
        is_front_of_export ||
            fails 'the output is no export, nor a fault after a front of one' /dev/null "$work/put"
        faulted
    fi
}

# refuse HOW JUDGE WORD..: refuses each call in turn
refuse() {
    how=$1 judge=$2 saved=false unsaved=0
    shift 2
    refuse_each "$how" "$judge" "$input" "$@"
    is_same_output ||
        fails 'no memory was refused, and the output is another' "$work/ample.put" "$work/put"
    [ "$saved" = true ] || [ "$judge" != collected ] || [ ! -e "$work/old/file" ] ||
        fails 'FILE was made by no run in which BOOK was not'
}

# refusals JUDGE INPUT WORD..: the check of a command
refusals() {
    judge=$1
    shift
    prepare "$@"
    shift
    : > "$work/held"
    [ ! -e "$work/old/file" ] || sed 1d "$work/old/file" > "$work/held"
    if [ "$judge" = exported ]; then make_exports "$@"; fi
    : > "$work/log"
    refuse alone "$judge" "$@"
    growths=$calls
    [ "$growths" -gt 0 ] || fails 'it asks for no memory'
    [ "$(logged '^alone 1')" -eq "$growths" ] || fails 'a call was not refused'
    as_counted "$input" "$@"
    refuse all "$judge" "$@"
    [ "$growths" -eq "$calls" ] || fails 'memory is asked for in another number of calls each time'
    [ "$(logged fault)" -gt 0 ] || fails 'want of memory is never answered'
    cat "$work/log" >> "$work/logs"
    note "$growths growths refused, $(logged .) runs: $(logged same) as with ample memory, \
$(logged fault) faults, $(logged games) with games refused"
}

# try NAME JUDGE INPUT WORD..: checks a command
try() {
    name=$1
    shift
    check "$name" refusals "$@"
}

# The runs on an old FILE that this script alone has.
on_old_file() {
    try 'collect on an old FILE' collected later \
        collect --ledger file --plies 8 --least 2 ../table book
    try 'collect on an old journal' journaled later \
        collect --journal file --plies 8 --least 2 ../table book
}

# in_space KILOBYTES WORD..: runs the program in so much address space; how it ended is $status
in_space() {
    space=$1 status=0
    shift
    rm -rf "$work/run"
    cp -Rd "$work/old" "$work/run"
    # shellcheck disable=SC3045 # dash and bash have this limit
    (ulimit -v "$space" && run_in "$work/run" "$work/few" "$@") > "$work/put" \
        2> "$work/errors" || status=$?
}

# Where the address space is short, be it the stack that gets none, no run is ended by a signal.
short_of_space() {
    : > "$work/old/file"
    least=4000
    until in_space "$least" --version && [ "$status" -eq 2 ]; do
        least=$((least + 100))
        holds test "$least" -lt 40000
    done
    for space in $(seq "$least" 100 $((least + 4000))); do
        for words in 'collect ../table book' 'collect --journal file ../table book' \
            'export ../table'; do
            # shellcheck disable=SC2086 # each is a word
            in_space "$space" $words
            holds test "$status" -le 3
        done
    done
}

try 'version' helped nothing --version
try 'probe, refused' shown nothing probe ../table ../book "$start 1"
try 'a file that is not there' shown nothing probe ../table ../no_book "$start"
try 'export' exported few export ../table
try 'export of some plies' exported few export --plies 6 --least 2 ../table
each_run try on_old_file
check 'no run is ended by a signal where the address space is short' short_of_space
echo "$(count '^alone 1' "$work/logs") growths refused, $(count . "$work/logs") runs"
finish
