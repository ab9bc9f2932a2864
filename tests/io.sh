#!/bin/sh
# Fails the reads, writes and syncs of `pbook`, call by call: each command is run on small real
# files with its n-th such call failing, for n = 1, 2, .. until a run has no n-th call; then so
# with the n-th call moving one byte alone. tests/fail_io.c says which calls count, and the judges
# below what a run may put, tell and leave.
# A line is printed for each command. The first run that may not be ends all; what was found is
# shown, and the folder with it stays: the files before (old) and after (run), the output (put)
# and all inputs.
# Usage: PROGRAM=program tests/io.sh [RUN..] (at the top of the repository; all runs where none is
# given; cc has to be there).
set -eu
PROGRAM=${PROGRAM:-build/pbook}
. tests/lib/harness.sh
. tests/lib/shim.sh
. tests/lib/small_runs.sh

# The runs that are wanted, a line each.
wanted=$(printf '%s\n' "$@")
hit='?' at='?' calls='?' kind='?' file='?' file_name='?'

# set_shim: has the call of the number $at fail, or move one byte, as the variable $hit says
set_shim() { export "$hit=$at" IO_TOLD="$work/told"; }

describe() {
    describe_command
    echo "the call: $at, hit by $hit, $kind of file $file ($file_name); calls: $calls"
    echo "the status: $status"
}

# run_hit WORD..: runs the program, and the call of the number $at is hit
run_hit() {
    calls='?' kind='?' file='?' file_name='?'
    run_shimmed "$input" "$@"
    read -r calls kind file file_name < "$work/told"
    judge_errors
}

# is_lost_hint: whether the call that failed was to give a hint alone of what a refused file, or
# BOOK, is
is_lost_hint() {
    case "$hit $kind $ample_status $file_name" in
        'FAIL_AT read 1 '* | 'FAIL_AT read '*' book' | 'FAIL_AT read '*' linked') ;;
        *) return 1 ;;
    esac
    is_same && sed 's/; it \(looks like\|is\) .*//' "$work/ample.errors" | cmp -s - "$work/errors"
}

# name_of_hit: an expression for the names by which the file may be told that was hit
name_of_hit() {
    case "$file $file_name" in
        '0 '*) echo 'standard input' ;;
        '1 '*) echo 'standard output' ;;
        *' run') echo '(book|file)' ;;
        *' linked') echo book ;;
        *' '.linked.pbook) echo book ;;
        *' '.*.pbook) echo "$file_name" | sed 's/^\.\(.*\)\.pbook$/\1/' ;;
        *) echo "(\.\./)?$file_name" ;;
    esac
}

# judge_errors: a call that failed is told with its file and the cause, in one line, which comes
# before what else is due where a text was put because the words gave no order. A call that failed
# or moved one byte of standard error leaves a front of what is due there.
judge_errors() {
    if is_lost_hint; then return; fi
    if [ "$file" = 2 ]; then
        is_front "$work/errors" "$work/ample.errors" ||
            fails 'standard error is no front of what is due' "$work/ample.errors" "$work/errors"
    elif [ "$hit" = FAIL_AT ] && [ "$kind" != none ] && [ "$judge" = helped ]; then
        { echo 'pbook: standard output: input/output error' && cat "$work/ample.errors"; } |
            cmp -s - "$work/errors" ||
            fails 'the failed write is not told before all else' /dev/null "$work/errors"
    elif [ "$hit" = FAIL_AT ] && [ "$kind" != none ]; then
        one_line_told "pbook: $(name_of_hit): input/output error(;.*)?"
    else
        is_same_told ||
            fails 'another text is on standard error' "$work/ample.errors" "$work/errors"
    fi
}

# is_same: whether output, status and files are those of a run in which no call was hit
is_same() { is_same_output && is_of ample book && is_of ample file; }

# moved: what a call that moves one byte alone may leave
moved() {
    is_same ||
        fails 'output, status or files are not as if all had moved' "$work/ample.put" "$work/put"
}

# is_front_put FILE: what was put, which is in this file, has to be a front of what is due
is_front_put() {
    is_front "$1" "$work/ample.put" ||
        fails 'the output is no front of what is due' "$work/ample.put" "$1"
}

# judged_as_whole: whether the call hit standard error, which changes nothing else
judged_as_whole() {
    [ "$file" = 2 ] || return 1
    is_same || fails 'standard error changed something else' "$work/ample.put" "$work/put"
}

# judge_output: the status is 3, and the output is what a failed call may leave. It sets
# `answered` to the number of lines that were put whole, but for the fault.
judge_output() {
    [ "$status" -eq 3 ] || fails 'the status due is 3'
    cp "$work/put" "$work/front"
    if [ "$kind" = read ] && [ "$judge" != picked ]; then
        [ "$(tail -n 1 "$work/put")" = 'fault read' ] || fails 'a failed read is not told'
        sed '$d' "$work/put" > "$work/front"
    fi
    is_front_put "$work/front"
    answered=$(wc -l < "$work/front")
    if [ "$kind" = read ]; then
        head -n "$answered" "$work/ample.put" | cmp -s - "$work/front" ||
            fails 'a line was not put whole'
    fi
}

# judge_book: BOOK is the old one, or none where there was none; it is the new one only where a sync
# failed, that of the folder or of a journal
judge_book() {
    if is_of old book; then return; fi
    if [ "$kind" = sync ] && is_of ample book; then return; fi
    fails 'BOOK is not the old one'
}

# helped: what a run may leave that prints a text and has no order, whose status stays
helped() {
    [ "$status" -eq "$ample_status" ] || fails "the status due is $ample_status"
    is_front_put "$work/put"
}

# shown: what a command may leave that makes no file
shown() {
    judge_output
    is_of old book || fails 'BOOK was changed'
    is_of old file || fails 'FILE was changed'
}

# picked: the same of `games`, which puts no line for a fault
picked() { shown; }

# make_front COUNT WORD..: makes the folder $work/made-COUNT of a run over so many lines of the
# submissions
make_front() {
    [ ! -e "$work/made-$1" ] || return 0
    head -n "$1" "$input" > "$work/taken"
    make_of "$@"
}

# may_stay: whether the failed call may leave FILE as it was
may_stay() {
    [ "$answered" -eq 0 ] || [ "$kind" = sync ] || { [ "$kind" = write ] && [ "$file" -ne 1 ]; }
}

# collected WORD..: what `collect` may leave: FILE is made of the first lines of the submissions, at
# least of all that were answered; or it is the old one, where nothing was answered, or where FILE
# itself couldn't be made
collected() {
    judge_output
    judge_book
    [ -e "$work/old/file" ] || return 0
    if is_of old file && may_stay; then return; fi
    lines=$(awk 'END { print NR }' "$input")
    for front in $(seq "$answered" "$lines"); do
        make_front "$front" "$@"
        if is_of "made-$front" file; then return; fi
    done
    fails 'FILE is made of no front of the submissions with all that were answered' \
        "$work/made-$answered/file" "$work/run/file"
}

# journaled WORD..: what `collect --journal` may leave: the journal is the one due, or a front of
# that with at least the games that were answered
journaled() {
    judge_output
    judge_book
    is_front "$work/run/file" "$work/ample/file" ||
        fails 'the journal is no front of the one due' "$work/ample/file" "$work/run/file"
    make_front "$answered" "$@"
    if is_front "$work/made-$answered/file" "$work/run/file"; then return; fi
    if [ "$answered" -eq 0 ] && is_front "$work/old/file" "$work/run/file"; then return; fi
    fails 'the journal has lost games that were answered' \
        "$work/made-$answered/file" "$work/run/file"
}

# hit_each VARIABLE JUDGE WORD..: hits each call in turn, as this variable of the shim's says,
# until a run has no such call. Each run in which a call was hit is a line of $work/log.
hit_each() {
    hit=$1 judge=$2 at=1 hints=0
    shift 2
    run_hit "$@"
    while [ "$at" -le "$calls" ]; do
        if is_lost_hint; then
            hints=$((hints + 1))
            [ "$hints" -le 2 ] || fails 'more than two reads are for a hint'
        else
            judged_as_whole || "$judge" "$@"
        fi
        echo "$hit $kind" >> "$work/log"
        at=$((at + 1))
        run_hit "$@"
    done
    [ "$calls" -gt 0 ] || fails 'it makes no such call'
    is_same || fails 'no call was hit, and the output is another' "$work/ample.put" "$work/put"
}

# all_hit WORD..: the calls that failed, and as many that moved one byte, have to be those that
# strace sees of a run that no shim hits, in their order, but for those by which the program was
# loaded
all_hit() {
    sed -n 's/^FAIL_AT //p' "$work/log" > "$work/failed"
    rm -rf "$work/counted"
    cp -Rd "$work/old" "$work/counted"
    (
        cd "$work/counted"
        exec strace -f -y -s 0 -e signal=none -o "$work/calls" \
            -e trace=read,pread64,readv,write,pwrite64,writev,fsync,fdatasync "$PROGRAM" "$@"
    ) < "$input" > "$work/counted.put" 2> "$work/counted.errors" || true
    # Lines of calls begin with the number of the process.
    sed -nE '/\.so[.0-9]*>|<\/proc\//d
        s/^[0-9]+ +(p?(read|write)|f(data)?(sync)).*/\2\4/p' "$work/calls" > "$work/seen"
    cmp -s "$work/seen" "$work/failed" ||
        fails 'strace sees other calls (<) than those that failed' "$work/seen" "$work/failed"
    [ "$(logged SHORT_AT)" -eq "$(wc -l < "$work/seen")" ] ||
        fails "$(logged SHORT_AT) calls moved one byte, and strace sees $(wc -l < "$work/seen")"
}

# hits JUDGE INPUT WORD..: the check of a command
hits() {
    judge=$1
    shift
    prepare "$@"
    shift
    : > "$work/log"
    hit_each FAIL_AT "$judge" "$@"
    hit_each SHORT_AT moved "$@"
    if [ "$traced" = true ]; then all_hit "$@"; fi
    cat "$work/log" >> "$work/logs"
    note "$(logged 'FAIL_AT read') reads, $(logged 'FAIL_AT write') writes and \
$(logged 'FAIL_AT sync') syncs failed; $(logged SHORT_AT) calls moved one byte alone"
}

# try NAME JUDGE INPUT WORD..: checks a command, if it is wanted
try() {
    [ -z "$wanted" ] || printf '%s\n' "$wanted" | grep -qxF "$1" || return 0
    name=$1
    shift
    check "$name" hits "$@"
}

# The runs on an old FILE that this script alone has.
on_old_file() {
    try 'collect on an old FILE' collected later collect --ledger file ../table book
    try 'collect on an old journal, synced' journaled later \
        collect --journal file --sync ../table book
    printf 'torn\t1-0\t%s\te2' "$start" >> "$work/old/file"
    try 'collect on a torn journal' journaled later collect -q --journal file ../table book
}

traced=false
if strace -o /dev/null true 2> /dev/null; then
    traced=true
else
    leave_out 'strace is wanted' 'the calls that are hit are all'
fi
unseen='preadv|preadv2|pwritev|pwritev2|sendfile|splice|copy_file_range|recv|send|sync|syncfs|msync'
check 'the shim sees all calls that read, write and sync' \
    make_shim tests/fail_io.c "$unseen|sync_file_range|fread|fwrite|mmap|mmap64"
try 'export' shown games export ../table
each_run try on_old_file
failed_calls=$(count FAIL_AT "$work/logs")
echo "$failed_calls calls failed, $(count SHORT_AT "$work/logs") moved one byte alone"
finish
