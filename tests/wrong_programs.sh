#!/bin/sh
# Builds programs with mistakes that the proofs let pass, since no contract tells of the disk, and
# tries that the other scripts see them: a wrong program may not pass the check that each of its
# mistakes names. The program without a mistake passes them all; a mistake whose check isn't tried
# over that one, for want of a tool, is left out.
#
# A mistake is a file tests/wrong_programs/PROGRAM-MISTAKE.edit: a line `seen by SCRIPT CHECK: WHAT`
# that tells what it does too, a line `file: NAME` for each file below crates/ that it changes, and
# pairs of lines `old: TEXT` and `new: TEXT` below it. Each old TEXT stands there once. All mistakes
# of one PROGRAM are made at once.
#
# The programs are built from a copy of the tree without proof, a minute or two each. Of tests/io.sh,
# which takes such a program some minutes, a mistake names a run.
# Usage: tests/wrong_programs.sh [PROGRAM..] (at the top of the repository; all where none is given,
# and the one without a mistake too; strace has to be there)
#        tests/wrong_programs.sh --made   tries only that each mistake can still be made
set -eu
unset PROGRAM
. tests/lib/harness.sh
. scripts/lib/unproved.sh

# has_seer FILE: whether the check, or the run of tests/io.sh, that is to see this mistake is one of
# those that the script tries
has_seer() {
    seer=$(seen_by "$1")
    case $seer in
        'io.sh '*) grep -qF " '${seer#* }' " tests/io.sh tests/lib/small_runs.sh ;;
        order.sh\ * | locks.sh\ * | messages.sh\ * | files.sh\ *)
            sed -n '/^ *choose /,/[^\\]$/p' "tests/${seer%% *}" | grep -qw -- "${seer#* }"
            ;;
        *) return 1 ;;
    esac
}

# make_mistake FILE: makes this mistake in the copy
make_mistake() {
    has_seer "$1" || return 1
    python3 -B - "$1" "$work/tree/crates" << 'END'
import pathlib, sys
made = 0
for line in pathlib.Path(sys.argv[1]).read_text(encoding="utf-8").splitlines():
    word, _, rest = line.partition(":")
    rest = rest.removeprefix(" ")
    if word == "file":
        path = pathlib.Path(sys.argv[2], rest)
    elif word == "old":
        old = rest
    elif word == "new":
        text, made = path.read_text(encoding="utf-8"), made + 1
        if text.count(old) != 1:
            sys.exit(f"    the old text does not stand once in {path}: {old}")
        path.write_text(text.replace(old, rest), encoding="utf-8")
sys.exit(not made)
END
}

# make_mistakes PROGRAM: makes its mistakes in a copy of the tree, or none for `right`
make_mistakes() {
    copy_tree . "$work/tree"
    for mistake in tests/wrong_programs/"$1"-*.edit; do
        [ "$1" = right ] || holds make_mistake "$mistake"
    done
}

# build PROGRAM: builds it as $work/PROGRAM
build() {
    make_mistakes "$1"
    holds build_unproved "$work/tree" "$work/$1"
}

# checked PROGRAM SCRIPT [CHECK]: what this script, or a check of it, says of the program, is in
# $work/verdict; whether all holds
checked() {
    mkdir -p "$work/left"
    # ASan, which the program is built with, looks for leaks by a means that strace has taken.
    PROGRAM=$work/$1 TMPDIR=$work/left ASAN_OPTIONS=detect_leaks=0 \
        sh "tests/$2" ${3+"$3"} > "$work/verdict" 2>&1
}

# passes SCRIPT [CHECK]: the program without a mistake passes the script, or a check of it
passes() {
    checked right "$@" || {
        cat "$work/verdict"
        exit 1
    }
    sed -n "s/^ok: \([^:]*\).*/$1 \1/p" "$work/verdict" >> "$work/passed"
    note "$(tail -n 1 "$work/verdict")"
}

# is_seen PROGRAM SCRIPT CHECK: the check fails over the program
is_seen() {
    if checked "$@"; then
        cat "$work/verdict"
        exit 1
    fi
    holds grep -qF "FAILED: $3 (" "$work/verdict"
}

# seen_by FILE..: the script and the check that see each of these mistakes
seen_by() { sed -n 's/^seen by \([^:]*\): .*/\1/p' "$@"; }

# programs: the names of all that have mistakes
programs() {
    for file in tests/wrong_programs/*.edit; do
        basename "$file" | sed 's/-.*//'
    done | sort -u
}

if [ "$*" = --made ]; then
    for program in $(programs); do
        check "the mistakes of this program can be made: $program" make_mistakes "$program"
    done
    finish
    exit
fi
# shellcheck disable=SC2046 # each name is a word
[ $# -gt 0 ] || set -- right $(programs)
strace -o /dev/null true 2> /dev/null || {
    leave_out 'strace is wanted' "$@"
    finish && exit
}
for program; do
    check "the program is built: $program" build "$program"
    if [ "$program" = right ]; then
        for script in order locks messages files; do
            check "it passes $script.sh" passes "$script.sh"
        done
        seen_by tests/wrong_programs/*.edit | sed -n 's/^io.sh //p' | sort -u > "$work/runs"
        while read -r run; do
            check "it passes io.sh: $run" passes io.sh "$run"
        done < "$work/runs"
        continue
    fi
    for file in tests/wrong_programs/"$program"-*.edit; do
        mistake=$(basename "$file" .edit)
        seer=$(seen_by "$file")
        if [ -e "$work/passed" ] && ! grep -qxF "$seer" "$work/passed"; then
            leave_out "$seer isn't tried" "$mistake"
            continue
        fi
        check "a mistake is seen: $mistake" is_seen "$program" "${seer%% *}" "${seer#* }"
    done
done
finish
