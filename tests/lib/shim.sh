# shellcheck shell=sh
# Shared by the scripts that run a program under a shim, an object that is loaded before it and
# counts some of its calls. It is read by `.` after tests/lib/harness.sh.
#
# A script that reads it has three functions of its own: `set_shim` exports the variables of its
# shim, of which the file that is told is $work/told, `describe` prints which call was hit, and
# what came of it, and `judge_errors` ends the check by `fails` where standard error, which is in
# $work/errors, has what it may not.
: "${work:?tests/lib/harness.sh is read first}"

# What a run finds is in the folder $work/old, and what it leaves in $work/run. A judge says by
# `untouched` that both are the same still.
mkdir "$work/old"
untouched=false

# make_shim SOURCE NAMES: makes the shim. The program may call no function of these names (an
# extended expression), which the shim doesn't see.
make_shim() {
    cc -std=c11 -O1 -Wall -Wextra -shared -fPIC -o "$work/shim.so" "$1"
    nm -D --undefined-only "$PROGRAM" > "$work/called"
    holds not grep -wE "($2)(@.*)?" "$work/called"
}

# fails WHY [DUE FOUND]: ends the check at a run that may not be, and shows the lines in which
# what was due and what was found differ
fails() {
    echo "    $1"
    describe | sed 's/^/    /'
    [ $# -eq 1 ] || diff "$2" "$3" | cut -c 1-150 | head -n 20 | sed 's/^/    /'
    exit 1
}

# logged PATTERN: the runs of $work/log, a line each, in which the pattern is found
logged() { count "$1" "$work/log"; }

# run_shimmed INPUT WORD..: runs the program in a new folder with the old files, and looks at what
# no run may leave: a status that is none, another file. The output is in $work/put, and what
# is told on standard error in $work/errors.
run_shimmed() {
    if [ "$untouched" = false ]; then
        rm -rf "$work/run"
        cp -Rd "$work/old" "$work/run"
    fi
    untouched=false
    : > "$work/told"
    shim_input=$1 status=0
    shift
    (
        cd "$work/run" || exit
        # shellcheck disable=SC3045 # dash and bash have this limit, for a run that doesn't end
        ulimit -t 20
        set_shim
        export LD_PRELOAD="$work/shim.so"
        exec "$PROGRAM" "$@"
    ) < "$shim_input" > "$work/put" 2> "$work/errors" || status=$?
    [ "$status" -le 3 ] || fails 'it was ended by a signal, or with a status that is none'
    [ -s "$work/told" ] || fails 'the shim has not told what was called'
    for left in "$work"/run/* "$work"/run/.*; do
        [ -e "$left" ] || [ -L "$left" ] || continue
        case ${left##*/} in
            book | file | linked | rows.txt | . | ..) ;;
            *) fails "a file is left: ${left##*/}" ;;
        esac
    done
}
