#!/bin/sh
# Tries the program in a few minutes, and proves nothing. The program is built once without proof,
# with AddressSanitizer and a check in the place of each proof. Then examples/demo.sh runs over it,
# and those scripts of tests/ that so slow a program ends in time. `worked_examples` is built
# likewise, and tests/rows.sh compares what it answers.
# Usage: ROWS=pattern PATIENCE=seconds scripts/check.sh [PART..] (at the top of the repository; all
# parts where none is given; tests/rows.sh tells of ROWS).
#
# Parts run side by side, each in a folder of its own. What a part says is in build/check/PART.log,
# and is shown at the end where the part has failed.
set -eu
. scripts/lib/total.sh
all='files messages demo replies locks order rows'
parts=${*:-$all}
for part in $parts; do
    case " $all " in *" $part "*) ;; *) echo "check: no part is named $part"; exit 2 ;; esac
done
top=$PWD
logs=build/check
# A part that takes longer than these seconds hangs. A check of it waits for PATIENCE at most.
limit=$((${PATIENCE:-300} * 6))
mkdir -p "$logs"
exec 9> build/check.lock
flock -n 9 || { echo 'check: another run tries here'; exit 1; }
rm -f "$logs"/*.log
room=$(mktemp -d)
# The program runs as another user too.
chmod 755 "$room"
lanes=
running=
leave() {
    for lane in $lanes $running; do kill "$lane" 2> /dev/null || true; done
    wait
    rm -rf "$room"
}
trap leave EXIT
trap 'exit 1' HUP INT TERM

# build HOW NAME: has this function of scripts/lib/unproved.sh build a program as $room/NAME
build() {
    work=$room/of-$2
    mkdir "$work"
    building=
    trap '[ -z "$building" ] || kill "$building"; exit 1' TERM
    . scripts/lib/unproved.sh
    "$1" "$top" "$room/$2"
}

# script FILE: runs this script in the place of the shell. A signal that ends it reaches all that
# it has started.
script() { exec timeout -k 10 "$limit" sh "$1"; }

# work_on NAME: builds what has this name, or runs the part
work_on() {
    export PROGRAM="$room/pbook"
    case $1 in
        pbook) build build_unproved pbook ;;
        worked_examples) build build_unproved_examples worked_examples ;;
        demo) script examples/demo.sh ;;
        rows) PROGRAM=$room/worked_examples && script tests/rows.sh ;;
        *)
            # AddressSanitizer looks for leaks by a means that strace has taken.
            export ASAN_OPTIONS=detect_leaks=0
            script "tests/$1.sh"
            ;;
    esac
}

# run NAME: does this, and tells how it ended
run() {
    begin=$(date +%s) status=0
    work_on "$1" > "$logs/$1.log" 2>&1 9>&- &
    running=$!
    wait "$running" || status=$?
    running=
    took=$(($(date +%s) - begin))
    if [ "$status" -ne 0 ]; then
        # 124 is of timeout, which has ended it.
        [ "$status" -ne 124 ] || echo "ended after $limit seconds" >> "$logs/$1.log"
        echo "FAILED: $1, $took s"
        return 1
    fi
    : > "$room/$1.passed"
    echo "ok: $1, $took s$(sed -n '/ checks hold, /s/^/: /p' "$logs/$1.log")"
}

# wants NAME: whether this part is wanted, or this program for one
wants() { case " $builds $parts " in *" $1 "*) ;; *) return 1 ;; esac }

# lane NAME..: runs those of these that are wanted, one after the other, beside other lanes
lane() {
    (
        running=
        trap '[ -z "$running" ] || kill "$running"; wait; exit 1' HUP INT TERM
        for part; do ! wants "$part" || run "$part" || true; done
    ) &
    lanes="$lanes $!"
}

echo 'Nothing is proved here: the program is built without proof, with a check in place of each.'
builds=
! wants rows || builds=worked_examples
[ "$parts" = rows ] || builds="$builds pbook"
lane worked_examples rows
if wants pbook && run pbook; then
    # The slowest part has a lane of its own. With that of the rows there are four.
    lane files
    lane messages demo
    lane replies locks order
fi
wait
lanes='' failed='' passed=''
for name in $builds $parts; do
    if [ -e "$room/$name.passed" ]; then passed="$passed $logs/$name.log" && continue; fi
    failed="$failed $name"
    echo "== $name failed:"
    if [ -e "$logs/$name.log" ]; then cat "$logs/$name.log"; else echo 'It was not run.'; fi
done
said="All of it passed: $parts. Nothing was proved; make proves the program."
[ -z "$failed" ] || said="FAILED:$failed. Nothing was proved."
echo "$said"
# shellcheck disable=SC2086 # names have no spaces
total "$(echo $failed | wc -w)" $passed
[ -z "$failed" ]
