#!/bin/sh
# The gate, in parts: the documents and the judges of wrong bodies are tried, `make check` runs, then
# the toolchain's gate, and then the prover has to refuse the wrong bodies. The first part that
# fails ends it. At its end it tells where the time went, by crate and by part, and how much of all
# passed.
# Usage: scripts/test.sh (at the top of the repository). What a part says is in build/gate/PART.log.
set -eu
. scripts/lib/total.sh
logs=build/gate
mkdir -p "$logs"
exec 9> build/gate.lock
flock -n 9 || { echo 'test: another run tries here'; exit 1; }
rm -f "$logs"/*

# layout: whether each file is laid out as `rt fmt` does it
layout() {
    git ls-files -co --exclude-standard 'crates/*.rt' 'crates/*.antt' > "$logs/laid"
    xargs "$(dirname "$(rt doc)")/bin/rattle" fmt --check < "$logs/laid" &&
        echo "$(wc -l < "$logs/laid") files are laid out"
}

# watch: has ps tell each second what the prover's processes have taken by now, by crate
watch() {
    session=$(ps -o sess= -p $$ | tr -d ' ')
    while [ ! -e "$logs/ci.ended" ] && kill -0 $$ && sleep 1; do
        ps -s "$session" -o pid=,cputimes=,args=
    done | sed -n 's/^ *\([0-9]*\) *\([0-9]*\) .*--crate-name \([a-z_]*\) .*/\3 \2 \1/p' \
        > "$logs/times"
}

# tell_times: the minutes of processor time of each crate, the dearest first
tell_times() {
    echo 'minutes of processor time, in proofs and in bodies:'
    sed -n 's/^\([a-z_]*\): .* runs, \([0-9]*\) s of processor time$/\1 \2 bodies/p' \
        "$logs/bodies.log" | cat "$logs/times" - | awk '
        { took[$1, $3] = $2 }
        END {
            for (it in took) {
                split(it, name, SUBSEP)
                proofs[name[1]] += name[2] == "bodies" ? 0 : took[it]
                bodies[name[1]] += name[2] == "bodies" ? took[it] : 0
            }
            for (it in proofs) printf "%8.1f %8.1f  %s\n", proofs[it] / 60, bodies[it] / 60, it
        }' | sort -rn
}

# part NAME COMMAND..: runs this part. Where it fails, that is the end, and so it is where its last
# line tells of nothing that was tried or is missing here.
part() {
    name=$1 begin=$(date +%s)
    shift
    echo "== $name"
    { "$@" 2>&1 9>&- || : > "$logs/failed"; } | tee "$logs/$name.log"
    echo "$name: $(($(date +%s) - begin)) s" >> "$logs/took"
    tail -n 1 "$logs/$name.log" | grep -Eq '^[^0-9]*[1-9]|were not tried$' || : > "$logs/failed"
    [ -e "$logs/failed" ] || return 0
    echo "FAILED: $name"
    lost=0
    tail -n 1 "$logs/$name.log" | grep -q ' failed' || {
        lost=1
        mv "$logs/$name.log" "$logs/$name.failed"
        : > "$logs/$name.log"
    }
    total "$lost" "$logs"/*.log
    exit 1
}

part named sh scripts/named_mistakes.sh
part layout layout
part words sh tests/words.sh
part theorem sh tests/theorem.sh
part count python3 -B scripts/theorem.py --check
part bodies_judged sh tests/bodies.sh
part shellcheck sh tests/shellcheck.sh
part completions sh tests/completions.sh
part mistakes sh tests/wrong_programs.sh --made
part check sh scripts/check.sh
had=$(ls -d crates/*/out/rlib 2> /dev/null || :)
python3 -B scripts/lib/libraries.py note
watch 9>&- &
part ci rt ci
: > "$logs/ci.ended"
[ -n "$had" ] || python3 -B scripts/lib/libraries.py take .
part bodies scripts/bodies.py
tell_times
echo "by the clock: $(paste -sd ',' "$logs/took" | sed 's/,/, /g')"
total 0 "$logs"/*.log
