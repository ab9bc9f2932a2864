# shellcheck shell=sh
# Shared by the scripts that refuse memory, call by call. It is read by `.` after tests/lib/shim.sh.
# tests/refuse_memory.c says which calls count.
: "${work:?tests/lib/harness.sh is read first}"

from=0 to=0 calls='?' refused='?' status=0

check 'the shim sees all calls that ask for memory' \
    make_shim tests/refuse_memory.c 'mmap|mmap64|mremap|brk|sbrk|valloc|pvalloc'

# set_shim: has the calls from $from to $to be refused. Memory that is handed out or given back is
# filled with bytes that aren't 0.
set_shim() {
    export REFUSE_FROM="$from" REFUSE_TO="$to" REFUSE_TOLD="$work/told" MALLOC_PERTURB_=165
}

# describe_refusals: which calls were refused
describe_refusals() {
    echo "refused: the calls from $from to $to, of which there were $refused"
    echo "calls: $calls; status: $status"
}

# refuse_each HOW JUDGE INPUT WORD..: runs the program with each call in turn refused, until a run
# has no such call: that one alone where HOW is `alone`, and else all that come after it too.
# JUDGE looks at each run, and leaves in `came` a word for what it was. Each run is a line of
# $work/log.
refuse_each() {
    how=$1 judge=$2 refused_input=$3
    shift 3
    from=0 refused=1
    while [ "$refused" -gt 0 ]; do
        from=$((from + 1))
        if [ "$how" = alone ]; then to=$from; else to=999999999; fi
        calls='?' refused='?'
        run_shimmed "$refused_input" "$@"
        read -r calls refused < "$work/told"
        judge_errors
        [ "$how" != alone ] || [ "$refused" -le 1 ] || fails 'more than one call was refused'
        came=
        "$judge" "$@"
        echo "$how $refused $came" >> "$work/log"
    done
    [ "$calls" -eq $((from - 1)) ] || fails 'memory is asked for in another number of calls'
}

# Where glibc keeps its own counter of such calls, which is another than the shim. It doesn't count
# those that ask for an alignment.
counter=
for place in /lib/*/libmemusage.so /usr/lib/*/libmemusage.so /lib64/libmemusage.so; do
    [ ! -e "$place" ] || counter=$place
done
if [ -z "$counter" ]; then
    leave_out 'libmemusage.so is wanted' 'memory is asked for as often as it counts'
elif grep -qE 'memalign|aligned_alloc' "$work/called"; then
    leave_out "libmemusage.so doesn't see all calls" 'memory is asked for as often as it counts'
    counter=
fi

# as_counted INPUT WORD..: the calls that ask for memory, of which there were $growths, have to be
# those that libmemusage.so counts in a run in which none is refused. Its folder and its output have
# names as long as those of the other run: the longer a file's path, the more often its text grows.
as_counted() {
    [ -n "$counter" ] || return 0
    : "${growths:?the run is made first}"
    counted_input=$1
    shift
    rm -rf "$work/own"
    cp -Rd "$work/old" "$work/own"
    (
        cd "$work/own"
        export LD_PRELOAD="$counter"
        exec "$PROGRAM" "$@"
    ) < "$counted_input" > "$work/out" 2> "$work/counts" || true
    counted=$(sed 's/\x1b\[[0-9;]*m//g' "$work/counts" |
        awk -F '|' '/^ *(malloc|realloc|calloc)\|/ { sum += $2 } END { print sum + 0 }')
    [ "$counted" -eq "$growths" ] || fails "libmemusage.so counts $counted calls, not $growths"
}
