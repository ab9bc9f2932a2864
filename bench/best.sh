# shellcheck shell=sh
# For the scripts beside this one.

# once COMMAND..: the nanoseconds that the command takes. What it prints is dropped.
once() {
    begin=$(date +%s%N)
    "$@" > /dev/null
    end=$(date +%s%N)
    echo $((end - begin))
}

# best ROUNDS COMMAND..: the least number of nanoseconds that the command takes in so many rounds.
# How far the others lie from it goes to standard error: one number would hide that the machine
# was at other work.
best() {
    rounds=$1
    shift
    while [ "$rounds" -gt 0 ]; do
        once "$@"
        rounds=$((rounds - 1))
    done | sort -n | awk '
        { times[NR] = $1 }
        END {
            print times[1]
            middle = times[int((NR + 1) / 2)] / times[1]
            if (NR > 1)
                printf "    %d rounds: the middle %.2f times the least, the longest %.2f times\n", \
                    NR, middle, times[NR] / times[1] > "/dev/stderr"
        }'
}
