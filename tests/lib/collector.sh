# shellcheck shell=sh
# Shared by the scripts that talk with a collector while it runs, or write down in which order it
# calls the system. It is read by `.` after tests/lib/places.sh. All of it is called in a check,
# in the folder of that check.
: "${place=}" "${work:?tests/lib/harness.sh is read first}" "${patience:?}" "${PROGRAM:?}"
top=$PWD

# Games of three workers, and the number of bytes of each line with its LF.
games_of() { sed -n "$1p" "$work/games"; }
bytes_of() { games_of "$1" | wc -c; }
id_of() { games_of "$1" | cut -f 1; }

# traced FILE COMMAND..: runs the command, and writes its calls that open, read, write, sync, lock,
# cut, permit and rename files to this file
traced() {
    to=$1
    shift
    strace -f -y -xx -s 0 -e signal=none -o "$to" -e trace=openat,flock,read,write,pwrite64,\
writev,fsync,fdatasync,ftruncate,fchmod,rename,renameat,renameat2,unlink "$@"
}

# in_order FILE PATTERN [FILTER]: whether the calls in the file that have this pattern, in short and
# as the filter gives them, are the lines of standard input
in_order() {
    cat > due
    python3 -B "$top/tests/lib/calls.py" "$1" "$place" | ${3:-cat} | grep -E "$2" > seen || true
    same_lines due seen
}

# begin COMMAND..: starts a collector with these words in the background, to which `say` sends
# lines. It is $collector, its replies are in the pipe `replies`, and what it tells on standard
# error is in `told`.
begin() {
    mkfifo games replies
    : > told
    "$@" < games > replies 2> told &
    collector=$!
    # A check that fails leaves none behind.
    trap 'kill -9 "$collector" 2> /dev/null || true' EXIT
    exec 3> games 4< replies
}

# begin_held CALL[:NUMBER] FLAGS COMMAND..: starts a collector in the background, which reads
# `games`. It stops right after its first call of this name, or the one of this number, of those that
# these flags of strace let through, until `go_on`. It has stopped when this ends.
begin_held() {
    call=${1%:*} at=1 flags=$2
    case $1 in *:*) at=${1#*:} ;; esac
    shift 2
    # shellcheck disable=SC2016 # the shell that is started knows its own number
    as_process='echo $$ > process; exec "$@"'
    : > held
    # shellcheck disable=SC2086 # each flag is a word
    strace -o held $flags -e "trace=$call" -e "inject=$call:signal=SIGSTOP:when=$at" \
        sh -c "$as_process" sh "$@" < games > replies 2> told &
    collector=$!
    trap 'kill -9 "$(cat process)" 2> /dev/null || true' EXIT
    awaits grep -q 'stopped by SIGSTOP\|^+++ exited' held && grep -q 'stopped by SIGSTOP' held
}

# go_on STATUS: whether the collector that was held goes on, and ends with this status
go_on() {
    due=$1 status=0
    kill -CONT "$(cat process)"
    wait "$collector" || status=$?
    trap - EXIT
    is_status "$due"
}

# is_status DUE: whether the collector has ended with this status, which is in $status
is_status() {
    if [ "$status" -eq "$1" ]; then return; fi
    echo "    the status is $status"
    cat told
    return 1
}

# say NUMBER REPLY: sends the game of this number, and whether the reply to it is this one
say() {
    games_of "$1" >&3
    reply=$(timeout "$patience" head -n 1 <&4) || true
    if [ "$reply" = "$2" ]; then return; fi
    echo "    the reply to game $1 is: $reply"
    return 1
}

# say_ok NUMBER: so it is for the game of this number, which is its number in the reply too
say_ok() { say "$1" "ok $(id_of "$1") $1"; }

# says_all STATUS NUMBER..: so it is for these games in turn, and then the collector ends with this
# status
says_all() {
    due_at_end=$1
    shift
    for number; do say_ok "$number" || return 1; done
    end "$due_at_end"
}

# end STATUS: ends the submissions, and whether the collector then ends with this status; the other
# lines of its output are in `rest`
end() {
    exec 3>&-
    timeout "$patience" cat <&4 > rest || return 1
    exec 4<&-
    due=$1 status=0
    wait "$collector" || status=$?
    trap - EXIT
    rm games replies
    is_status "$due"
}
