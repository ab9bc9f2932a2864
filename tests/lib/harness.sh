# shellcheck shell=sh
# Shared by the scripts of the folder above. It is read by `.` at the top of the repository, and
# makes the folder $work, which goes when the script ends, unless a check has failed. The first one
# that fails ends it. PROGRAM, where it was set, is then a copy of that program in $work.
#
# These scripts are for Linux alone, as the program is: they need GNU's coreutils (`date +%s%N`,
# `stat -c`, `timeout`) and /proc/mounts. A check that needs more, such as flock, strace, setpriv
# or a mount, is left out where that isn't to be had, and the script says so.
umask 022
# Without links, as strace names folders.
work=$(cd "$(mktemp -d)" && pwd -P)
chmod 755 "$work"
held=0
untried=0
# shellcheck disable=SC2034 # many scripts begin games there
start='rnbqkbnr/pppppppp/8/8/8/8/PPPPPPPP/RNBQKBNR w KQkq - 0 1'
# Seconds after which a check fails that still waits for something. It is no measure of anything:
# a program with a check in the place of each proof is slow, and so is a busy machine.
patience=${PATIENCE:-300}

# leave: unmounts what the checks have mounted, and removes their folder
leave() {
    awk -v work="$work/" 'index($2, work) == 1 { print $2 }' /proc/mounts > "$work/mounted"
    while read -r folder; do umount "$folder"; done < "$work/mounted"
    [ "$failed" = true ] || rm -rf "$work"
}
failed=false
trap leave EXIT
trap 'exit 1' HUP INT TERM

if [ -n "${PROGRAM:-}" ]; then
    install -m 755 "$PROGRAM" "$work/program"
    PROGRAM=$work/program
fi

# check NAME COMMAND..: runs a check and tells whether it holds. It runs in a subshell, in which
# any command that fails ends it.
check() {
    name=$1
    shift
    : > "$work/note"
    # A condition, as of `if`, would switch `set -e` off in the check.
    set +e
    (
        set -e
        "$@"
    )
    status=$?
    set -e
    if [ "$status" -ne 0 ]; then
        failed=true
        echo "FAILED: $name (what it left is in $work)"
        exit 1
    fi
    held=$((held + 1))
    echo "ok: $name$(sed 's/^/: /' "$work/note")"
}

# put_all: writes the files of standard input below $work, each behind a line `==== FILE` with its
# name, and perhaps a note
put_all() {
    awk -v top="$work/" '
        $1 == "====" {
            file = top $2
            folder = file
            sub(/[^\/]*$/, "", folder)
            system("mkdir -p " folder)
            printf "" > file
            next
        }
        { print > file }'
}

# pawn_setups COUNT: so many numbers from 0, each with a TAB and a setup of its own, of two ranks of
# pawns, in which a king may go from e1 to d1 and e8 to d8
pawn_setups() {
    awk -v count="$1" 'BEGIN {
        for (n = 0; n < count; n++) {
            pawns = ""
            for (bit = 1; bit <= 32768; bit *= 2) pawns = pawns (int(n / bit) % 2 ? "P" : "p")
            printf "%d\t4k3/8/8/%s/%s/8/8/4K3 w - - 0 1\n", n, substr(pawns, 1, 8), substr(pawns, 9)
        }
    }'
}

# note TEXT: what the line of the running check tells beside its name
note() { echo "$1" > "$work/note"; }

# holds CONDITION..: ends the running check where this command fails, and shows the command
holds() {
    if "$@"; then return; fi
    echo "    does not hold: $*"
    exit 1
}

# not CONDITION..: whether this command fails
not() { if "$@"; then return 1; fi; }

has() { command -v "$1" > /dev/null; }
is_root() { [ "$(id -u)" -eq 0 ]; }
# Without what is in /usr/bin there is no toolchain.
no_rt_there() { ! env PATH=/usr/bin:/bin sh -c 'command -v rt' > /dev/null; }

# awaits CONDITION..: whether this comes true
awaits() {
    late=$(($(date +%s) + patience))
    until "$@"; do
        [ "$(date +%s)" -lt "$late" ] || return 1
        sleep 0.01
    done
}

# same_lines DUE FOUND: whether two files are the same; it shows the lines in which they differ
same_lines() {
    if cmp -s "$1" "$2"; then return; fi
    echo '    what is due (<), and what was found (>):'
    diff "$1" "$2" | sed 's/^/    /'
    return 1
}

# ends STATUS COMMAND..: whether this command ends with this status. It runs in a subshell.
ends() {
    due=$1 status=0
    shift
    ("$@") || status=$?
    [ "$status" -eq "$due" ] || { echo "    the status is $status" && return 1; }
}

# count PATTERN FILE: the number of lines that the pattern is found in
count() { awk -v pattern="$1" '$0 ~ pattern { found++ } END { print found + 0 }' "$2"; }

# leave_out WHY NAME..: tells that these checks are not tried
leave_out() {
    why=$1
    shift
    untried=$((untried + $#))
    echo "not tried, $why: $*"
}

# choose CONDITION WHY CHECK..: has these checks tried where the condition holds, and else tells
# why they are not
chosen=
choose() {
    condition=$1 why=$2
    shift 2
    if $condition; then chosen="$chosen $*"; else leave_out "$why" "$@"; fi
}

# try_all CHECK..: tries these checks, or where none is given those that were chosen, each by its
# own name. Where $around is a command, that runs each.
around=
try_all() {
    # shellcheck disable=SC2086 # each name is a word
    [ $# -gt 0 ] || set -- $chosen
    for name; do check "$name" $around "$name"; done
    finish
}

# finish: tells how many checks hold. It fails where none was tried, nor left out for want of a
# tool.
finish() {
    echo "$held checks hold, $untried were not tried"
    [ $((held + untried)) -gt 0 ]
}
