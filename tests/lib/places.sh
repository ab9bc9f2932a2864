# shellcheck shell=sh
# Shared by the scripts that try `pbook collect` in folders of their own. It is read by `.` after
# tests/lib/harness.sh.
: "${work:?tests/lib/harness.sh is read first}"

cp examples/table.txt "$work/table"
cp examples/games.txt "$work/games"
cp examples/book.bin "$work/new"
head -c 1600 "$work/new" > "$work/old"
table=$work/table

# prepare: puts into the folder of a check what each check of a script finds there
prepare() { :; }

# in_folder CHECK: runs a check in a new folder of its own, $place, in which BOOK, FILE and the
# journal have these names
# shellcheck disable=SC2034 # `try_all` reads it
around=in_folder
in_folder() {
    place=$work/$1
    # shellcheck disable=SC2034 # the checks read these names
    book=$place/book.bin ledger=$place/games.ledger journal=$place/games.journal
    mkdir "$place"
    cd "$place" || return
    prepare
    "$1"
}

# as_other COMMAND..: runs the command as a user who isn't root
as_other() {
    if is_root; then setpriv --reuid=65534 --regid=65534 --clear-groups "$@"; else "$@"; fi
}

# is_told STATUS: whether $work/errors has what a run of this status may put on standard error:
# nothing where all was taken, and else one line that tells of the program's name and a cause
is_told() {
    if [ "$1" -eq 0 ]; then
        [ ! -s "$work/errors" ]
    else
        [ "$(wc -l < "$work/errors")" -eq 1 ] && grep -q '^pbook: .' "$work/errors"
    fi
}

# ran STATUS COMMAND..: whether this command ends with this status and tells of it as it has to on
# standard error. What it puts is in $work/replies. Where $runner is a command, that runs it.
runner=
ran() {
    due=$1 status=0
    shift
    $runner "$@" > "$work/replies" 2> "$work/errors" || status=$?
    if [ "$status" -eq "$due" ] && is_told "$due"; then return; fi
    echo "    the status is $status, and this is put on standard error:"
    cat "$work/errors"
    return 1
}

# collects STATUS BOOK [INPUT [OPTION..]]: whether `collect` ends so over this input
collects() {
    wanted=$1 to=$2 input=${3:-$work/games}
    shift $(($# < 3 ? $# : 3))
    ran "$wanted" "$PROGRAM" collect "$@" "$table" "$to" < "$input"
}

# all_files: the names, numbers, modes and bytes of all files of the check
all_files() {
    find "$place" -printf '%p %i %y %m %l\n' | sort
    find "$place" -type f -exec cksum {} + | sort -k 3
}

# stops_unread NAME BOOK [OPTION..]: whether `collect` ends with the status and the one line of
# $ending before it reads a submission, tells of the file of this name, and changes no file
ending='3 fault open'
stops_unread() {
    blamed=$1 to=$2
    shift 2
    all_files > "$work/before"
    {
        ran "${ending%% *}" "$PROGRAM" collect "$@" "$table" "$to" || return 1
        # What was read is gone from here.
        cat > "$work/unread"
    } < "$work/games"
    all_files > "$work/after"
    if says_only "${ending#* }" && cmp -s "$work/unread" "$work/games" && tells_name "$blamed" &&
        cmp -s "$work/before" "$work/after"; then return; fi
    echo "    this is put, $(wc -c < "$work/unread") bytes of the input are left, and changed:"
    head -n 3 "$work/replies" "$work/errors"
    diff "$work/before" "$work/after"
    return 1
}

# failing PATH CALLS ERROR: runs fail so in these calls of the system over this file
failing() { runner="strace -f -o /dev/null -P $1 -e trace=$2 -e inject=$2:error=$3"; }

# to_full COMMAND..: runs the command, whose output goes to a full device
to_full() { "$@" > /dev/full; }

# with_old: BOOK is an old one before the run
with_old() { cp "$work/old" "$book"; }

# What may hold after it, of a file, of the replies, of standard error, or of the folder.
is_new() { cmp -s "$1" "$work/new"; }
is_old() { cmp -s "$1" "$work/old"; }
says() { [ "$(tail -n 1 "$work/replies")" = "$1" ]; }
says_only() { [ "$(cat "$work/replies")" = "$1" ]; }
tells() { [ "$(cat "$work/errors")" = "pbook: $1" ]; }
tells_name() { grep -q "^pbook: $1:\{0,1\} ." "$work/errors"; }
# The number of a file itself, also of one that a link leads to.
node() { stat -L -c %i "$1"; }
has_node() { [ "$(node "$2")" = "$1" ]; }
has_mode() { [ "$(stat -c %a "$2")" = "$1" ]; }
no_draft() { [ -z "$(find "$place" -name '.*.pbook')" ]; }

# can_mount: whether file systems can be mounted
can_mount() {
    # Root of a container may not mount; that is told by the caller.
    mkdir -p "$work/probe"
    mount -t tmpfs tmpfs "$work/probe" 2> /dev/null && umount "$work/probe"
}
can_be_other() { ! is_root || has setpriv; }
# Where a container lets nobody trace, strace is there and fails.
can_trace() { has strace && strace -o /dev/null true 2> /dev/null; }
