# shellcheck shell=sh
# Shared by the scripts that build programs without proof. It is read by `.` at the top of the
# repository, where $work is a folder of the script's own.
: "${work:?a folder has to be named}"

# holder_of FIFO: the process that has a pipe open as a program that `rt try` has built, and the
# file of that program, where there is one by now
holder_of() {
    # Processes end while this looks.
    find /proc/[0-9]*/fd -lname "$1" > "$work/holders" 2> /dev/null || true
    while read -r opened; do
        process=${opened#/proc/}
        process=${process%%/*}
        built=$(tr '\0' '\n' 2> /dev/null < "/proc/$process/cmdline" | grep '/program$') || continue
        [ ! -x "$built" ] || return 0
    done < "$work/holders"
    return 1
}

# end_hint TRY: ends the check that this `rt try` runs beside the build, and tells whether it has.
# It only looks for names that a proof would refuse, and takes as long as the build's first half.
end_hint() {
    hint=$(tr ' ' '\n' 2> /dev/null < "/proc/$1/task/$1/children" | while read -r child; do
        if tr '\0' ' ' 2> /dev/null < "/proc/$child/cmdline" | grep -q '^[^ ]*rattle check '; then
            echo "$child"
        fi
    done)
    [ -n "$hint" ] && kill "$hint"
}

# copy_built FOLDER PROGRAM FLAG..: has `rt try` build the program of this crate's folder with these
# flags, without proof and with a check in the place of each. It leaves no program behind, so its
# file is copied while it waits to read the pipe $work/waits. What is said is in $work/said.
copy_built() {
    crate=$1 copied=$2
    shift 2
    mkfifo "$work/waits"
    (cd "$crate" && exec rt try --seconds 600 "$@") \
        < /dev/null > "$work/printed" 2> "$work/said" &
    building=$!
    # The program waits as long as there is a writer.
    exec 8<> "$work/waits"
    found=false hints=true
    while kill -0 "$building" 2> /dev/null; do
        if [ "$hints" = true ] && end_hint "$building"; then hints=false; fi
        if holder_of "$work/waits"; then cp "$built" "$copied" && found=true && break; fi
        sleep 1
    done
    exec 8>&-
    wait "$building" || true
    building=
    rm "$work/waits"
    [ "$found" = true ] || { cat "$work/printed" "$work/said" && return 1; }
}

# copy_tree TREE COPY: copies all that programs are built from
copy_tree() {
    rm -rf "$2"
    mkdir "$2"
    tar -C "$1" --anchored --no-wildcards-match-slash --exclude='crates/*/out' -cf "$2.tar" \
        crates.txt HANDLES crates
    tar -C "$2" -xf "$2.tar"
    rm "$2.tar"
}

# build_unproved TREE PROGRAM: builds `pbook` of this tree so, with a version that says it. It waits
# for a book.
build_unproved() {
    copy_tree "$1" "$work/unproved"
    sed -i 's/\.version("[0-9.]*/&-unproved/' "$work/unproved/crates/pb_cli/src/grammar.rt"
    rm -rf "$work/cases"
    mkdir "$work/cases"
    : > "$work/cases/waits"
    printf 'show\n%s\n' "$work/waits" > "$work/cases/waits.args"
    copy_built "$work/unproved/crates/pbook" "$2" --cases "$work/cases"
}

# build_unproved_examples TREE PROGRAM: builds `worked_examples` so. Its only row waits for a text.
build_unproved_examples() {
    printf 'waits\twords\tfile\t%s\n' "$work/waits" > "$work/rows.txt"
    copy_built "$1/crates/worked_examples" "$2" --data "rows.txt=$work/rows.txt"
}
