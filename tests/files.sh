#!/bin/sh
# Tries what `pbook collect` leaves of BOOK, and of the FILE of an option, in a hostile world:
# devices, links, folders, missing permissions, full disks, files that are no journal, calls of the
# system that fail, runs that are killed at each call. As root it tries more, on file systems that
# it mounts. It also tries that options say what counts, and what `pbook games` takes of torn
# journals.
# Usage: PROGRAM=program tests/files.sh [CHECK..] (at the top of the repository).
# shellcheck disable=SC2046,SC2086 # what isn't quoted is more words than one
set -eu
PROGRAM=${PROGRAM:-build/pbook}
. tests/lib/harness.sh
. tests/lib/places.sh
. tests/lib/collector.sh
cp tests/data/few.bin tests/data/few.epd "$work"
grep "^${start% 0 1} " examples/export.epd > "$work/first.epd"
head -n 9 "$work/games" > "$work/nine"
sed -n 10,14p "$work/games" > "$work/few"

# Games whose book has more than 64 kilobytes.
pawn_setups 5000 | awk -F'\t' '{ printf "long-%d\t1/2-1/2\t%s\te1d1\n", $1, $2 }' > "$work/long"

# makes BOOK [FILE]: a run makes the new book of BOOK, which is this file, and leaves no draft
makes() {
    holds collects 0 "$1"
    holds is_new "${2:-$1}"
    holds no_draft
}

# with_ledger: a new folder has an old BOOK and the FILE of a run over the first games, a copy of
# which is `first`
with_ledger() {
    with_old
    : > "$ledger"
    holds collects 0 "$work/nine.bin" "$work/nine" --ledger "$ledger"
    cp "$ledger" first
}

new_book() {
    makes "$book"
    holds has_mode 644 "$book"
    makes book.bin
    # The longest name that has room for its draft's.
    makes "$(printf '%0248d' 0)"
}

old_book() {
    with_old
    chmod 640 "$book"
    before=$(node "$book")
    makes "$book"
    holds has_mode 640 "$book"
    holds not has_node "$before" "$book"
}

# The reader of a pipe gets all. One that leaves it before the book is written, which doesn't fit
# into it, ends the run, which has no end of it to read. The ledger is kept though the book isn't.
streams() {
    with_ledger
    for input in "$work/games" /dev/null; do holds collects 0 /dev/null "$input"; done
    holds collects 3 /dev/full "$work/games" --ledger "$ledger"
    holds not says 'fault open'
    holds test -c /dev/null -a -c /dev/full
    holds test "$(wc -l < "$ledger")" -eq 301
    mkfifo pipe
    timeout "$patience" cat pipe > piped &
    runner="timeout $patience"
    holds collects 0 "$place/pipe"
    wait
    holds is_new piped
    holds test -p pipe
    (: < pipe) &
    holds collects 3 "$place/pipe" "$work/long"
    holds tells "$place/pipe: broken pipe"
    wait
}

# A file gets the book only, and a pipe the replies before it.
standard_output() {
    ln -s /dev/stdout link
    for name in /dev/stdout /dev/fd/1 link; do
        "$PROGRAM" collect "$table" "$name" < "$work/games" > output 2> errors
        holds is_new output
        holds test ! -s errors
    done
    holds test -L link
    "$PROGRAM" collect "$table" /dev/stdout < "$work/games" 2> errors | cat > piped
    holds collects 0 "$book"
    cat "$work/replies" "$book" > due
    holds cmp piped due
    holds test ! -s errors
}

# A link stays one. The file that it leads to is replaced, by a draft beside it.
links() {
    with_ledger
    mkdir far
    for file in book.bin games.ledger; do
        cp "$file" "far/real.$file"
        chmod 640 "far/real.$file"
        ln -s "real.$file" "far/second.$file"
        ln -s "far/second.$file" "link.$file"
        before=$(node "far/real.$file")
        [ "$file" = book.bin ] || set -- --ledger link.games.ledger
        holds collects 0 link.book.bin "$work/games" "$@"
        holds not has_node "$before" "far/real.$file"
        holds has_mode 640 "far/real.$file"
        holds test "$(readlink "link.$file") $(readlink "far/second.$file")" = \
            "far/second.$file real.$file"
    done
    holds is_new far/real.book.bin
    holds collects 0 "$book" "$work/games" --ledger "$ledger"
    holds cmp far/real.games.ledger "$ledger"
    holds no_draft
}

# A second name keeps the old file, such as that of a backup.
second_names() {
    with_ledger
    ln "$book" book.backup
    ln "$ledger" ledger.backup
    holds collects 0 "$book" "$work/games" --ledger "$ledger"
    holds is_new "$book"
    holds is_old book.backup
    holds cmp ledger.backup first
    holds not cmp -s "$ledger" first
    holds no_draft
}

# is_line_told: whether a whole line is on standard error
is_line_told() { [ "$(wc -l < told)" -gt 0 ]; }

# cannot_make NAME BOOK [OPTION..]: a run tells in one line, before it has a submission, that what
# has this name, BOOK or its draft, can't be made, answers what it is sent, and ends with `fault open`
cannot_make() {
    blamed=$1 to=$2
    shift 2
    begin $runner "$PROGRAM" collect "$@" "$table" "$to"
    holds awaits is_line_told
    cp told "$work/errors"
    holds tells_name "$blamed"
    holds says_all 3 1
    holds test "$(cat rest)" = 'fault open'
    cp told "$work/errors"
    holds is_told 3
}

# Whatever keeps BOOK from being made is told before a line is read. No line is, where no draft has
# a name.
unmakable() {
    mkdir folder
    ln -s loop loop
    for name in '' nothing/ nothing/. folder/ loop; do holds stops_unread "$name" "$name"; done
    for name in folder "$(printf '%0256d' 0)"; do cannot_make "$name" "$name"; done
    long=$(printf '%0249d' 0)
    cannot_make ".$long.pbook" "$long"
    cannot_make missing/book.bin missing/book.bin
    holds not test -e missing -o -e nothing
    cannot_make missing/book.bin missing/book.bin -q
    : > kept
    cannot_make missing/book.bin missing/book.bin --journal kept
    holds test "$(cat kept)" = "$(games_of 1)"
    : > kept
    cannot_make missing/book.bin missing/book.bin --ledger kept
    holds test "$(wc -l < kept)" -eq 2
    # What has the draft's name is none: a run that took the pipe for one would wait for its reader.
    with_old
    cp "$work/old" precious
    for how in 'ln -s precious' 'ln -s nowhere' mkfifo mkdir; do
        $how .book.bin.pbook
        cannot_make .book.bin.pbook book.bin
        holds is_old precious
        holds not test -e nowhere
        holds is_old book.bin
        rm -r .book.bin.pbook
    done
    holds no_draft
}

unmakable_by_other() {
    mkdir far
    cp "$work/old" far/book.bin
    cp "$work/old" book.bin
    ln -s book.bin link
    chmod 444 book.bin
    ! is_root || chmod 666 far/book.bin
    chmod 777 "$place"
    chmod 555 far
    runner=as_other
    for name in book.bin link; do cannot_make "$name" "$name"; done
    for name in book.bin new.bin; do cannot_make "far/.$name.pbook" "far/$name"; done
    holds is_old book.bin
    holds is_old far/book.bin
    chmod 755 far
}

# A BOOK that its user may write and not read is made anew all the same, and so is one in a folder
# that may be written and not read.
unreadable() {
    with_old
    ! is_root || chown 65534:65534 "$book"
    chmod 200 "$book"
    chmod 333 "$place"
    runner=as_other
    holds collects 0 "$book"
    chmod 755 "$place"
    holds has_mode 200 "$book"
    chmod 644 "$book"
    holds is_new "$book"
    holds no_draft
}

# A new BOOK has the permissions that its user gives to new files.
own_umask() {
    for mask in 002 077; do
        umask "$mask"
        holds collects 0 "$mask"
    done
    holds has_mode 664 002
    holds has_mode 600 077
}

# Where no book comes of a run, no draft of one is left.
no_book_made() {
    head -n 400 "$table" > half
    table=$place/half
    holds collects 1 "$book"
    holds test "$(find "$place" -type f)" = "$place/half"
}

full_disk() {
    with_ledger
    mkdir disk
    mount -t tmpfs -o size=40k tmpfs "$place/disk"
    cp "$work/old" disk/book.bin
    cp first disk/games.ledger
    holds collects 3 "$place/disk/book.bin" "$work/long"
    holds tells "$place/disk/book.bin: no space left on device"
    holds collects 3 "$place/disk/book.bin" "$work/games" --ledger "$place/disk/games.ledger"
    holds not says 'fault open'
    holds tells "$place/disk/games.ledger: no space left on device"
    holds is_old disk/book.bin
    holds cmp disk/games.ledger first
    holds no_draft
    # There is no room for a draft's name.
    umount disk
    mount -t tmpfs -o nr_inodes=2 tmpfs "$place/disk"
    cp "$work/old" disk/book.bin
    cannot_make disk/.book.bin.pbook disk/book.bin
    holds is_old disk/book.bin
}

# A file system that is mounted over a name is told at the start. One file over another of the same
# file system is met by the rename.
mount_points() {
    with_ledger
    mkdir disk
    mount -t tmpfs tmpfs "$place/disk"
    cp first disk/kept
    cp "$work/old" disk/book
    mount --bind disk/kept "$ledger"
    mount --bind disk/book "$book"
    cannot_make "$place/.book.bin.pbook" "$book"
    holds is_old "$book"
    holds stops_unread "$place/.games.ledger.pbook" "$place/new.bin" --ledger "$ledger"
    umount "$ledger" "$book"
    cp "$work/old" far.bin
    mount --bind far.bin "$book"
    holds collects 3 "$book"
    holds stays_drafted "$book" "$work/old" "$work/new"
}

# stays_drafted FILE OLD NEW: whether the run that has just ended has left the old FILE and the new
# one as its draft, whose name it has told
stays_drafted() {
    draft=${1%/*}/.${1##*/}.pbook
    tells_name "$1" && grep -qF "$draft" "$work/errors" && cmp "$1" "$2" && cmp "$draft" "$3"
}

# Where the new file can't get the name, the draft stays until the next run.
unrenamed() {
    with_old
    failing "$place/.book.bin.pbook" rename EBUSY
    holds collects 3 "$book"
    holds stays_drafted "$book" "$work/old" "$work/new"
    runner=
    makes "$book"
    with_ledger
    cp first whole
    holds collects 0 "$work/made" "$work/games" --ledger "$place/whole"
    failing "$place/.games.ledger.pbook" rename EIO
    holds collects 3 "$book" "$work/games" -q --ledger "$ledger"
    holds stays_drafted "$ledger" first whole
    holds is_old "$book"
    runner=
    holds collects 0 "$book" "$work/games" --ledger "$ledger"
    holds cmp "$ledger" whole
    holds no_draft
}

# where STATUS CONDITION PATH CALLS ERROR [MODE]: a run over an old BOOK of this mode ends with this
# status where these calls fail so over what has this path, and this holds of BOOK; none is written
# in place
where() {
    with_old
    chmod "${6:-640}" "$book"
    failing "$3" "$4" "$5"
    before=$(node "$book")
    holds collects "$1" "$book"
    holds "$2" "$book"
    holds no_draft
    [ "$2" = is_new ] || holds has_node "$before" "$book"
}

failed_calls() {
    draft=$place/.book.bin.pbook
    for call in write fsync,fdatasync; do where 3 is_old "$draft" "$call" EIO; done
    where 3 is_old "$draft" fchmod EIO 666
    # Permissions that are right aren't set.
    where 0 is_new "$draft" fchmod EPERM 644
    # The folder's names can't be put on the disk. It has to be one that may not be read, or that
    # knows no such sync, where that can't be tried.
    where 3 is_new "$place" fsync EIO
    where 0 is_new "$place" fsync EINVAL
    for error in EIO EMFILE; do where 3 is_new "$place" openat "$error"; done
    for error in EACCES EPERM; do where 0 is_new "$place" openat "$error"; done
    # So it is of FILE's folder and a synced journal's.
    with_ledger
    mkdir far
    mv games.ledger far/kept
    failing "$place/far" openat EIO
    holds collects 3 "$book" "$work/few" --ledger "$place/far/kept"
    holds not cmp -s far/kept first
    holds is_old "$book"
    cp "$work/nine" far/kept
    holds collects 3 "$book" "$work/few" --journal "$place/far/kept" --sync
    holds not grep -q '^ok ' "$work/replies"
    holds cmp far/kept "$work/nine"
}

# A write of replies that a signal interrupts has written nothing, and is made again.
interrupted() {
    runner='strace -f -o calls -e trace=write -e inject=write:error=EINTR:when=1..6'
    holds collects 0 "$book"
    holds grep -q EINTR calls
    holds is_new "$book"
    holds test "$(wc -l < "$work/replies")" -eq "$(wc -l < "$work/games")"
}

# A BOOK that holds games, or what games come from, stays, whichever option was forgotten or
# exchanged.
games_stay() {
    with_ledger
    head -n 1 first > header
    { head -c 600 /dev/zero && cat "$work/nine"; } > zeros
    ln -s "$work/nine" link
    printf '\357\273\277\n[Event "one"]\r\n' > pgn
    printf '\037\213 and more' > gzip
    printf '\050\265\057\375 and more' > zstd
    printf 'BZh9 and more' > bzip2
    printf '\3757zXZ and more' > xz
    : > kept
    while IFS='|' read -r name is; do
        for option in '' -q '--ledger kept' '--journal kept'; do
            holds stops_unread "$name" "$name" $option
            holds tells "$name stays: it $is"
        done
    done << 'END'
games.ledger|looks like games
header|looks like games
link|looks like games
zeros|looks like games
pgn|looks like PGN
gzip|is packed by gzip; zcat unpacks it
zstd|is packed by zstd; zstdcat unpacks it
bzip2|is packed by bzip2; bzcat unpacks it
xz|is packed by xz; xzcat unpacks it
END
}

# The path of a folder needn't be text where no link leads into it.
odd_folder() {
    odd=$(printf 'caf\351')
    mkdir "$odd"
    ln -s "$odd/book" link
    cp "$work/old" "$odd/book"
    holds stops_unread link link
    cd "$odd"
    for option in '' ledger journal; do
        : > kept
        for _ in 1 2; do holds collects 0 book "$work/games" ${option:+"--$option" kept}; done
        holds is_new book
    done
    holds no_draft
}

# killed_at CALL NUMBER COMMAND..: runs the command, which is killed as it makes the call of this name
# and number; whether it was. strace counts the calls of each name by themselves.
killed_at() {
    call=$1 number=$2 status=0
    shift 2
    strace -f -o /dev/null -e "trace=$call" -e "inject=$call:signal=SIGKILL:when=$number" \
        "$@" < "$work/few" > "$work/replies" 2> "$work/errors" || status=$?
    case $status in
        0) return 1 ;;
        137) ;;
        *) cat "$work/errors" && exit 1 ;;
    esac
}

# old_or_new: whether a killed run has left the old FILE and BOOK or new ones, and BOOK is new only
# where FILE is. A journal is a front of the new one, and has all games that were answered.
old_or_new() {
    case $option in
        *--journal*)
            answered=$(($(wc -l < "$work/nine") + $(count '^ok ' "$work/replies")))
            [ "$(wc -l < far/kept)" -ge "$answered" ] || return 1
            head -c "$(wc -c < far/kept)" kept.new | cmp far/kept - || return 1
            ;;
        *) cmp -s far/kept kept.new || { cmp far/kept kept.old && is_old far/book; } || return 1 ;;
    esac
    is_old far/book || cmp far/book book.new
}

# kills CALL OPTION..: runs with these options, which find a draft of an earlier one, are killed at
# each call of this name, and the next run takes over what each has left. Whether its book is old or
# new is added to `left`.
kills() {
    call=$1 at=1
    shift
    while
        cp kept.old far/kept
        cp "$work/old" far/book
        : > far/.book.pbook
        killed_at "$call" "$at" "$PROGRAM" collect "$@" "$table" book
    do
        holds old_or_new
        if cmp -s far/book book.new; then echo new; else echo old; fi >> left
        holds collects 0 book "$work/few" "$@"
        holds cmp far/kept kept.new
        holds cmp far/book book.new
        holds test -L kept -a -L book
        holds no_draft
        at=$((at + 1))
    done
}

# A run whose FILE and BOOK are links is killed at each call that opens, locks or changes a file.
killed() {
    ln -s far/kept kept
    ln -s far/book book
    mkdir far
    runs=0
    for option in '' '--ledger kept' '--journal kept' '--journal kept --sync'; do
        cp "$work/nine" kept.old
        cp kept.old far/kept
        cp "$work/old" far/book
        set -- $option
        holds collects 0 book "$work/few" "$@"
        mv far/kept kept.new
        mv far/book book.new
        : > left
        for call in openat flock write pwrite64 fchmod fdatasync fsync rename unlink; do
            kills "$call" "$@"
        done
        holds test "$(sort -u left | xargs)" = 'new old'
        runs=$((runs + $(wc -l < left)))
    done
    note "$runs runs"
}

# A run that is cut in three leaves the replies, the book and the games of one run, and FILE keeps
# its mode.
cut_in_three() {
    : > whole
    : > parts
    chmod 640 parts
    holds collects 0 whole.bin "$work/games" --ledger whole
    mv "$work/replies" whole.replies
    for part in 1,90 91,200 '201,$'; do
        sed -n "${part}p" "$work/games" > lines
        holds collects 0 parts.bin lines --ledger parts
        cat "$work/replies" >> parts.replies
    done
    holds cmp whole.replies parts.replies
    holds cmp whole.bin parts.bin
    holds cmp whole parts
    holds is_new parts.bin
    holds has_mode 640 parts
    holds no_draft
}

# An input of an earlier run is taken as it is, where no line of it was refused, and games come
# again in it.
old_list() {
    with_ledger
    sed 1d first > list
    cat list list > "$ledger"
    holds collects 0 "$place/list.bin" /dev/null --ledger "$ledger"
    holds cmp "$ledger" first
}

# What counts is what the options say, whatever is kept beside the book. Other programs made the
# book and the export of the first two plies without moves that occur less than three times
# (docs/TESTING.md says how), and told how many lines the export of such moves has.
rules() {
    for option in '' ledger journal; do
        : > kept
        holds collects 0 "$book" "$work/games" --plies 2 --least 3 ${option:+"--$option" kept}
        holds cmp "$book" "$work/few.bin"
    done
    holds ran 0 "$PROGRAM" export --plies 2 --least 3 "$table" < "$work/games"
    holds cmp "$work/replies" "$work/few.epd"
    holds ran 0 "$PROGRAM" export --least 3 "$table" < "$work/games"
    holds test "$(wc -l < "$work/replies")" -eq 268
    # Each game begins at the start, so its line is the same where first plies alone count.
    holds ran 0 "$PROGRAM" export --plies 1 "$table" < "$work/games"
    holds cmp "$work/replies" "$work/first.epd"
    # All moves of `fen` are played, and `tree` goes as deep as it has to.
    knights=$(yes 'g1f3 g8f6 f3g1 f6g8' | head -n 5)
    holds ran 0 "$PROGRAM" fen "$start" $knights
    holds says_only "${start% 0 1} 20 11"
    holds ran 0 "$PROGRAM" tree --plies 6 "$table" "$work/new"
    awk 'NR > 3 { if (!/^      /) exit; print substr($0, 7) }' "$work/replies" > below
    deeper=$("$PROGRAM" fen "$start" $(awk 'NR <= 3 { print $1 }' "$work/replies"))
    holds ran 0 "$PROGRAM" tree --plies 3 "$table" "$work/new" "$deeper"
    holds cmp "$work/replies" below
}

# The journals of two collectors make the book of the games that these have answered. A line that
# was torn in each is none of them, whether it was sealed or stands at the end.
two_journals() {
    for part in 1,150 151,322; do
        sed -n "${part}p" "$work/games" > "$part"
        printf 'torn\t1-0\t%s\ta2a3\t\t\t\t\ntorn\t1-0\t%s\ta2a3' "$start" "$start" >> "$part"
    done
    "$PROGRAM" games 1,150 151,322 > lines 2> told
    holds test "$(grep -c '^pbook: .*: its last line has no end; it is left out$' told)" -eq 2
    holds collects 0 "$book" lines
    holds not grep -q '^refused - ' "$work/replies"
    holds not grep -q torn lines
    holds is_new "$book"
}

# A journal that a run holds can be read all the same.
live_journal() {
    cp "$work/nine" "$journal"
    exec 9>> "$journal"
    flock -x 9
    holds ran 0 "$PROGRAM" games "$journal"
    holds cmp "$work/replies" "$journal"
}

# Where the replies can't be written, a torn last line isn't taken for a game.
torn_at_full_output() {
    : > "$journal"
    head -n 1 "$work/games" > lines
    cp lines due
    # Its moves but for the last one are a game too.
    sed -n '2s/ [^ ]*$//p' "$work/games" | tr -d '\n' >> lines
    runner=to_full
    holds collects 3 "$book" lines --journal "$journal"
    holds tells 'standard output: no space left on device'
    holds cmp "$journal" due
    holds not test -e "$book"
}

# ran_told STATUS COMMAND..: whether the command ends so over the games, and tells one line
ran_told() {
    due=$1 status=0
    shift
    "$@" < "$work/few" > "$work/replies" 2> "$work/errors" || status=$?
    [ "$status" -eq "$due" ] && [ "$(wc -l < "$work/errors")" -eq 1 ]
}

# A FILE that has a line which is no game stays. The last line is judged like each other one where
# it has no end, which is told.
broken_ledger() {
    with_ledger
    head -c -1 first > "$ledger"
    holds ran_told 0 "$PROGRAM" collect --ledger "$ledger" "$table" "$place/new.bin"
    holds tells "the last line of $ledger has no end; it may be a cut game"
    cat first "$work/few" > due
    holds cmp "$ledger" due
    for broken in 'head -c -3' "sed 5s/.*/no/"; do
        $broken first > "$ledger"
        cp "$ledger" found
        holds collects 1 "$book" "$work/few" -q --ledger "$ledger"
        [ "$broken" = 'head -c -3' ] && line=$(wc -l < first) || line=5
        holds says_only "refused ledger line $line"
        holds tells "$ledger: line $line isn't a game that can be taken"
        holds cmp "$ledger" found
        holds is_old "$book"
        holds no_draft
    done
}

# What can't be FILE ends the run before a submission is read: what keeps nothing, what isn't there
# (`/dev/fd/9` leads to a file that has lost its name), and a ledger that takes no draft.
special_files() {
    with_old
    mkfifo pipe
    mkdir folder
    ln -s /dev/null link
    ln -s nothing dangling
    exec 9<> gone
    rm gone
    runner="timeout $patience"
    for name in /dev/null link /dev/zero /dev/full pipe folder missing dangling /dev/fd/9; do
        for option in --ledger --journal '--sync --journal' '-q --journal'; do
            holds stops_unread "$name" "$book" $option "$name"
        done
    done
    exec 9>&-
    long=$(printf '%0249d' 0)
    : > "$long"
    holds stops_unread ".$long.pbook" "$book" --ledger "$long"
    holds collects 0 "$book" "$work/games" --journal "$long"
}

unwritable_files() {
    with_ledger
    chmod 777 "$place"
    runner=as_other
    for mode in 000 444; do
        chmod "$mode" "$ledger"
        for option in --ledger --journal; do
            holds stops_unread "$ledger" "$place/new.bin" "$option" "$ledger"
            holds tells "$ledger: permission denied"
        done
    done
    chmod 666 "$ledger"
    chmod 555 "$place"
    holds stops_unread "$place/.games.ledger.pbook" /dev/null --ledger "$ledger"
    chmod 755 "$place"
}

# A file that looks like no journal stays as it is.
no_journal() {
    with_old
    cp "$work/new" book
    cp "$table" table
    printf '[Event "one game"]\n[Result "1-0"]\n' > pgn
    printf 'two\tTABs\talone\n' > two
    printf 'a\tline\twith\tfour\tTABs\n' > four
    printf '\001torn' > control
    printf '\033\n' > escape
    printf '\n' > empty_line
    head -c 8193 /dev/zero | tr '\0' 'a' > long
    gzip -c < "$work/games" > packed
    ending='1 refused journal line 1'
    for name in book table pgn two four control escape empty_line long packed; do
        for option in '' --sync; do
            holds stops_unread "$name" "$book" --journal "$name" $option
        done
    done
}

# begins_with FORMAT: a file of this text is a journal, also once more
begins_with() {
    # shellcheck disable=SC2059 # the format is the text
    printf "$1" > kept
    cp kept begun
    for option in '' --sync; do
        holds ends 0 "$PROGRAM" collect --journal kept $option "$table" "$book" \
            < "$work/games" > replies 2> told
        holds test "$(grep -c '^ok ' replies)" -eq 320
        head -c "$(wc -c < begun)" kept > front
        holds cmp front begun
    done
}

# A first line that a kill tore, that has zeros of a power cut, or that was sealed, is a journal's,
# and so is a line of three TABs. What is sealed now is told.
first_lines() {
    for text in '' 'pbook-ledger 1\n' '\t\t\t\n' 'no\tgame\t\there\n' 'torn\t\t\t\t\n' \
        '\000\000\000 end of a game\n'; do
        begins_with "$text"
    done
    longest=$(head -c 8192 /dev/zero | tr '\0' a)
    for text in t 'pbook-led' '\000\000\000' 'torn\t1-0\r' "$longest"; do
        begins_with "$text"
        # shellcheck disable=SC2059 # the format is the text
        printf "$text" > kept
        holds ran_told 0 "$PROGRAM" collect --journal kept "$table" "$book"
        holds grep -q '^pbook: .*kept' "$work/errors"
    done
    for zeros in 30 9000; do
        for rest in "$work/nine" /dev/null; do
            { head -c "$zeros" /dev/zero && cat "$rest"; } > kept
            for _ in 1 2; do holds collects 0 "$book" /dev/null -q --journal kept; done
        done
    done
}

# A disk whose errors come at the sync alone is told of, also where BOOK fails, and no such run ends
# well.
unsynced_journal() {
    for error in EIO ENOSPC; do
        : > "$journal"
        failing "$journal" fsync,fdatasync "$error"
        holds collects 3 "$book" "$work/games" --journal "$journal"
        holds tells_name "$journal"
        holds not says 'fault open'
        for name in folder missing/book /dev/full; do
            mkdir -p folder
            holds ends 3 $runner "$PROGRAM" collect --journal "$journal" "$table" "$name" \
                < "$work/games" > replies 2> told
            holds test "$(wc -l < told)" -eq 2
            tail -n 1 told > "$work/errors"
            holds tells_name "$journal"
        done
    done
}

[ $# -gt 0 ] || {
    choose true '' new_book old_book streams standard_output links second_names unmakable \
        own_umask no_book_made games_stay cut_in_three old_list broken_ledger special_files \
        first_lines odd_folder rules two_journals torn_at_full_output
    choose 'has flock' 'flock is wanted' live_journal
    choose 'has gzip' 'gzip is wanted' no_journal
    choose can_trace 'strace is wanted' failed_calls unrenamed interrupted unsynced_journal killed
    choose can_be_other 'setpriv is wanted' unmakable_by_other unreadable unwritable_files
    choose can_mount 'nothing can be mounted' full_disk mount_points
}
try_all "$@"
