#!/bin/sh
# Tries that two runs don't spoil each other's files, and one run doesn't spoil its own: a FILE,
# and what makes a BOOK, are held from a run's start on, and what a killed run left isn't; the
# files of a run, its drafts, standard input and output are different ones. Other programs change
# the files of a run meanwhile: no game is answered by a journal that one has changed, and what one
# has put into the FILE of `--ledger` is kept.
# Usage: PROGRAM=program tests/locks.sh [CHECK..] (at the top of the repository).
# shellcheck disable=SC2086 # what isn't quoted is more words than one
set -eu
PROGRAM=${PROGRAM:-build/pbook}
. tests/lib/harness.sh
. tests/lib/places.sh
. tests/lib/collector.sh

# is_in_use NAME OPTION..: whether a second run with these options reads and changes nothing, since
# another run has the file of this name
is_in_use() {
    name=$1
    shift
    stops_unread "$name" "$place/second.bin" "$@" && tells "$name: it is in use by another run"
}

# whole_ledger GAMES: the FILE of a run that took these games
whole_ledger() { echo 'pbook-ledger 1' && games_of "$1"; }

# held OPTION: one run at a time has this FILE, by whatever name
held() {
    file=games.${1#--}
    : > "$file"
    ln -s "$file" "link$1"
    begin "$PROGRAM" collect "$1" "$file" "$table" "$book"
    holds say_ok 1
    for name in "$file" "link$1"; do
        for option in --journal --ledger; do holds is_in_use "$name" "$option" "$name"; done
    done
    holds says_all 0 2
    holds cmp "$2" "$file"
    # Nobody holds it any more.
    holds collects 0 "$book" "$work/games" "$1" "$file"
    holds is_new "$book"
}

held_files() {
    games_of 1,2 > journal.due
    whole_ledger 1,2 > ledger.due
    held --journal journal.due
    held --ledger ledger.due
}

# is_made NODE: whether FILE is another file than that one by now
is_made() { not has_node "$1" games.ledger; }

# The first run has made FILE anew, and waits for a reader of BOOK, which is a pipe.
held_new_ledger() {
    : > games.ledger
    mkfifo book.bin
    before=$(node games.ledger)
    begin "$PROGRAM" collect --ledger games.ledger "$table" "$book"
    holds say_ok 1
    exec 3>&-
    holds awaits is_made "$before"
    holds is_in_use games.ledger --ledger games.ledger
    timeout "$patience" cat book.bin > piped &
    holds end 0
    wait
    holds test -s piped
    whole_ledger 1 > whole
    holds cmp whole games.ledger
}

# One run at a time makes a BOOK, by whatever name. The other one is told at its start, and answers
# its games; a third one makes BOOK anew.
one_book() {
    ln -s book.bin link
    for state in new old; do
        begin "$PROGRAM" collect "$table" book.bin
        holds say_ok 1
        # A link that leads to no file is none of its names.
        for name in book.bin "$place/book.bin" link; do
            [ "$name $state" != 'link new' ] || continue
            holds collects 3 "$name"
            holds says 'fault open'
            # Where no BOOK is, its draft alone is held.
            [ "$state" = old ] || name=$(echo "$name" | sed 's/book\.bin$/.&.pbook/')
            holds tells "$name: it is in use by another run"
            holds test "$(wc -l < "$work/replies")" -eq $(($(wc -l < "$work/games") + 1))
        done
        holds says_all 0 2
        games_of 1,2 | "$PROGRAM" collect "$table" "$state.bin" > /dev/null
        holds cmp book.bin "$state.bin"
        holds no_draft
    done
    holds collects 0 "$book"
    holds is_new "$book"
    # No two that begin at once spoil it.
    for _ in 1 2 3 4 5 6; do
        for _ in 1 2 3 4; do
            "$PROGRAM" collect "$table" "$book" < "$work/games" > /dev/null 2>> told &
        done
        wait
        holds is_new "$book"
        holds no_draft
    done
    holds not grep -vqF "$book: it is in use by another run" told
}

# What has the draft's name when a run begins goes, with all that is in it: owner, permissions and
# links of the new file are its own. What the other name of that file keeps stays.
left_claim() {
    with_old
    chmod 600 "$book"
    : > games.ledger
    begin "$PROGRAM" collect --ledger games.ledger "$table" "$book"
    holds say_ok 1
    kill -9 "$collector"
    wait "$collector" 2> /dev/null || true
    trap - EXIT
    exec 3>&- 4<&-
    for draft in .book.bin.pbook .games.ledger.pbook; do
        holds test -f "$draft"
        cat "$work/new" "$work/new" > "$draft"
        chmod 666 "$draft"
        ! is_root || chown 65534:65534 "$draft"
        ln "$draft" "other$draft"
    done
    holds collects 0 "$book" "$work/games" --ledger games.ledger
    holds is_new "$book"
    holds has_mode 600 "$book"
    holds has_mode 644 games.ledger
    holds test "$(stat -c %u book.bin games.ledger)" = "$(stat -c %u . .)"
    holds test "$(wc -l < games.ledger)" -eq 301
    cat "$work/new" "$work/new" | cmp - other.book.bin.pbook
    rm other.*
    holds no_draft
    # So it is where no BOOK was.
    : > .new.pbook
    chmod 666 .new.pbook
    holds collects 0 new
    holds has_mode 644 new
}

# begin_at_open NUMBER PATH OPTION..: starts a run over `few`, which stops once it has opened the
# file of this path so often; whether it does
begin_at_open() {
    number=$1 path=$2
    shift 2
    rm -f held process
    cp few games
    begin_held "openat:$number" "-P $path" "$PROGRAM" collect "$@" "$table" "$book"
}

# A run that has opened a FILE, or a draft, finds another file by its name once it has locked that,
# or before it answers: the other one stays as it is, and so does BOOK or FILE.
replaced_when_opened() {
    with_old
    games_of 1,9 > few
    games_of 1 > other
    for file in journal ledger .book.bin.pbook; do
        option=
        [ "$file" = .book.bin.pbook ] || option="--$file $place/$file"
        for synced in '' --sync; do
            at=1
            [ "$synced" = '' ] || [ "$file" = journal ] || continue
            while
                games_of 2 > "$file"
                begin_at_open "$at" "$place/$file" $option $synced
            do
                cp "$file" found
                mv "$file" first
                cp other "$file"
                holds go_on 3
                holds is_old "$book"
                holds cmp "$file" other
                holds begins_as found first
                holds test "$(wc -l < told)" -eq 1
                at=$((at + 1))
            done
            wait "$collector"
            trap - EXIT
            holds test "$at" -gt 1
            with_old
        done
        rm -f "$file"
    done
}

# What a command only reads may become the FILE of a collector that starts meanwhile. The command
# has opened both, and waits for a pipe.
read_meanwhile() {
    games_of 1 > games.journal
    cp games.journal games.ledger
    mkfifo pipe
    "$PROGRAM" games games.journal games.ledger pipe > printed 2> told &
    reader=$!
    trap 'kill -9 "$reader" 2> /dev/null || true' EXIT
    holds awaits has_open "$reader" "$place/games.ledger"
    for option in --journal --ledger; do
        holds collects 0 "$book" "$work/games" "$option" "games.${option#--}"
        holds is_new "$book"
    done
    games_of 2 > pipe
    holds wait "$reader"
    trap - EXIT
    holds test ! -s told
    holds test "$(tail -n 1 printed)" = "$(games_of 2)"
}

# has_open PROCESS FILE: whether the process has this file open
has_open() {
    for opened in "/proc/$1/fd"/*; do
        [ "$(readlink "$opened")" != "$2" ] || return 0
    done
    return 1
}

# A BOOK that another run has as its journal or FILE stays as it is, by whatever name.
book_is_held() {
    : > games.journal
    : > games.ledger
    for option in --journal --ledger; do
        file=games.${option#--}
        begin "$PROGRAM" collect "$option" "$file" "$table" "$book"
        ln -sf "$file" link
        holds awaits has_open "$collector" "$place/.book.bin.pbook"
        for name in "$file" link; do
            holds collects 3 "$name"
            holds says 'fault open'
            holds tells "$name: it is in use by another run"
        done
        holds says_all 0 1
        holds no_draft
    done
    whole_ledger 1 > whole
    holds cmp whole games.ledger
    sed 1d whole > whole.journal
    holds cmp whole.journal games.journal
}

# A run that can't know whether another one holds its FILE or BOOK doesn't go on, nor does one over
# a file system without locks, where two runs would write one draft.
failed_locks() {
    with_old
    games_of 1,9 > games.journal
    for error in EIO EINVAL ENOLCK ENOSYS EOPNOTSUPP; do
        runner="strace -f -o /dev/null -e trace=flock -e inject=flock:error=$error"
        for option in --journal --ledger; do
            holds stops_unread games.journal "$book" "$option" games.journal
        done
        for name in "$book" "$place/new.bin"; do
            holds collects 3 "$name"
            holds says 'fault open'
            [ "$name" = "$book" ] || name=$place/.new.bin.pbook
            holds tells_name "$name"
            holds no_draft
        done
        holds is_old "$book"
        holds not test -e new.bin
        # The journal can be locked, and the draft of BOOK can't.
        cp games.journal found
        failing "$place/.book.bin.pbook" flock "$error"
        holds collects 3 "$book" /dev/null --journal games.journal
        holds is_old "$book"
        holds cmp games.journal found
        holds no_draft
    done
}

# one_file CAUSE INPUT OUTPUT WORD..: a run with these words ends with status 3 for this cause, and
# changes no file
one_file() {
    cause=$1 input=$2 output=$3 status=0
    shift 3
    all_files > "$work/before"
    "$PROGRAM" collect "$@" < "$input" >> "$output" 2> "$work/errors" || status=$?
    all_files > "$work/after"
    [ "$status" -eq 3 ] && grep -Eqx "pbook: ($cause)" "$work/errors" &&
        [ "$(wc -l < "$work/errors")" -eq 1 ] && cmp -s "$work/before" "$work/after" && return
    echo "    the status is $status; these are told, and changed:"
    cat "$work/errors"
    diff "$work/before" "$work/after"
    return 1
}

# are_one ONE OTHER INPUT OUTPUT WORD..: so it is for these two names
are_one() {
    one=$1 other=$2
    shift 2
    one_file "($one and $other|$other and $one) are one file" "$@"
}

# TABLE, FILE, BOOK, standard input and standard output are different files, by whatever names.
different_files() {
    cp "$table" table
    cp "$work/new" book.bin
    games_of 1,9 > kept
    games=$work/games out=$work/replies
    for file in table kept book.bin; do
        ln "$file" "hard.$file"
        ln -s "$file" "link.$file"
    done
    for of in '' hard. link.; do
        holds are_one table "${of}table" "$games" "$out" table "${of}table"
        holds are_one /dev/stdin book.bin "${of}book.bin" "$out" table book.bin
        holds are_one table /dev/stdout "$games" "${of}table" table book.bin
        holds are_one book.bin /dev/stdout "$games" "${of}book.bin" table book.bin
        for option in --ledger --journal; do
            holds are_one table "${of}table" "$games" "$out" "$option" "${of}table" table book.bin
            holds are_one kept "${of}kept" "$games" "$out" "$option" kept table "${of}kept"
            holds are_one kept /dev/stdin "${of}kept" "$out" "$option" kept table book.bin
            holds are_one kept /dev/stdout "$games" "${of}kept" "$option" kept table book.bin
        done
    done
}

# The draft of BOOK, or of a ledger, is no other file of the run, which would be emptied.
different_drafts() {
    with_old
    cp "$table" table
    games_of 1,9 > kept
    cp "$work/games" games
    for how in cp 'ln -s' ln; do
        while read -r file draft input output words; do
            rm -f "$draft"
            $how "$file" "$draft"
            holds one_file '.* and .* are .*' "$input" "$output" $words
        done << END
table .book.bin.pbook games $work/replies .book.bin.pbook book.bin
kept .book.bin.pbook games $work/replies --ledger .book.bin.pbook table book.bin
kept .book.bin.pbook games $work/replies --journal .book.bin.pbook table book.bin
games .book.bin.pbook .book.bin.pbook $work/replies table book.bin
games .book.bin.pbook games .book.bin.pbook table book.bin
table .kept.pbook games $work/replies --ledger kept .kept.pbook book.bin
games .kept.pbook .kept.pbook $work/replies --ledger kept table book.bin
games .kept.pbook games .kept.pbook --ledger kept table book.bin
book.bin .kept.pbook games $work/replies --ledger kept table .kept.pbook
END
        rm .book.bin.pbook .kept.pbook
    done
    # So it is of the draft of what a link leads to.
    mkdir far
    cp book.bin far/kept
    cp table far/.kept.pbook
    ln -s far/kept link
    holds one_file '.* and .* are .*' games "$work/replies" far/.kept.pbook link
    # BOOK isn't what a ledger keeps of other programs either.
    holds one_file 'kept and kept.changed are a file and what it keeps of other programs' games \
        "$work/replies" --ledger kept table kept.changed
}

# Files of two disks that have one number are different ones.
other_disks() {
    for disk in one two; do mkdir "$disk" && mount -t tmpfs tmpfs "$place/$disk"; done
    cp "$table" one/table
    cp "$work/old" two/book.bin
    holds has_node "$(node one/table)" two/book.bin
    table=one/table
    holds collects 0 two/book.bin
}

# is_closed STREAM WORD..: a run with these words, for which this stream is closed, ends with status
# 3, tells of the stream in a line, makes no book, and leaves the games of FILE, to which others may
# have come
is_closed() {
    stream=$1 status=0
    shift
    whole_ledger 1,9 > kept
    case $stream in
        input) "$PROGRAM" "$@" <&- > "$work/put" 2> "$work/errors" || status=$? ;;
        output) "$PROGRAM" "$@" < "$work/games" >&- 2> "$work/errors" || status=$? ;;
        *) "$PROGRAM" "$@" <&- >&- 2> "$work/errors" || status=$? ;;
    esac
    whole_ledger 1,9 > due
    head -n 10 kept > front
    [ "$status" -eq 3 ] && [ "$(wc -l < "$work/errors")" -eq 1 ] && tells_name "standard $stream" &&
        is_old book.bin && [ ! -e new.bin ] && no_draft && cmp front due && return
    echo "    the status is $status, and this is told:"
    cat "$work/errors"
    return 1
}

closed_streams() {
    with_old
    for words in epd check "lookup $table $work/new" "export $table" "collect $table book.bin" \
        "collect $table new.bin" "collect --ledger kept $table book.bin" \
        "collect --journal kept $table book.bin" "collect --journal kept --sync $table new.bin"; do
        for stream in input output '\(input\|output\)'; do holds is_closed "$stream" $words; done
    done
    holds is_closed output fen "$start" e2e4
    holds is_closed output show "$work/new"
    holds is_closed output probe "$table" "$work/new" "$start"
    # What reads no submissions needs no standard input.
    "$PROGRAM" show "$work/new" <&- > listed 2> told
    holds test "$(wc -l < listed)" -eq $(($(wc -c < "$work/new") / 16))
    "$PROGRAM" probe "$table" "$work/new" "$start" <&- > listed 2>> told
    holds grep -q '^e2e4 ' listed
    "$PROGRAM" fen "$start" e2e4 <&- > listed 2>> told
    holds grep -q '^rnbqkbnr/pppppppp/8/8/4P3/' listed
    holds test ! -s told
}

# change HOW FILE: another program does this to the file of a run
change() {
    case $1 in
        removed) rm "$2" ;;
        renamed) mv "$2" elsewhere ;;
        replaced) cp "$2" copy && printf 'more' >> copy && mv copy "$2" ;;
        emptied) : > "$2" ;;
        shorter) truncate -s -1 "$2" ;;
        longer) printf 'torn' >> "$2" ;;
        linked) ln -sf "$work/first" "$2" ;;
        touched) touch -d tomorrow "$2" ;;
        named) ln "$2" second ;;
        given) chmod 640 "$2" && chown 65534 "$2" ;;
    esac
}

# begins_as FRONT FILE: whether the file has these bytes first
begins_as() { head -c "$(wc -c < "$1")" "$2" | cmp - "$1"; }

# is_changed FILE: whether all that another program left of the file, or that there is none, is there
is_changed() {
    if [ -e left ]; then begins_as left "$1"; else not test -e "$1"; fi
}

# changed_file HOW OPTION FILE [OPTION..]: another program changes the FILE of a run over two games
# in the midst of it; what it left is `left`. All of it is in a folder of its own.
changed_file() {
    how=$1 file=$3 folder=$((${folder-0} + 1))
    mkdir "$folder"
    cd "$folder"
    shift
    : > "$file"
    [ "$file" != games.ledger ] || whole_ledger 9 > "$file"
    games=$(($(wc -l < "$file") / 2))
    begin "$PROGRAM" collect "$@" "$table" book.bin
    holds say 1 "ok $(id_of 1) $((games + 1))"
    change "$how" "$file"
    [ ! -e "$file" ] || cp "$file" left
}

# A journal that is changed so ends the run: nothing that comes later is answered, be it a new game
# or a repeat, and that is told too where nothing comes.
changed_journals() {
    games_of 1 > "$work/first"
    for how in removed renamed replaced linked emptied shorter longer; do
        for option in '' --sync; do
            for later in 2 1 ''; do
                changed_file "$how" --journal games.journal $option
                [ "$later" = '' ] || { holds say "$later" '' && : > answered; }
                holds end 3
                holds test ! -s rest
                holds test "$(cat told)" = 'pbook: games.journal: another program has changed it'
                # The book of all that was answered is there where nothing came.
                holds not test -e book.bin -a -e answered
                holds is_changed games.journal
                cd ..
            done
        done
    done
    for option in '' --sync; do
        for how in touched named given; do
            if [ "$how" = given ] && ! is_root; then continue; fi
            unharmed "$how" --journal games.journal $option
        done
    done
}

# unharmed HOW OPTION FILE [OPTION..]: what another program does so harms nobody
unharmed() {
    changed_file "$@"
    holds say 2 "ok $(id_of 2) $((games + 2))"
    holds end 0
    holds test ! -s told
    holds test "$(tail -n 2 "$file")" = "$(games_of 1,2)"
    [ "$how" != given ] || holds has_mode 640 "$file"
    cd ..
}

# What another program adds in the midst of a run is written over by none of its lines. The run is
# held once it has added the first of three games.
added_meanwhile() {
    games_of 1,3 > games
    for option in '' --sync; do
        games_of 4 > games.journal
        rm -f held process book.bin
        holds begin_held write "-P $journal" \
            "$PROGRAM" collect --journal "$journal" ${option:+"$option"} "$table" "$book"
        games_of 5 >> games.journal
        holds go_on 3
        holds not test -e book.bin
        for game in 4 1 5 2 3; do games_of "$game"; done | cmp - games.journal
        holds not grep -q '^ok' replies
    done
}

# A FILE of `--ledger` that has another length than the run has read gets a second name before the
# new one takes its place, and that is told. Nothing of either is lost.
changed_ledgers() {
    games_of 9 > "$work/first"
    for how in replaced linked emptied shorter longer; do
        changed_file "$how" --ledger games.ledger
        holds end 0
        holds cmp games.ledger.changed left
        { whole_ledger 9 && games_of 1; } > ../whole
        holds cmp games.ledger ../whole
        holds test "$(wc -l < told)" -eq 1
        holds grep -q '^pbook: .*games\.ledger.*games\.ledger\.changed' told
        holds test -z "$(find . -name '.*.pbook')"
        cd ..
    done
    holds test "$(cat "$work/first")" = "$(games_of 9)"
    # Where that name is taken, or too long, the new one stays the draft.
    for file in games.ledger "$(printf '%0248d' 0)"; do
        changed_file longer --ledger "$file" -q
        why='file name too long'
        [ "$file" != games.ledger ] || { : > "$file.changed" && why='file exists'; }
        holds end 3
        holds cmp "$file" left
        holds test "$(tail -n 1 ".$file.pbook")" = "$(games_of 1)"
        until="the new one is .$file.pbook, until the next run over $file removes it"
        printf 'pbook: %s\n' "$file.changed: $why" \
            "$file: another program has changed it; $until" | cmp - told
        holds not test -e book.bin -o -s "$file.changed"
        cd ..
    done
    # It lies beside the file that a link leads to.
    mkdir far
    : > far/kept
    ln -s far/kept link
    begin "$PROGRAM" collect -q --ledger link "$table" book.bin
    holds say_ok 1
    printf 'torn' > far/kept
    holds end 0
    holds test "$(cat far/kept.changed)" = torn
    holds grep -q '^pbook: link: .*far/kept\.changed' told
    # One that is gone is made, and what only touches it harms nobody.
    for how in removed renamed; do
        changed_file "$how" --ledger games.ledger
        holds end 0
        holds test ! -s told
        holds cmp games.ledger ../whole
        cd ..
    done
    for how in touched named given; do
        if is_root || [ "$how" != given ]; then unharmed "$how" --ledger games.ledger; fi
    done
}

# lost_claim STATUS COMMAND..: a run whose drafts this command meets in the midst of it ends with
# this status; its book is the new one with status 0, and else the old one
lost_claim() {
    due=$1
    shift
    with_old
    : > games.ledger
    begin "$PROGRAM" collect --ledger games.ledger "$table" "$book"
    games_of 1,322 >&3
    holds test "$(timeout "$patience" head -n 1 <&4)" = "ok $(id_of 1) 1"
    chmod 640 "$book"
    "$@"
    holds end "$due"
    if [ "$due" -eq 0 ]; then
        holds is_new "$book"
        holds test "$(wc -l < games.ledger)" -eq 301
        holds test ! -s told
    else
        holds is_old "$book"
        cp told "$work/errors"
        holds is_told 3
    fi
    holds has_mode 640 "$book"
}

# for_drafts COMMAND..: runs this command for the draft of BOOK and that of FILE
for_drafts() {
    for draft in .book.bin.pbook .games.ledger.pbook; do "$@" "$draft"; done
}

# replace FILE: puts another file in its place
replace() { echo precious > other && mv other "$1"; }

# A draft that somebody removes is claimed again. What was put in its place is no draft of the run.
lost_claims() {
    # Permissions that are changed meanwhile are those of the new file.
    lost_claim 0 true
    lost_claim 0 for_drafts rm
    lost_claim 0 mv .book.bin.pbook elsewhere
    lost_claim 0 for_drafts replace
    holds no_draft
    echo precious > precious
    lost_claim 3 ln -sf precious .book.bin.pbook
    holds test "$(cat precious)" = precious
    holds test -L .book.bin.pbook
    rm .book.bin.pbook
    lost_claim 3 sh -c 'rm .book.bin.pbook && mkdir .book.bin.pbook'
    rmdir .book.bin.pbook
}

# Another run has claimed BOOK since its draft was removed: it keeps that, and makes BOOK.
claimed_by_another() {
    mkdir first
    cd first
    begin "$PROGRAM" collect "$table" "$book"
    holds say_ok 1
    rm ../.book.bin.pbook
    cd ..
    mkfifo lines
    "$PROGRAM" collect "$table" "$book" < lines > answers 2> told 3>&- 4<&- &
    second=$!
    exec 5> lines
    holds awaits test -e .book.bin.pbook
    cd first
    holds end 3
    holds grep -qx "pbook: $book: it is in use by another run" told
    cd ..
    holds test -e .book.bin.pbook
    holds not test -s "$book"
    cat "$work/games" >&5
    exec 5>&-
    wait "$second"
    holds is_new "$book"
    holds test ! -s told
    holds no_draft
}

[ $# -gt 0 ] || {
    choose true '' held_files held_new_ledger one_book left_claim read_meanwhile \
        book_is_held different_files different_drafts closed_streams changed_journals \
        changed_ledgers lost_claims claimed_by_another
    choose can_mount 'nothing can be mounted' other_disks
    choose can_trace 'strace is wanted' replaced_when_opened failed_locks added_meanwhile
}
try_all "$@"
