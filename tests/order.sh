#!/bin/sh
# Compares the order of the system's calls with the one that keeps what was answered: a journal's
# line is written whole and synced before its reply, what an earlier run left is written and synced
# again before it is read, a draft is on the disk before it takes its name, FILE is made anew
# before BOOK. strace tells the calls.
# Usage: PROGRAM=program tests/order.sh [CHECK..] (at the top of the repository).
# shellcheck disable=SC2086 # what isn't quoted is more words than one
set -eu
PROGRAM=${PROGRAM:-build/pbook}
. tests/lib/harness.sh
. tests/lib/places.sh
. tests/lib/collector.sh
journaled="traced calls $PROGRAM collect --journal games.journal"

# prepare: a folder for BOOK, so that the syncs of the check's own one are those of the journal
prepare() { mkdir books; }

# of_journal [FILTER]: the calls that keep what is answered: those of the journal, of its folder and
# of standard output. At the end of each run the journal is synced.
of_journal() {
    calls='open|flock|read|write|rewrite|fsync|fdatasync|ftruncate'
    { cat && echo 'fdatasync games.journal'; } |
        in_order calls "^($calls) (games\\.journal|\\.|replies)( |\$)" "$@"
}

# rewritten: the events of standard input. Before the first sync of the journal what is read of it
# isn't told, nor that it is opened again, and what is written there counts as one call.
rewritten() {
    awk '
        synced { print; next }
        / games\.journal/ && (/^read/ || /^open/ && opened++) { next }
        /^write games\.journal/ { bytes += $3; next }
        /^fsync games\.journal/ { if (bytes) print "rewrite games.journal", bytes; synced = 1 }
        { print }'
}

# reply_of NUMBER: the number of bytes of that reply
reply_of() { echo "ok $(id_of "$1") $1" | wc -c; }

# size_of FILE: how many bytes it has
size_of() { stat -c %s "$1"; }

# begun [CALL]: the calls by which a run with --sync begins, on a journal that it has to write over
# itself by this one
begun() {
    printf '%s\n' 'open games.journal rw' 'flock games.journal LOCK_EX' ${1:+"$1"} \
        'fsync games.journal' 'open . r' 'fsync .' 'read games.journal'
}

# kept NUMBER: the calls by which a new game is on the disk
kept() { printf '%s\n' "write games.journal $(bytes_of "$1")" 'fdatasync games.journal'; }

# Each new game is written whole by one call, and is on the disk before its reply goes out; a game
# that comes again is answered at once.
synced_journal() {
    : > games.journal
    begin $journaled --sync "$table" books/book.bin
    holds says_all 0 1 2 1 3
    holds of_journal rewritten << END
$(begun)
$(kept 1)
write replies $(reply_of 1)
$(kept 2)
write replies $(reply_of 2)
write replies $(reply_of 1)
$(kept 3)
write replies $(reply_of 3)
END
    games_of 1,3 > whole
    holds cmp whole games.journal
}

# Many games that come at once are written and synced one by one, before the first reply.
synced_at_once() {
    : > games.journal
    games_of 1,3 > games
    holds ran 0 $journaled --sync "$table" books/book.bin < games
    holds of_journal rewritten << END
$(begun)
$(kept 1)
$(kept 2)
$(kept 3)
write replies $(size_of "$work/replies")
END
}

# Without --sync a game is written before its reply, and nothing waits for the disk until the end.
unsynced_journal() {
    : > games.journal
    begin $journaled "$table" books/book.bin
    holds says_all 0 1 2
    holds of_journal << END
open games.journal rw
flock games.journal LOCK_EX
read games.journal
write games.journal $(bytes_of 1)
write replies $(reply_of 1)
write games.journal $(bytes_of 2)
write replies $(reply_of 2)
END
}

# A game that a run without --sync has left is on the disk before it is answered again, and so is
# the journal's name. It is written over itself before it is synced: where an earlier sync failed
# the system takes it for written.
repeat_of_unsynced() {
    : > games.journal
    games_of 1,2 > games
    holds collects 0 "$place/books/book.bin" "$place/games" --journal games.journal
    mv games whole
    begin $journaled --sync "$table" books/book.bin
    holds says_all 0 2
    holds of_journal rewritten << END
$(begun "rewrite games.journal $(size_of whole)")
write replies $(reply_of 2)
END
    holds cmp whole games.journal
}

# Without --sync all is synced at the end.
repeat_unsynced() {
    games_of 1,2 > games.journal
    cp games.journal whole
    begin $journaled "$table" books/book.bin
    holds says_all 0 2
    holds of_journal << END
open games.journal rw
flock games.journal LOCK_EX
read games.journal
write replies $(reply_of 2)
END
    holds cmp whole games.journal
}

# A journal of many pieces is written over itself likewise.
long_journal() {
    for _ in 1 2 3; do cat "$work/games"; done > games.journal
    cp games.journal whole
    holds ran 0 $journaled -q --sync "$table" books/book.bin < /dev/null
    holds of_journal rewritten << END
$(begun "rewrite games.journal $(size_of whole)")
END
    holds cmp whole games.journal
}

# A torn end is sealed, and the seal is on the disk before the first reply.
torn_journal() {
    games_of 1 > games.journal
    games_of 2 | head -c 50 >> games.journal
    cp games.journal whole
    begin $journaled --sync "$table" books/book.bin
    holds says_all 0 1
    holds of_journal rewritten << END
$(begun "rewrite games.journal $(size_of whole)")
write games.journal 5
fdatasync games.journal
write replies $(reply_of 1)
END
    printf '\t\t\t\t\n' >> whole
    holds cmp whole games.journal
}

# The journal's folder is synced where that is another one than the run's, and than a link's to it.
journal_elsewhere() {
    mkdir far
    ln -s far/games.journal link
    games_of 1 > games
    for name in far/games.journal link; do
        : > far/games.journal
        holds ran 0 traced calls \
            "$PROGRAM" collect --journal "$name" --sync "$table" books/book.bin < games
        holds in_order calls '^(fsync|write|fdatasync) (far|replies|\.)' << END
fsync far/games.journal
fsync far
write far/games.journal $(bytes_of 1)
fdatasync far/games.journal
write replies $(size_of "$work/replies")
fdatasync far/games.journal
END
    done
}

# A book is on the disk before it takes its name, and then its name is, also where BOOK stands in
# another folder than that of the run.
draft_in() {
    at=${1:+$1/}
    holds ran 0 traced calls "$PROGRAM" collect "$table" "${at}book.bin" < "$work/games"
    holds in_order calls '^(write|fsync|fdatasync|rename) \S*book|^fsync ' << END
write ${at}.book.bin.pbook $(size_of "${at}book.bin")
fdatasync ${at}.book.bin.pbook
rename ${at}.book.bin.pbook to ${at}book.bin
fsync ${1:-.}
END
}
new_draft() { draft_in ''; }
draft_elsewhere() {
    mkdir far
    draft_in far
}

# Before a submission is read BOOK is looked at, and FILE and BOOK are held with their drafts, which
# others who can't read the old files can read at no time. One that a killed run has left is locked
# and goes first. FILE is made anew before BOOK is.
saved_ledger() {
    with_old
    chmod 600 book.bin
    games_of 1,3 > games
    : > games.ledger
    holds collects 0 "$book" "$place/games" --ledger games.ledger
    chmod 640 games.ledger
    games_of 4,9 > games
    : > .book.bin.pbook
    holds ran 0 traced calls "$PROGRAM" collect --ledger games.ledger "$table" book.bin < games
    kept='^(open|flock|ftruncate|fchmod|fdatasync|rename|unlink) \S*(games\.ledger|book)\S*'
    holds in_order calls "$kept|^fsync|^read games$" << END
open book.bin r
open games.ledger rw
flock games.ledger LOCK_EX
open .games.ledger.pbook new 0100640
flock .games.ledger.pbook LOCK_EX
open book.bin w
flock book.bin LOCK_EX
open .book.bin.pbook rw
flock .book.bin.pbook LOCK_EX
unlink .book.bin.pbook
open .book.bin.pbook new 0100600
flock .book.bin.pbook LOCK_EX
read games
read games
fdatasync .games.ledger.pbook
rename .games.ledger.pbook to games.ledger
fsync .
fdatasync .book.bin.pbook
rename .book.bin.pbook to book.bin
fsync .
END
    holds has_mode 640 games.ledger
    holds has_mode 600 book.bin
}

# What a link leads to is replaced beside that file, in whose folder the draft and its new name are
# put on the disk.
behind_links() {
    mkdir far
    : > far/kept
    cp "$work/old" far/real
    ln -s far/kept link
    ln -s ../far/real books/book.bin
    games_of 1,3 > games
    holds ran 0 traced calls "$PROGRAM" collect --ledger link "$table" books/book.bin < games
    holds in_order calls '^(write|fdatasync|rename) \S*(far|book|link)|^fsync' << END
write far/.kept.pbook $(size_of far/kept)
fdatasync far/.kept.pbook
rename far/.kept.pbook to far/kept
fsync far
write far/.real.pbook $(size_of far/real)
fdatasync far/.real.pbook
rename far/.real.pbook to far/real
fsync far
END
}

can_read_traces() { can_trace && has python3; }
choose can_read_traces 'strace and python3 are wanted' synced_journal synced_at_once \
    unsynced_journal repeat_of_unsynced torn_journal repeat_unsynced long_journal \
    journal_elsewhere new_draft draft_elsewhere saved_ledger behind_links
try_all "$@"
