#!/bin/sh
# Tries what `pbook` tells on standard error: each fault, refused file and warning by the name of
# the file and its cause, a summary and how far it is in a terminal alone; and that a standard
# error that is closed or full changes nothing else.
# Usage: PROGRAM=program tests/messages.sh [CHECK..] (at the top of the repository).
# shellcheck disable=SC2046,SC2086,SC2254 # what isn't quoted is more words than one, or a pattern
set -eu
PROGRAM=${PROGRAM:-build/pbook}
. tests/lib/harness.sh
. tests/lib/places.sh
. tests/lib/collector.sh
cp examples/export.epd "$work/export"

# prepare: a table, an old book and a file of games
prepare() {
    cp "$work/table" table.txt
    cp "$work/old" book.bin
    head -n 9 "$work/games" > games
}

# tells_of STATUS TEXT WORD..: whether the program, run over `games`, ends with this status, and
# what it puts on standard error are the lines of this text, each after `pbook: `
tells_of() {
    due=$1 status=0
    printf '%s\n' "$2" | sed '/^$/d; s/^/pbook: /' > due
    shift 2
    $runner "$PROGRAM" "$@" < "$input" > "$work/replies" 2> "$work/errors" || status=$?
    same_lines due "$work/errors" && [ "$status" -eq "$due" ] && return
    echo "    the status is $status"
    return 1
}
input=games

# over INPUT STATUS TEXT WORD..: so it is over this input, which those after it have too
over() {
    input=$1
    shift
    tells_of "$@"
}

# each_tells STATUS TEXT OUTPUT WORDS..: so it is of the words of each of these commands, and the
# output has this pattern
each_tells() {
    each_status=$1 each_text=$2 each_output=$3
    shift 3
    for each; do
        holds tells_of "$each_status" "$each_text" $each
        holds has_put "$each_output"
    done
}
has_put() { case $(cat "$work/replies") in $1) ;; *) return 1 ;; esac; }

missing_files() {
    cp games kept
    each_tells 3 'no.txt: no such file or directory' 'fault open' 'collect no.txt book.bin' \
        'export no.txt' 'probe no.txt no.bin x' 'lookup no.txt no.bin' 'tree no.txt no.bin' \
        'collect --ledger kept no.txt book.bin' 'collect --journal kept no.txt book.bin'
    # The next program reads what `games` prints.
    each_tells 3 'no.txt: no such file or directory' '' 'games no.txt' 'games games no.txt'
    each_tells 3 'no.bin: no such file or directory' 'fault open' 'show no.bin' \
        'probe table.txt no.bin x' 'lookup table.txt no.bin' 'tree table.txt no.bin'
    for option in ledger journal; do
        each_tells 3 "none: no such file (an empty one begins a $option)" 'fault open' \
            "collect --$option none table.txt book.bin"
    done
    holds is_old book.bin
}

failed_reads() {
    mkdir folder
    each_tells 3 'folder: is a directory' 'fault read' 'collect folder book.bin' 'export folder' \
        'show folder' 'probe folder book.bin x' 'probe table.txt folder x' \
        'lookup folder book.bin' 'lookup table.txt folder' 'tree folder book.bin'
    each_tells 3 'folder: is a directory' '' 'games folder'
    holds tells_of 3 'folder: is a directory' games games folder
    holds cmp "$work/replies" games
    input=folder
    each_tells 3 'standard input: is a directory' 'fault read' epd check \
        'lookup table.txt book.bin' 'export table.txt' 'collect table.txt book.bin'
    holds is_old book.bin
}

full_output() {
    echo "${start% 0 1} ce 1;" > lines
    runner=to_full
    full='standard output: no space left on device'
    each_tells 3 "$full" '' 'collect table.txt book.bin' 'export table.txt' 'show book.bin' \
        'games games' check
    holds tells_of 3 "$full" fen "$start"
    input=lines
    each_tells 3 "$full" '' epd 'lookup table.txt book.bin'
    input=games
    holds tells_of 3 "$full" collect --journal book.bin table.txt new.bin
    holds is_old book.bin
}

# to_nobody COMMAND..: runs the command, whose output goes into a pipe that nobody reads any more
to_nobody() {
    rm -f gone
    {
        awaits test -e gone
        to_nobody_status=0
        "$@" || to_nobody_status=$?
        echo "$to_nobody_status" > status
    } | {
        exec 0<&-
        : > gone
    }
    return "$(cat status)"
}

# Whoever closes a pipe has seen enough, so that isn't told; but who sends games waits for answers.
closed_pipe() {
    echo "${start% 0 1} ce 1;" > lines
    runner=to_nobody
    each_tells 3 '' '' 'export table.txt' 'show book.bin' 'games games' check
    holds tells_of 3 '' fen "$start"
    holds tells_of 3 '' probe table.txt book.bin "$start"
    input=lines
    each_tells 3 '' '' epd 'lookup table.txt book.bin'
    # Help and usage are texts too, whose status stays.
    holds tells_of 2 '' --help
    input=games
    : > kept
    each_tells 3 'standard output: broken pipe' '' 'collect table.txt book.bin' \
        'collect -q table.txt book.bin' 'collect --ledger kept table.txt book.bin' \
        'collect --journal kept table.txt book.bin'
    holds is_old book.bin
}

# with_line NUMBER TEXT: the table with another text in this line
with_line() { awk -v at="$1" -v text="$2" 'NR == at { print text; next } { print }' "$work/table"; }

# each_refused WORDS..: each line of standard input is a file and a text. Of each of these commands,
# in which FILE stands for its name, the run tells this text of the file.
each_refused() {
    while IFS='|' read -r file text; do
        for each; do
            holds tells_of 1 "$file: $text" $(echo "$each" | sed "s/FILE/$file/")
        done
    done
}

refused_tables() {
    cp "$work/new" one
    with_line 1 'no word' > two
    with_line 5 'no word' > five
    head -n 780 "$work/table" > short
    cat "$work/table" "$work/table" > long
    head -c 20000 /dev/zero | tr '\0' '0' | fold -w 16 > longer
    others
    each_refused 'collect FILE book.bin' 'export FILE' 'probe FILE book.bin x' \
        'lookup FILE book.bin' 'tree FILE book.bin' << END
one|line 1 isn't 16 hexadecimal digits; it looks like a book
two|line 1 isn't 16 hexadecimal digits
five|line 5 isn't 16 hexadecimal digits
short|a table has 781 lines, and this one 780
longer|it is longer than a table
pgn|line 1 isn't 16 hexadecimal digits; it looks like PGN
packed|line 1 isn't 16 hexadecimal digits; it is packed by gzip; zcat unpacks it
games|line 1 isn't 16 hexadecimal digits; it looks like games
long_pgn|it is longer than a table; it looks like PGN
all_games|it is longer than a table; it looks like games
END
    holds is_old book.bin
}

# others: files of other kinds than tables and books
others() {
    printf '[Event "one game"]\n[Result "1-0"]\n\n1. e4 e5 2. Nf3 1-0\n' > pgn
    { cat pgn && head -c 20000 /dev/zero | tr '\0' ' '; } > long_pgn
    { printf '\037\213' && head -c 29 /dev/zero && echo; } > packed
    cp "$work/games" all_games
    printf '[text of a kind]\n[and more of it]\n' > text
}

refused_books() {
    others
    head -c 1601 "$work/new" > cut.bin
    { tail -c 16 "$work/new" && cat "$work/new"; } > unordered.bin
    lower='entry 2 has a lower key than the one before it'
    each_refused 'show FILE' 'probe table.txt FILE x' 'lookup table.txt FILE' \
        'tree table.txt FILE' << END
cut.bin|its last entry has 1 of 16 bytes
unordered.bin|$lower
table.txt|$lower; it looks like a table
pgn|$lower; it looks like PGN
packed|$lower; it is packed by gzip; zcat unpacks it
games|$lower; it looks like games
text|$lower; it is text
END
    # A pipe gives its bytes once, so it isn't looked at again.
    mkfifo pipe
    cat pgn > pipe &
    runner="timeout $patience"
    holds tells_of 1 "pipe: $lower" show pipe
}

refused_ledger() {
    cp "$work/new" new.bin
    cp table.txt other_table
    others
    while IFS='|' read -r file text; do
        each_tells 1 "$file: line 1 isn't a game that can be taken$text" 'refused ledger line 1' \
            "collect --ledger $file table.txt book.bin"
    done << END
pgn|; it looks like PGN
packed|; it is packed by gzip; zcat unpacks it
new.bin|; it looks like a book
other_table|; it looks like a table
text|
END
    holds is_old book.bin
}

# A refused record or move is told in words. What was refused of lines isn't told: the output has
# that.
refused_words() {
    while IFS='|' read -r record reason text; do
        for words in fen 'probe table.txt book.bin' 'tree table.txt book.bin'; do
            holds tells_of 1 "FEN: $text" $words "$record"
            holds says_only "refused fen $reason"
        done
    done << 'END'
no record|fields|it doesn't have six fields, one space between each two
startpos|fields|it doesn't have six fields, one space between each two
4k3/8/8/8/8/8/8/4K3 w - - 0 1 |fields|it doesn't have six fields, one space between each two
4k3/44/8/8/8/8/8/4K3 w - - 0 1|placement|its first field isn't eight ranks of pieces and empty squares
4k3/8/8/8/8/8/8/4K3 W - - 0 1|turn|its second field isn't w or b
4k3/8/8/8/8/8/8/4K3 w qK - 0 1|castling|its third field isn't - or letters of KQkq in this order
4k3/8/8/8/8/8/8/4K3 w - e3 0 1|ep-text|its fourth field isn't - or a square that a pawn can have passed over
4k3/8/8/8/8/8/8/4K3 w - - 01 1|half|its fifth field isn't a number from 0 to 65535
4k3/8/8/8/8/8/8/4K3 w - - 0 0|full|its sixth field isn't a number from 1 to 65535
4k3/8/8/8/8/8/8/8 w - - 0 1|kings|it doesn't have one king of each colour
4k2P/8/8/8/8/8/8/4K3 w - - 0 1|pawns|it has a pawn on rank 1 or 8
4k3/8/8/8/8/8/8/4K3 w - e6 0 1|ep-pawn|no pawn has just passed over its en passant square
END
    holds tells_of 1 "move 1: it isn't legal there" fen "$start" e2e5
    holds tells_of 1 "move 3: it isn't legal there" fen "$start" e2e4 e7e5 e4e5
    holds says_only 'refused illegal 3'
    holds tells_of 1 "move 2: it isn't spelt like e2e4 or e7e8q" fen "$start" e2e5 Nf6 e7e5
    holds says_only 'refused spelling 2'
    each_tells 1 '' '*' epd 'lookup table.txt book.bin'
    { cat games && echo 'no game'; } > bad
    holds over bad 1 '' check
    holds test "$(tail -n 1 "$work/replies")" = 'refused - shape'
}

wrong_use() {
    input=/dev/null
    for words in colect 'collect --plies x table.txt book.bin' 'show one two' \
        'collect --later table.txt book.bin' 'probe t b f more'; do
        "$PROGRAM" $words > due.put 2> /dev/null || true
        first=$(sed -n '1s/^error: //p' due.put)
        holds test -n "$first"
        holds tells_of 2 "$first" $words
        holds cmp "$work/replies" due.put
    done
    holds tells_of 2 "an argument isn't UTF-8" show "$(printf 'book\377.bin')"
    holds test ! -s "$work/replies"
    # A word has no line of its own, nor what a terminal would do.
    holds tells_of 2 "unexpected argument 'b\\npbook: fake\\u{1b}[31m' found" \
        show book.bin "$(printf 'b\npbook: fake\033[31m')"
    # Which arguments are wanted is told too, in one line.
    while IFS='|' read -r words wanted; do
        holds tells_of 2 "the following required arguments were not provided: $wanted" $words
    done << 'END'
collect|<TABLE> <BOOK>
collect table.txt|<BOOK>
games|<FILE>...
END
}

# A file that is named where lines come on standard input is told how it comes there, behind what
# else is told of wrong use.
words_too_many() {
    input=/dev/null
    while IFS='|' read -r words text; do
        holds tells_of 2 "unexpected argument 'x.txt' found
$text come on standard input: < x.txt" $words
        holds grep -q "^Usage: pbook ${words%% *} .*< " "$work/replies"
    done << 'END'
collect table.txt book.bin x.txt|games
collect --plies 8 table.txt book.bin x.txt|games
export table.txt x.txt|games
check x.txt|games
epd x.txt|positions
lookup table.txt book.bin x.txt|positions
END
}

# A terminal of 80 columns shows each line of help whole. Help that was asked for is no fault, nor
# is the help that is put where no word is given.
help_width() {
    input=/dev/null
    each_tells 2 '' '?*' --help --version 'collect --help' ''
    commands=$("$PROGRAM" --help | sed -n '/^Commands:/,/^$/s/^  \([a-z]*\) .*/\1/p')
    holds test "$(echo "$commands" | sort | tr '\n' ' ')" = \
        'check collect epd export fen games help lookup probe show tree '
    for command in '' $commands; do
        [ "$command" != help ] || continue
        for words in "$command --help" "help $command"; do
            holds tells_of 2 '' $words
            awk 'length > 80' "$work/replies" > wide
            holds test ! -s wide
        done
    done
    for command in collect export epd check lookup; do
        holds tells_of 2 '' "$command" --help
        holds grep -q "^Usage: pbook $command .*< [A-Z]* > [A-Z]*$" "$work/replies"
    done
}

# after_bytes COMMAND..: runs the command over what is left behind the first bytes of its input
after_bytes() {
    dd bs=10 count=1 > /dev/null 2>&1
    "$@"
}

# A run that goes on in the midst of a file says so, and one that reads a pipe can't know.
begun_input() {
    runner=after_bytes
    each_tells 0 "standard input isn't at its beginning; its first line may be cut" '*' check \
        'collect table.txt new.bin' 'export table.txt'
    cp "$work/replies" printed
    holds tells_of 0 '' export -q table.txt
    holds cmp "$work/replies" printed
    mkfifo pipe
    tail -c +11 games > pipe &
    runner=
    holds over pipe 0 '' export table.txt
    wait
    holds cmp "$work/replies" printed
}

no_game() {
    none='no game was accepted'
    holds over /dev/null 0 "$none; book.bin is an empty book" collect table.txt book.bin
    holds test ! -s book.bin
    echo 'no game' > bad
    holds over bad 0 "$none; new.bin is an empty book" collect table.txt new.bin
    : > kept
    holds over games 0 '' collect --ledger kept table.txt book.bin
    holds over bad 0 "$none" collect --ledger kept table.txt book.bin
    holds test -s book.bin
    for input in /dev/null games; do
        holds tells_of 0 '' collect --ledger kept table.txt book.bin
    done
    for input in /dev/null bad; do
        each_tells 0 '' '*' 'collect -q table.txt book.bin' 'collect --quiet table.txt book.bin'
    done
}

# What looks like no submissions isn't told to have no end too.
other_input() {
    printf '[Event "one game"]\n[Result "1-0"]\n\n1. e4 e5 2. Nf3 1-0' > pgn
    gzip -c games > packed
    empty='no game was accepted; book.bin is an empty book'
    for input in pgn packed; do holds tells_of 0 '' collect -q table.txt book.bin; done
    # A byte order mark and empty lines may stand before it, and CRs in its lines.
    { printf '\357\273\277\n\n' && cat pgn; } > marked
    sed 's/$/\r/' pgn > with_crs
    cp "$work/new" another_book
    while IFS='|' read -r input is; do
        holds tells_of 0 "standard input $is
$empty" collect table.txt book.bin
    done << 'END'
pgn|looks like PGN, not like submissions
packed|is packed by gzip; zcat unpacks it
marked|looks like PGN, not like submissions
with_crs|looks like PGN, not like submissions
table.txt|looks like a table, not like submissions
another_book|looks like a book, not like submissions
END
    # More digits are no line of a table, and an id may be put before its TAB.
    echo 0123456789abcdef0 > digits
    holds over digits 0 "$empty" collect table.txt book.bin
    mkfifo slow
    { printf 0123456789abcdef && sleep 0.3 && sed -n '1s/^[^\t]*//p' games; } > slow &
    holds over slow 0 '' collect table.txt book.bin
}

# The last line of submissions is taken without an LF, and told of.
cut_input() {
    text='the last line of standard input has no end; it may be a cut game'
    head -c -1 games > unended
    for words in 'collect table.txt new.bin' 'collect --ledger kept table.txt new.bin' \
        'collect --journal kept table.txt new.bin' 'export table.txt'; do
        : > kept
        holds over games 0 '' $words
        cp "$work/replies" due.put
        : > kept
        holds over unended 0 "$text" $words
        holds cmp "$work/replies" due.put
        : > kept
        holds tells_of 0 '' $words -q
        holds cmp "$work/replies" due.put
    done
    # The line is told of whatever it is, and none is where nothing is.
    { cat games && printf ' '; } > unended
    holds tells_of 0 "$text" collect table.txt new.bin
    holds over /dev/null 0 '' export table.txt
    echo "${start% 0 1} ce 1;" | head -c -1 > unended
    holds over unended 0 '' epd
}

# Where a run may have no more files open, an open stream isn't taken for a closed one, and the file
# is told that can't be read.
no_more_files() {
    runner='strace -f -o /dev/null -e trace=fcntl -e inject=fcntl:error=EMFILE'
    holds tells_of 0 '' fen "$start"
    holds tells_of 0 '' check
    for words in '.kept.pbook: --ledger' 'kept: --journal'; do
        : > kept
        holds tells_of 3 "${words% *} too many open files" collect ${words#* } kept table.txt book.bin
        holds test ! -s kept
    done
    holds is_old book.bin
    holds no_draft
}

# told_yet TEXT: whether this line is on standard error
told_yet() { grep -qxF "pbook: $1" told; }

# What has to be told at once is told while the run waits for more.
told_at_once() {
    rm games
    begin "$PROGRAM" collect table.txt missing/book.bin
    holds awaits told_yet 'missing/book.bin: no such file or directory'
    echo '[Event "one game"]' >&3
    holds awaits told_yet 'standard input looks like PGN, not like submissions'
    holds end 3
    holds test "$(wc -l < told)" -eq 2
}

# A book takes the place of something else that is no book, nor may hold games, with a warning.
other_book() {
    others
    cp table.txt table.bin
    head -c 1601 "$work/new" > cut.bin
    { tail -c 16 "$work/new" && cat "$work/new"; } > falling
    while read -r file looks; do
        cp "$file" other.bin
        holds tells_of 0 "other.bin: a book takes its place; it $looks" collect table.txt other.bin
        cp "$file" other.bin
        holds tells_of 0 '' collect -q table.txt other.bin
    done << END
table.bin looks like a table
text is text
cut.bin is neither text nor a book
falling is neither text nor a book
END
}

# A name with control characters is told in one line, which has none.
odd_names() {
    odd=$(printf 'no\npbook:fake.bin:\033[2Jno\r\t\177')
    cp games "$odd"
    for words in "show no$odd" "games no$odd" "collect table.txt no$odd/book" \
        "collect no$odd book.bin" "collect --journal no$odd table.txt book.bin" \
        "collect table.txt $odd"; do
        status=0
        IFS=' '
        "$PROGRAM" $words < games > replies 2> told || status=$?
        unset IFS
        holds test "$status" -eq 3
        holds test "$(wc -l < told)" -eq 1
        holds grep -q '^pbook: .*no.*fake\.bin' told
        holds test -z "$(tr -d '[:print:]\n' < told)"
    done
}

bad_journal_line() {
    { cat games && echo 'no game' && cat games; } > kept
    printf 'torn' >> kept
    holds tells_of 0 "kept: line 10 can't be taken; it is skipped
the last line of kept has no end; it may be a cut game" collect --journal kept table.txt book.bin
    # The torn end is sealed by now, and isn't told.
    holds tells_of 0 "kept: line 10 can't be taken; it is skipped" \
        collect --journal kept table.txt book.bin
    holds tells_of 0 '' collect -q --journal kept table.txt book.bin
    { echo 'pbook-ledger 1' && cat games; } > kept
    holds tells_of 0 '' collect --journal kept table.txt book.bin
    # Ten are named, and of more it is told once that they are there.
    seq -f "kept: line %g can't be taken; it is skipped" 10 19 > ten
    for more in 10 11 15; do
        { cat games && yes 'no game' | head -n "$more"; } > kept
        [ "$more" -eq 10 ] || text="$(cat ten)
kept: more lines can't be taken"
        holds tells_of 0 "${text-$(cat ten)}" collect --journal kept table.txt book.bin
    done
}

# What `games` leaves out is told, but for the first line of a saved ledger and for sealed lines.
left_out_lines() {
    {
        echo 'pbook-ledger 1'
        cat games
        printf 'sealed\t\t\t\t\nno game\n'
        printf 'torn'
    } > kept
    holds tells_of 0 "kept: line 12 can't be taken; it is skipped
kept: its last line has no end; it is left out" games kept
    holds cmp "$work/replies" games
    holds tells_of 0 '' games games
    # Each line is told of its own file.
    { head -n 1 games && echo 'no game'; } > other
    holds tells_of 0 "other: line 2 can't be taken; it is skipped
kept: line 12 can't be taken; it is skipped
kept: its last line has no end; it is left out" games games other kept
}

# A file that gave no line of games is refused, unless it is empty or begins as one that has games.
no_games() {
    others
    echo 'pbook-ledger 1' > header
    printf 'torn\t\t\t\t\n' > sealed
    : > empty
    each_tells 0 '' '' 'games header' 'games sealed' 'games empty'
    for torn in t 'torn\t1-0' '\000\000'; do
        printf %b "$torn" > torn
        each_tells 0 'torn: its last line has no end; it is left out' '' 'games torn'
    done
    while IFS='|' read -r file text; do
        skipped=$(seq -f "$file: line %g can't be taken; it is skipped" "$(wc -l < "$file")")
        holds tells_of 1 "$skipped
$file: it holds no game$text" games "$file"
        holds says_only ''
        # The other files are printed.
        holds tells_of 1 "$skipped
$file: it holds no game$text" games games "$file" games
        holds test "$(wc -l < "$work/replies")" -eq 18
        # Each such file is told.
        holds tells_of 1 "$skipped
$file: it holds no game$text
$skipped
$file: it holds no game$text" games "$file" "$file"
    done << 'END'
pgn|; it looks like PGN
packed|; it is packed by gzip; zcat unpacks it
text|
END
}

# to_itself COMMAND..: runs the command, whose output comes behind what is in the file $own that is
# read, up to a limit
own=games
to_itself() (
    trap '' XFSZ
    ulimit -f 100
    exec "$@" >> "$own"
)

# What is printed into a file that is read would be read again, for ever.
games_to_themselves() {
    cp games before
    runner=to_itself
    holds over /dev/null 3 'games and /dev/stdout are one file' games games
    holds tells_of 3 'games and /dev/stdout are one file' games before games
    holds cmp games before
    for words in check 'collect table.txt new.bin' 'lookup table.txt book.bin' epd; do
        holds over games 3 '/dev/stdin and /dev/stdout are one file' $words
        holds cmp games before
    done
    for own in table.txt book.bin; do
        cp "$own" before
        for words in 'export table.txt' 'show book.bin' 'probe table.txt book.bin x' \
            'lookup table.txt book.bin' 'tree table.txt book.bin'; do
            case $words in *"$own"*) ;; *) continue ;; esac
            holds tells_of 3 "$own and /dev/stdout are one file" $words
            holds cmp "$own" before
        done
    done
}

# Faults are told with -q too.
quiet_faults() {
    holds tells_of 3 'no.txt: no such file or directory' collect -q no.txt book.bin
    holds tells_of 3 '/dev/full: no space left on device' collect -q table.txt /dev/full
    head -n 9 table.txt > short
    holds tells_of 1 "short: a table has 781 lines, and this one 9" collect -q short book.bin
}

# run_of HOW WORD..: runs the program in a new folder of this name, with standard error of this kind
run_of() (
    how=$1
    shift
    mkdir "$how"
    cd "$how"
    prepare
    head -n 9 table.txt > short
    : > kept
    { cat games && echo 'no game'; } > rotten
    printf '[Event "one game"]\nno game\n' > pgn
    status=0
    case $how in
        file) exec 2> ../told ;;
        closed) exec 2>&- ;;
        full) exec 2> /dev/full ;;
    esac
    "$PROGRAM" "$@" < pgn > put || status=$?
    echo "$status" > status
)

# Without a standard error, output, status and files are the same, of runs that tell something, and
# of some that don't.
without_errors() {
    with_told=0
    while read -r words; do
        for kind in file closed full; do run_of "$kind" $words; done
        for kind in closed full; do holds diff -r file "$kind"; done
        ! [ -s told ] || with_told=$((with_told + 1))
        rm -r file closed full
    done << 'END'
collect no.txt book.bin
collect table.txt /dev/full
collect short book.bin
collect -- table.txt book.bin
collect --ledger kept table.txt book.bin
collect --journal rotten table.txt book.bin
collect --journal rotten --sync table.txt book.bin
collect table.txt new.bin
collect table.txt table.txt
export table.txt
collect -q --summary table.txt book.bin
check
lookup table.txt book.bin
tree table.txt book.bin
fen startpos
epd lines
games rotten
show table.txt
colect
END
    note "$with_told of these runs tell something"
    holds test "$with_told" -ge 9
}

# in_terminal COMMAND: runs the command, a line of the shell in which `pbook` is the program, and
# whose standard error is a terminal; what is shown there is in `shown`, each line that is written
# over as one of its own
in_terminal() {
    script -qec "pbook() { '$PROGRAM' \"\$@\"; }; $1" /dev/null < /dev/null > typescript || return 1
    tr '\r' '\n' < typescript | sed 's/\x1b\[K//g' > shown
}

summary='pbook: 322 lines: 320 ok (300 new, 20 again), 2 refused (1 illegal, 1 conflict)'
terminal() {
    holds in_terminal "pbook collect table.txt book.bin < '$work/games' > replies"
    holds grep -qxF "$summary; book.bin: 367 entries" shown
    holds in_terminal "pbook collect -q table.txt book.bin < '$work/games' > replies"
    holds test ! -s typescript
    holds is_new book.bin
    # What shows how far it was goes where it stops.
    holds in_terminal "pbook collect table.txt none/book.bin < games > replies || true"
    holds grep -q 'making the book' typescript
    holds not grep -q 'making the book$' typescript
}

# The same line is told anywhere with --summary, alone with -q, and behind all else without.
summaries() {
    input=$work/games
    all=$(echo "$summary" | sed 's/^pbook: //')
    again=$(echo "$all" | sed 's/300 new, 20/0 new, 320/')
    for option in '' -q; do
        holds tells_of 0 "$all; book.bin: 367 entries" collect $option --summary table.txt book.bin
        holds is_new book.bin
        holds tells_of 0 "$all" export $option --summary table.txt
        holds cmp "$work/replies" "$work/export"
        for kept in ledger journal; do
            : > "$kept"
            holds tells_of 0 "$all; book.bin: 367 entries" \
                collect $option --summary "--$kept" "$kept" table.txt book.bin
            holds tells_of 0 "$again; book.bin: 367 entries" \
                collect $option --summary "--$kept" "$kept" table.txt book.bin
        done
        # A device has no entries that could be counted.
        holds tells_of 0 "$all" collect $option --summary table.txt /dev/null
    done
    holds tells_of 0 '' collect table.txt book.bin
    holds tells_of 0 '' export table.txt
    printf 'no game\nw1\t1-1\t%s\te2e4\n' "$start" > bad
    holds over bad 0 'no game was accepted; book.bin is an empty book
2 lines: 0 ok (0 new, 0 again), 2 refused (1 shape, 1 result); book.bin: 0 entries' \
        collect --summary table.txt book.bin
    holds tells_of 0 "$(tail -n 1 due | sed 's/^pbook: //')" collect -q --summary table.txt book.bin
    # A fault has no summary.
    input=$work/games
    holds tells_of 3 'no.txt: no such file or directory' export --summary no.txt
    holds tells_of 3 '/dev/full: no space left on device' collect --summary table.txt /dev/full
}

# numbered COUNT FORMAT: so many lines of this format of `printf`, with the number of each as its
# word
numbered() {
    # shellcheck disable=SC2059 # the format is the text
    for nth in $(seq "$1"); do printf "$2\n" "$nth"; done
}

# Lines are told by the reason that refused them, whose answer has that word, in the order in which
# reasons are looked for.
reasons() {
    knights=$(yes 'g1f3 g8f6 f3g1 f6g8' | head -n 257 | tr '\n' ' ' | sed 's/ $//')
    {
        printf 'one\t1-0\t%s\te2e4\n' "$start"
        numbered 1 "long%s$(head -c 8192 /dev/zero | tr '\0' ' ')"
        numbered 2 'no game %s'
        numbered 3 "no %s\t1-0\t$start\te2e4"
        numbered 4 "%s\t1-1\t$start\te2e4"
        numbered 5 '%s\t1-0\tstartpos\te2e4'
        numbered 6 '%s\t1-0\t4k3/8/8/8/8/8/8/4RK2 w - - 0 1\te1e2'
        numbered 7 "%s\t1-0\t$start\te4"
        numbered 8 "%s\t1-0\t$start\t$knights"
        numbered 9 "%s\t1-0\t$start\te2e5"
        numbered 10 "one\t1-0\t$start\te2e4 e7e5"
    } > refused
    for reason in long shape id result fen start spelling plies illegal conflict; do
        number=$((${number-0} + 1))
        counted="${counted+$counted, }$number $reason"
        yes "$reason" | head -n "$number"
    done > due.reasons
    holds over refused 0 "56 lines: 1 ok (1 new, 0 again), 55 refused ($counted); book.bin: 1 entry" \
        collect --summary table.txt book.bin
    sed -n 's/^refused //p' "$work/replies" | cut -d ' ' -f 2 > reasons
    holds cmp reasons due.reasons
    holds tells_of 0 "56 lines: 1 ok (1 new, 0 again), 55 refused ($counted)" \
        export --summary table.txt
}

# One line is a line, and thousands have a comma before the zeros.
counted() {
    head -n 1 games > one
    holds over one 0 '1 line: 1 ok (1 new, 0 again), 0 refused' export --summary table.txt
    begin=$(date +%s)
    for lines in 999 1000 1005 12030 1005000; do
        # A program without proof is slow.
        [ "$lines" -lt 100000 ] || [ $(($(date +%s) - begin)) -lt 2 ] || continue
        yes 'no game' | head -n "$lines" > many
        told=$(echo "$lines" | sed 's/\(.\)\(...\)$/\1,\2/; s/\(.\)\(...,\)/\1,\2/')
        holds over many 0 "no game was accepted
$told lines: 0 ok (0 new, 0 again), $told refused ($told shape)" export --summary table.txt
    done
}

# is_proved: whether the program isn't one that says that it is unproved
is_proved() { ! "$PROGRAM" --version | grep -q unproved; }

# Games that were refused through no fault of theirs are told of, beside the answers to those who
# sent them: a run holds a million.
lost_games() {
    awk -v start="$start" 'BEGIN {
        for (n = 1; n <= 1000003; n++) printf "%d\t1-0\t%s\t\n", n, start
    }' > million
    holds over million 0 'refused as full: 3 games' collect table.txt book.bin
    holds tells_of 0 '' collect -q table.txt book.bin
    sed -i '1,2d' million
    holds tells_of 0 'refused as full: 1 game' export table.txt
    { echo 'pbook-ledger 1' && cat million; } > kept
    holds over games 1 "kept: line 1000002 isn't a game that can be taken
kept: at most 1,000,000 games are held" collect --ledger kept table.txt book.bin
}

# Of 320 lines with 300 games, those are new that FILE didn't hold. Its first line is none. So it is
# told where no new one comes too.
terminal_some_new() {
    head -n 200 "$work/games" > games
    for option in ledger journal; do
        : > "$option"
        holds tells_of 0 '' collect "--$option" "$option" table.txt book.bin
        for new in $((300 - $(grep '^ok' "$work/replies" | sort -u | wc -l))) 0; do
            holds in_terminal \
                "pbook collect --$option $option table.txt book.bin < '$work/games' > replies"
            told="322 lines: 320 ok ($new new, $((320 - new)) again), 2 refused"
            holds grep -qxF "pbook: $told (1 illegal, 1 conflict); book.bin: 367 entries" shown
        done
    done
}

# The seal of a torn line is no new game.
terminal_torn() {
    for option in '' --sync; do
        { cat games && printf 'torn'; } > kept
        holds in_terminal \
            "pbook collect --journal kept $option table.txt book.bin < games > replies"
        holds grep -qF 'pbook: 9 lines: 9 ok (0 new, 9 again), 0 refused' shown
    done
}

progress='^pbook: [0-9,]+ lines?, [0-9,]+ games?, [0-9,]+ refused'
terminal_progress() {
    slowly="for n in 1 2 3 4 5 6; do sed -n \${n}p games; sleep 1.5; done"
    holds in_terminal "{ $slowly; } | pbook collect table.txt book.bin > replies"
    slowly=$(echo "$slowly" | sed 's/1\.5/0.5/')
    # Each second one, and the one that tells of the book.
    holds test "$(grep -E "$progress" shown | grep -vc 'making the book')" -ge 2
    holds grep -qF 'pbook: 6 lines: 6 ok (6 new' shown
    holds test "$(wc -l < replies)" -eq 6
    holds in_terminal "{ $slowly; } | pbook collect -q table.txt book.bin > replies"
    holds test ! -s typescript
    new=' (6 new, 0 again)'
    for command in 'export table.txt' check; do
        holds in_terminal "{ $slowly; } | pbook $command > lines"
        holds grep -Eq '^pbook: [0-9,]+ lines?' shown
        holds grep -qx "pbook: 6 lines: 6 ok$new, 0 refused" shown
        holds not grep -q ', [^0 ]* refused' shown
        ! grep -q 'making the book' shown || holds test -n "$new"
        new=
    done
    holds in_terminal "{ $slowly; } | pbook export -q table.txt > lines"
    holds test ! -s typescript
    # A line that is refused is counted.
    holds in_terminal "{ $slowly; echo 'no game'; } | pbook check > lines || true"
    holds grep -qx 'pbook: 7 lines: 6 ok, 1 refused (1 shape)' shown
    # A reader of the export that has gone leaves none of it behind.
    holds in_terminal "{ sleep 1; pbook export table.txt < '$work/games'; } | : || true"
    holds test "$(tail -c 4 typescript)" = "$(printf '\r\033[K')"
    # To a file goes none of it.
    holds in_terminal "{ $slowly; } | pbook collect table.txt book.bin > replies 2> told"
    holds test ! -s told
    holds test ! -s typescript
}

# In a terminal that shows replies too each of them is a line of its own.
terminal_shared() {
    slowly="for n in 1 2 3; do sed -n \${n}p '$work/games'; sleep 0.5; done"
    holds in_terminal "{ $slowly; } | pbook collect table.txt book.bin"
    sed -n 1,3p "$work/games" | "$PROGRAM" collect -q table.txt book.bin > due
    grep '^ok' shown > seen
    holds cmp due seen
    holds grep -qE "$progress" shown
    holds in_terminal "{ $slowly; } | pbook check"
    holds test "$(grep -c '^ok [^ ]*$' shown)" -eq 3
    # How far the run is has to be drawn again below each. Else it is drawn from time to time.
    holds in_terminal "head -n 1 games | pbook check"
    holds grep -qx 'pbook: 1 line, 1 game, 0 refused' shown
    # It is drawn before the run waits for more.
    drawn="timeout $patience sh -c 'until grep -q \"1 line, 1 game\" typescript; do sleep 0.1; done'"
    holds in_terminal "{ head -n 1 games; $drawn && : > drawn; } | pbook check"
    holds test -e drawn
    holds in_terminal "head -n 1 games | pbook check > lines"
    holds not grep -qx 'pbook: 1 line, 1 game, 0 refused' shown
    # Nor does a line of an export stand behind it.
    holds in_terminal "pbook export table.txt < games"
    grep ' bkm ' shown > seen
    "$PROGRAM" export -q table.txt < games > due
    holds cmp due seen
}

# A line that is typed isn't written over by a count.
terminal_typed() {
    { for n in 1 2 3; do sleep 0.7; sed -n "${n}p" "$work/games"; done; sleep 0.7; } |
        script -qec "'$PROGRAM' collect table.txt book.bin > replies" /dev/null > typescript
    holds grep -qF 'pbook: 3 lines: 3 ok (3 new, 0 again), 0 refused' typescript
    holds not grep -Eq 'pbook: [0-9,]+ lines?, ' typescript
}

# Wrong use is told once where both outputs are one terminal.
terminal_use() {
    script -qec "'$PROGRAM' colect" /dev/null < /dev/null > typescript || true
    holds grep -q '^error: ' typescript
    holds test "$(grep -c "colect'" typescript)" -eq 1
}

[ $# -gt 0 ] || {
    choose true '' missing_files failed_reads closed_pipe refused_tables refused_books \
        refused_ledger refused_words wrong_use words_too_many help_width begun_input no_game \
        bad_journal_line told_at_once other_book odd_names left_out_lines no_games \
        games_to_themselves cut_input reasons counted
    choose 'test -c /dev/full' '/dev/full is wanted' full_output quiet_faults \
        without_errors summaries
    choose is_proved 'a program without proof is slow' lost_games
    choose 'has gzip' 'gzip is wanted' other_input
    choose can_trace 'strace is wanted' no_more_files
    choose 'has script' 'script is wanted' terminal terminal_some_new terminal_torn \
        terminal_progress terminal_shared terminal_typed terminal_use
}
try_all "$@"
