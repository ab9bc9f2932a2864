# shellcheck shell=sh
# Shared by the scripts that try small runs of `pbook` under a shim: the runs, their inputs and
# the folders that they find. It is read by `.` after tests/lib/shim.sh.
: "${work:?tests/lib/harness.sh is read first}" "${start:?}"

cp examples/table.txt "$work/table"
cp examples/lines.epd "$work/epd"
cp examples/book.bin "$work/book"

# The submissions: two of the first games come again, one of them with a CR; then one is illegal,
# twice; one has the id of another game, whose own line comes after it again; others are refused
# for their form; and one starts elsewhere, in a line that no LF ends.
submissions() {
    sed -n "$1p" examples/games.txt
    grep '^worker9-001' examples/games.txt
    sed -n 202p examples/games.txt
    sed -n 6p examples/games.txt
    printf 'no game\n\n'
    sed -n 121p examples/games.txt
    printf 'form-1\t1-1\t%s\te2e4\nform-2\t1-0\t%s\te2e9\n' "$start" "$start"
    printf 'form-3\t1-0\t%09000d\te2e4\n' 0
    sed -n 3p examples/games.txt | awk '{ printf "%s\r\n", $0 }'
    printf 'other-1\t0-1\t4k3/7P/8/8/8/8/8/4K3 w - - 0 1\th7h8q e8d7 h8a8'
}
submissions 1,26 > "$work/games"
submissions 4,20 > "$work/later"
submissions 1,4 > "$work/few"
head -n 9 examples/games.txt > "$work/first"
# Positions as EPD lines and as records, with a line of spaces, one that is refused, and a last one
# that no LF ends.
{
    head -n 20 examples/export.epd
    printf '%s\n  \nno position\n%s 9' "$start" "${start% *}"
} > "$work/positions"
head -n 400 "$work/table" > "$work/half_table"
head -c 1000 "$work/book" > "$work/cut_book"
: > "$work/nothing"

# run_in FOLDER INPUT WORD..: runs the program in this folder on this input, and no call is hit
run_in() (
    cd "$1" || exit
    exec < "$2"
    shift 2
    exec "$PROGRAM" "$@"
)

# What is told where the last submission, which no LF ends, was read.
unended='pbook: the last line of standard input has no end; it may be a cut game'

# prepare INPUT WORD..: runs the program when no call is hit. The output is in $work/ample.put,
# what is told on standard error in $work/ample.errors, and the files are in $work/ample.
prepare() {
    input=$work/$1
    shift
    words="$* < $input"
    rm -rf "$work/ample" "$work"/made-*
    cp -Rd "$work/old" "$work/ample"
    status=0
    run_in "$work/ample" "$input" "$@" > "$work/ample.put" 2> "$work/ample.errors" || status=$?
    ample_status=$status
    told_as_due "$@"
}

# told_as_due WORD..: the undisturbed run has told what is due on standard error: the file that it
# refused or couldn't open, the first line of an error of use, that the last submission has no end
# where -q isn't there, and else nothing
told_as_due() {
    cause=
    : > "$work/due.errors"
    case "$ample_status $*" in
        '0 collect -q '*) ;;
        '0 collect '* | '0 export '* | '1 check'*) echo "$unended" > "$work/due.errors" ;;
        '1 show '*) cause="../cut_book: .*" ;;
        '1 fen '*) cause="move 3: it isn't legal there" ;;
        '1 probe '*) cause="FEN: it doesn't have six fields, one space between each two" ;;
        '1 collect --ledger '*) cause="file: line 11 isn't a game that can be taken" ;;
        '1 collect '*) cause='../half_table: a table has 781 lines, and this one 400' ;;
        '2 colect '*) cause=$(sed -n '1s/^error: //p' "$work/ample.put") ;;
        '3 probe '*) cause='../no_book: no such file or directory' ;;
    esac
    cp "$work/ample.errors" "$work/errors"
    [ -z "$cause" ] || { one_line_told "pbook: $cause" && return; }
    cmp -s "$work/due.errors" "$work/errors" ||
        fails 'another text is on standard error' "$work/due.errors" "$work/errors"
}

# is_same_told: whether what is on standard error is as in the undisturbed run
is_same_told() { cmp -s "$work/ample.errors" "$work/errors"; }

# one_line_told PATTERN: what is on standard error has to be one line of this extended expression,
# beside the one that tells of the last submission
one_line_told() {
    grep -vxF "$unended" "$work/errors" > "$work/told_beside" || true
    if [ "$(wc -l < "$work/told_beside")" -eq 1 ] && grep -Eqx "$1" "$work/told_beside"; then
        return
    fi
    fails "what is on standard error is not one line of $1" /dev/null "$work/errors"
}

# describe_command: which command is tried
describe_command() { echo "the command: pbook $words"; }

# is_same_output: whether output and status are those of the run in which no call was hit
is_same_output() {
    [ "$status" -eq "$ample_status" ] && cmp -s "$work/ample.put" "$work/put"
}

# is_of FOLDER NAME: whether the run left the file of this name as it is in the folder, a link as a
# link, or none where none is
is_of() {
    if [ -e "$work/$1/$2" ]; then
        { [ ! -L "$work/$1/$2" ] || [ -L "$work/run/$2" ]; } &&
            cmp -s "$work/$1/$2" "$work/run/$2"
    else
        [ ! -e "$work/run/$2" ]
    fi
}

# is_front FOUND DUE: whether a file is a front of another
is_front() { head -c "$(wc -c < "$1")" "$2" | cmp -s - "$1"; }

# make_of NAME WORD..: makes the folder $work/made-NAME of a run over the old files and the
# submissions in $work/taken, of which no call is hit
make_of() {
    folder=$work/made-$1
    shift
    cp -Rd "$work/old" "$folder"
    run_in "$folder" "$work/taken" "$@" > "$work/made.put" 2> "$work/made.errors" ||
        fails 'some of the submissions make no book'
}

# each_run TRY OWN: calls TRY with the name, the judge, the input and the words of each run that
# all these scripts make, and OWN where FILE has nine games. Each script has its own judges:
# `helped` of a text that is put though the words give no order, `shown` of a command that makes
# no file, `picked` of `games`, `collected`, and `journaled`.
each_run() {
    "$1" 'help' helped nothing --help
    "$1" 'a misspelt command' helped nothing colect table book
    "$1" 'fen' shown nothing fen "$start" e2e4 c7c5 g1f3 d7d6
    "$1" 'fen, refused' shown nothing fen "$start" e2e4 e7e5 e4e5
    "$1" 'epd' shown epd epd
    "$1" 'check' shown games check
    "$1" 'lookup' shown positions lookup ../table ../book
    "$1" 'show' shown nothing show ../book
    "$1" 'show, refused' shown nothing show ../cut_book
    "$1" 'probe' shown nothing probe ../table ../book "$start"
    "$1" 'tree' shown nothing tree ../table ../book
    "$1" 'games' picked nothing games ../first ../first
    "$1" 'collect without an old BOOK' collected games collect --plies 8 --least 2 ../table book
    head -c 1600 "$work/book" > "$work/old/book"
    "$1" 'collect' collected games collect ../table book
    "$1" 'collect, table refused' shown games collect ../half_table book
    mv "$work/old/book" "$work/old/linked"
    ln -s linked "$work/old/book"
    "$1" 'collect through a link' collected few collect ../table book
    rm "$work/old/book"
    mv "$work/old/linked" "$work/old/book"
    : > "$work/old/file"
    "$1" 'collect on an empty FILE' collected few collect --ledger file ../table book
    "$1" 'collect on an empty journal' journaled few collect --journal file ../table book
    run_in "$work/old" "$work/first" collect --ledger file ../table ../book.of > "$work/replies"
    "$2"
    echo 'no game' >> "$work/old/file"
    "$1" 'collect, FILE refused' shown games collect --ledger file ../table book
}
