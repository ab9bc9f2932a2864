#!/bin/sh
# Shows the main job on the bundled examples: a book is made of 300 games and looked into, games are
# played from their records, and EPD lines are rewritten. The book and the export are compared with
# examples/book.bin and examples/export.epd, which other programs made of the same games.
# Usage: PROGRAM=program examples/demo.sh (at the top of the repository).
#
# It runs PROGRAM where that is given, and else the proved program where `make` has left it and no
# source is newer. Else it runs that of `make unproved`, which it has made where none stands that
# is newer than the sources.
set -eu
top=$PWD
work=$top/build/demo
start='rnbqkbnr/pppppppp/8/8/8/8/PPPPPPPP/RNBQKBNR w KQkq - 0 1'
begin=$(date +%s)
rm -rf "$work"
mkdir -p "$work"

# stands FILE: whether this program is there and newer than the sources
stands() { [ -x "$1" ] && make -s -q "$1"; }

next=
if [ -n "${PROGRAM:-}" ]; then
    program=$(realpath "$PROGRAM")
    how="by $PROGRAM"
elif stands build/pbook; then
    program=$top/build/pbook
    how='by the proved program, build/pbook'
    next='The proved program is'
else
    if ! stands build/unproved/pbook; then
        echo 'No proved program stands at build/pbook; make proves and builds it.'
        make -s build/unproved/pbook
    fi
    program=$top/build/unproved/pbook
    how='by build/unproved/pbook, with a check in the place of each proof'
    next='Nothing was proved: make does that. The program for trying is'
fi

# runs NAME INPUT WORD..: runs the program over these words, with this file as its input. What it
# prints is kept by this name. It has to end with 1 where it refused an input, and else with 0;
# refused submissions are answers.
runs() {
    name=$1 input=$2 due=0 status=0
    shift 2
    "$program" "$@" < "$input" > "$work/$name" || status=$?
    [ "$1" = collect ] || ! grep -q '^refused' "$work/$name" || due=1
    [ "$status" -eq "$due" ] || {
        cat "$work/$name"
        echo "demo: pbook $* ended with status $status, and not with $due"
        exit 1
    }
}

cd examples
echo '$ pbook collect table.txt book.bin < games.txt'
runs collect games.txt collect table.txt "$work/book.bin"
head -n 3 "$work/collect"
echo '..'
grep refused "$work/collect"
cmp "$work/book.bin" book.bin
echo '$ pbook show book.bin | head -n 3'
runs show /dev/null show book.bin
head -n 3 "$work/show"
echo "$ pbook probe table.txt book.bin '$start'"
runs probe /dev/null probe table.txt book.bin "$start"
cat "$work/probe"
echo '$ pbook export table.txt < games.txt | tail -n 1'
runs export games.txt export table.txt
tail -n 1 "$work/export"
cmp "$work/export" export.epd
# Each game begins at the start, so its line is the same where first plies alone count.
runs first games.txt export -q --plies 1 table.txt
grep "^${start% 0 1} " export.epd | cmp - "$work/first"
while IFS='|' read -r record moves; do
    echo "$ pbook fen '$record' $moves"
    # shellcheck disable=SC2086 # each move is a word
    runs fen /dev/null fen "$record" $moves
    cat "$work/fen"
done < moves.txt
runs epd export.epd epd
cmp "$work/epd" export.epd
echo '$ pbook epd < lines.epd'
runs lines lines.epd epd
cat "$work/lines"

echo "Ran $how, in $(($(date +%s) - begin)) seconds."
echo 'The book and the export are, byte for byte, those that other programs made of the games.'
[ -n "$next" ] || exit 0
echo
echo "$next ${program#"$top/"}."
echo 'By this line it is found here, and then the four steps of README lead from PGN to a book:'
echo "    PATH=$(dirname "$program"):\$PATH"
