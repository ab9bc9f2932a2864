#!/bin/sh
# Compares what the proved functions say of positions with what other programs say: the legal moves
# with those that Stockfish lists; the FEN that a ply leads to, and the key after it, made in three
# ways, with those of pgn-extract. The positions are those after each ply of random games
# (bench/rows.sh), and the words of the keys are read out of the program polyglot. It prints how
# many were compared. A move that differs has a line, and an FEN or key has two by `diff`,
# pgn-extract's first; the status is 1 then. Codes of moves are compared by same_entries.sh.
# Usage: bench/legal_moves.sh [COUNT], at the top of the repository, for COUNT positions, 10000
# where none is given; ANSWERER may name another build of worked_examples.
set -eu
PATH=$PATH:/usr/games
count=${1:-10000}
for program in stockfish pgn-extract polyglot; do
    command -v "$program" > /dev/null ||
        { echo "positions: not compared without $program"; exit 0; }
done
work=$(mktemp -d)
trap 'rm -rf "$work"' EXIT
. bench/rows.sh

# The moves of a game in a line, COUNT in all, by batches of a thousand games.
lines $((count / 60 + 2)) | awk -F'\t' -v left="$count" 'left > 0 {
    for (plies = split($4, moves, " "); plies > left; plies--) sub(/ [^ ]*$/, "", $4)
    left -= plies
    print $4
}' | split -a 4 -l 1000 - "$work/batch."
table=$(sh tools/table_from_polyglot | awk '{ printf "%s{lf}", $0 }')

# plies: a line for each ply of a batch, up to one that pgn-extract refuses: the FEN before it, the
# move, the FEN after it, the key
plies() {
    awk '{ printf "[Result \"*\"]\n\n%s *\n\n", $0 }' "$batch" > "$work/pgn"
    pgn-extract -s -Wuci -w 100000 --keepbroken --fencomments --hashcomments "$work/pgn" \
        > "$work/games" 2> "$work/warnings"
    awk -F' *[{}] *' '/^[a-h]/ {
        before = "start"
        for (i = 1; i + 3 < NF; i += 4) {
            key = sprintf("%16s", $(i + 3))
            gsub(" ", "0", key)
            printf "%s\t%s\t%s\t%s\n", before, tolower($i), $(i + 1), key
            before = $(i + 1)
        }
    }' "$work/games"
}

# answers NAME: the answers to the rows of this name
answers() { sed -n "s/^$1: //p" "$work/answers"; }

positions=0 moves=0 status=0 verdict='the same'
for batch in "$work"/batch.*; do
    plies > "$work/plies"
    ! grep '^Failed to make move' "$work/warnings" || status=1
    awk -F'\t' '{ printf "fen\tmoves\tplay\t%s\t%s\nlist\tmoves\tlist\t%s\n", $1, $2, $3 }' \
        "$work/plies" > "$row_folder/rows.txt"
    awk -F'\t' -v key="\nkey\ttable\tkeys\t$table\tstart" '
        { printf "%s\t%s", ($1 == "start" ? key : ""), $2 }
        END { print "" }' "$work/plies" >> "$row_folder/rows.txt"
    answered > "$work/answers"

    answers fen > "$work/fens"
    answers key | paste "$work/fens" - > "$work/own"
    awk -F'\t' '{
        printf "%s\t%s anew %s, by change %s, of the setup before %s\n", $3, $2, $4, $4, $4
    }' "$work/plies" | diff - "$work/own" || status=1

    answers list | paste "$work/plies" - > "$work/own"
    awk -F'\t' '{ print "position fen " $3 "\ngo perft 1" }' "$work/plies" | stockfish |
        awk -v own="$work/own" -v sums="$work/sums" '
        function tell(move, by) { print field[3] ": " move " is legal by " by " alone"; status = 1 }
        /^[a-h][1-8][a-h][1-8][bnqr]?: 1$/ { theirs[substr($1, 1, length($1) - 1)] }
        /^Nodes searched: / {
            line = ""
            getline line < own
            split(line, field, "\t")
            count = field[5] == "nothing" ? 0 : split(field[5], list, " ")
            for (i = 1; i <= count; i++) {
                if (!(list[i] in theirs)) tell(list[i], "pbook")
                delete theirs[list[i]]
            }
            for (move in theirs) tell(move, "Stockfish")
            split("", theirs)
            positions++; moves += count
        }
        END { print positions + 0, moves + 0 > sums; exit status }' || status=1
    read -r these those < "$work/sums"
    positions=$((positions + these)) moves=$((moves + those))
done
if [ "$positions" -ne "$count" ] || [ "$status" -ne 0 ]; then status=1 verdict='NOT the same'; fi
echo "legal moves beside Stockfish, FENs and keys beside pgn-extract: $verdict," \
    "$positions of $count positions, $moves moves"
exit "$status"
