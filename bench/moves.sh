#!/bin/sh
# Times the library over rows (bench/rows.sh): sequences of legal moves a second, and
# nanoseconds to judge and play a ply and to make its key. Each figure is the best of five runs, so that other work on the machine
# disturbs it least. Where Stockfish is installed, the longest sequences are counted in turn with its `go perft`, for scale.
# Usage: bench/moves.sh, at the top of the repository; ANSWERER may name another build of worked_examples.
set -eu
PATH=$PATH:/usr/games
work=$(mktemp -d)
trap 'rm -rf "$work"' EXIT
. bench/best.sh
. bench/rows.sh
initial='rnbqkbnr/pppppppp/8/8/8/8/PPPPPPPP/RNBQKBNR w KQkq - 0 1'
middle='r3k2r/p1ppqpb1/bn2pnp1/3PN3/1p2P3/2N2Q1p/PPPBBPPP/R3K2R w KQkq - 0 1'

# tell NAME COUNT TIME
tell() {
    awk -v name="$1" -v count="$2" -v time="$3" \
        'BEGIN { printf "%s: %d sequences in %.1f ms, %.1f million a second\n", name, count, time / 1e6, count * 1000 / time }'
}

# sequences NAME FEN LENGTH
sequences() {
    count=$(answer perft "$3" "$2")
    tell "$1, length $3" "$count" "$(best 5 answered)"
}

# ask ORDER ANSWER: hands Stockfish an order and leaves in `line` the line of its answer that begins so
ask() {
    printf '%s\n' "$1" >&3
    while read -r line <&4; do
        case $line in "$2"*) return 0 ;; esac
    done
    echo "Stockfish has ended, asked for: $1" >&2
    return 1
}

# beside NAME FEN LENGTH: the same in turn with Stockfish, which has to count as many. It runs already, so its start isn't timed.
beside() {
    count=$(answer perft "$3" "$2")
    printf 'position fen %s\n' "$2" >&3
    ask "go perft $3" 'Nodes searched: '
    [ "${line#Nodes searched: }" = "$count" ] || { echo "$1, length $3: $count sequences, Stockfish has another count: $line"; exit 1; }
    rounds=5
    while [ "$rounds" -gt 0 ]; do
        once answered >> "$work/own"
        once ask "go perft $3" 'Nodes searched: ' >> "$work/other"
        rounds=$((rounds - 1))
    done
    tell "$1, length $3" "$count" "$(sort -n "$work/own" | head -1)"
    tell "    in turn with it, Stockfish's go perft" "$count" "$(sort -n "$work/other" | head -1)"
    rm "$work/own" "$work/other"
}

sequences 'initial array' "$initial" 4
sequences 'middle game' "$middle" 3
if command -v stockfish > /dev/null; then
    mkfifo "$work/orders" "$work/answers"
    stockfish < "$work/orders" > "$work/answers" &
    exec 3> "$work/orders" 4< "$work/answers"
    ask isready readyok
    beside 'initial array' "$initial" 5
    beside 'middle game' "$middle" 4
    echo '    Both play all plies but the last, whose legal moves are listed and counted.'
    exec 3>&- 4<&-
    wait
else
    sequences 'initial array' "$initial" 5
    sequences 'middle game' "$middle" 4
fi

# play CALL ROUNDS: the least time of so many rounds of a thousand games
play() {
    row "$1" 1000 "$2"
    best 5 answered
}

# The games are chosen by listing moves, which takes longer than playing them: the difference of two runs is the
# playing alone.
first=$(play games 1)
many=$(play games 41)
plies=$(answer games 1000 40)
awk -v plies="$plies" -v time="$((many - first))" \
    'BEGIN { printf "games: %.0f ns to judge and play a ply, %.1f million plies a second\n", time / plies, plies * 1000 / time }'

# The keys alone: what the same games with their keys take beyond them.
one=$(play keys 1)
keys=$(play keys 41)
awk -v plies="$plies" -v time="$((keys - one - many + first))" \
    'BEGIN { printf "keys: %.0f ns to make the key of a ply from the one before\n", time / plies }'
