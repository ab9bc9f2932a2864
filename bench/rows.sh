# shellcheck shell=sh
# For the scripts beside this one that count sequences of moves or want games: rows of the topic
# `bench`, each answered by the program worked_examples, which `make bench` builds, in a folder of
# its own below $work.
answerer=${ANSWERER:-$PWD/crates/worked_examples/out/worked_examples}
[ -x "$answerer" ] || { echo "no program $answerer; \`make bench\` builds it" >&2; exit 1; }

row_folder=${work:?}/row

# row WORD..: leaves a row with these words to be answered
row() {
    mkdir -p "$row_folder"
    printf 'answer\tbench' > "$row_folder/rows.txt"
    printf '\t%s' "$@" >> "$row_folder/rows.txt"
    printf '\n' >> "$row_folder/rows.txt"
}

# answered: runs the program over that row
answered() {
    (cd "$row_folder" && "$answerer" < /dev/null)
}

# answer WORD..: puts the answer to a row of these words
answer() {
    row "$@"
    answered | sed 's/^answer: //'
}

# lines COUNT: puts so many games of 80 plies, as submissions
lines() {
    row lines "$1" games
    answered > "$row_folder/answers"
    cat "$row_folder/games"
    rm "$row_folder/games"
}
