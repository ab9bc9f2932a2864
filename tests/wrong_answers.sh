#!/bin/sh
# Tries that tests/definitions.py fails where a program answers otherwise than the definitions say:
# each command that it asks is made to answer wrong in turn. So does examples/demo.sh over another
# book or status.
# Usage: PROGRAM=program tests/wrong_answers.sh (at the top of the repository; Stockfish and Python
# 3.10 have to be there).
set -eu
PROGRAM=${PROGRAM:-build/pbook}
. tests/lib/harness.sh
PATH=$PATH:/usr/games

# compared: runs a small part of the comparisons with $program. What is said is in $work/said.
compared() {
    PROGRAM=$work/asked timeout "$patience" \
        python3 -B tests/definitions.py --times 0.1 --seconds 5 > "$work/said" 2>&1
}

# asks COMMAND CHANGE: what is asked is this program, whose command changes its answers so
asks() {
    {
        echo '#!/bin/sh'
        echo "[ \"\$1\" = '$1' ] || exec '$PROGRAM' \"\$@\""
        echo "'$PROGRAM' \"\$@\" | sed '$2'"
    } > "$work/asked"
    chmod 755 "$work/asked"
}

# passes: the program itself passes
passes() {
    asks none ''
    compared || { cat "$work/said" && exit 1; }
    tail -n 1 "$work/said" > "$work/note"
}

# is_seen COMMAND CHANGE GROUP: a program that answers so wrong fails, and is told in this group
is_seen() {
    asks "$1" "$2"
    if compared; then
        cat "$work/said"
        exit 1
    fi
    holds grep -q "^    FAIL $3: " "$work/said"
    holds grep -Eqx '[0-9,]+ passed, [1-9][0-9,]* failed' "$work/said"
}

# none_seen: where nothing was answered no wrong definition is seen, and each is a failure
none_seen() {
    holds python3 -B -c '
import collections, sys
sys.path.append("tests")
import definitions
wrong, unseen = definitions.tell_wrong(collections.defaultdict(list))
assert wrong == unseen > 0, (wrong, unseen)' > "$work/said"
}

# demo_over SCRIPT: runs the demo over the program behind this script
demo_over() {
    printf '#!/bin/sh\n%s\nexec %s "$@"\n' "$1" "$PROGRAM" > "$work/asked"
    chmod 755 "$work/asked"
    PROGRAM=$work/asked sh examples/demo.sh > "$work/said" 2>&1
}

# shown: the demo passes over the program, and neither with another book nor with another status
shown() {
    holds demo_over ''
    # shellcheck disable=SC2016 # it is for the script
    holds not demo_over '[ "$1" != collect ] || { shift && set -- collect --plies 9 "$@"; }'
    holds not demo_over "[ \"\$1\" != fen ] || { $PROGRAM \"\$@\"; exit 1; }"
}

check 'the demo sees another book, and another status' shown
check 'a wrong definition that nothing sees is a failure' none_seen
check 'what the program answers is what the definitions say' passes
check 'another clock after moves is seen' is_seen fen 's/ 1$/ 2/' plays
check 'another refusal is seen' is_seen check 's/ start$/ fen/' starts
check 'another move of a setup is seen' is_seen lookup '2s/$/ a1a2 1/' setups
check 'a lost position is seen' is_seen export '3d' 'books, of [0-9,]* games'
finish
