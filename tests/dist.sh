#!/bin/sh
# Tries what `make dist` packs, as somebody has it who has nothing else: it is unpacked in an empty
# folder, each link of its documents leads to a file and a heading there, it needs no newer C
# library than README says, and books are made there by the commands and the scripts that README
# names.
# Usage: PROGRAM=program tests/dist.sh (at the top of the repository).
set -eu
PROGRAM=${PROGRAM:-build/pbook}
. tests/lib/harness.sh
export PROGRAM
PATH=$PATH:/usr/games
# Where the archive is unpacked.
top=$work/unpacked/top

# packed: the archive is made in $work/dist, and its checksum beside it is right
packed() {
    sh scripts/dist.sh "$work/dist" > "$work/told"
    cd "$work/dist"
    holds cmp "$work/told" ./*.sha256
    holds sha256sum --quiet -c ./*.sha256
    note "$(wc -c < "$(echo ./*.gz)") bytes"
}

# packed_again: a second archive has the same bytes
packed_again() {
    sh scripts/dist.sh "$work/again" > "$work/told"
    holds diff -r "$work/dist" "$work/again"
}

# unpacked: the archive has one folder, of its own name, with the program
unpacked() {
    mkdir "$work/unpacked"
    cd "$work/unpacked"
    tar -xzf "$work"/dist/*.gz
    holds test "$(ls)" = "$(basename "$work"/dist/*.gz .tar.gz)"
    ln -s ./*/ top
    holds cmp top/bin/pbook "$PROGRAM"
}

# links: each link of the documents leads to a file that is packed, and to a heading of it
links() {
    cd "$top"
    holds python3 -B - > "$work/told" << 'END'
import pathlib, re, sys
def anchors(text):
    headings = re.findall("^#+ (.*)", text, re.M)
    return {re.sub("[^a-z0-9_-]", "", it.lower().replace(" ", "-")) for it in headings}
texts = {it: it.read_text(encoding="utf-8") for it in pathlib.Path().rglob("*.md")}
links = {(it, to) for it in texts for to in re.findall(r"\]\(([^)]*)\)", texts[it])}
links = [(it, *to.partition("#")) for it, to in sorted(links) if not re.match("https?:", to)]
for it, name, _, anchor in links:
    file = it.parent / name if name else it
    if not file.exists() or anchor and anchor not in anchors(file.read_text(encoding="utf-8")):
        print(f"{it} leads nowhere by {name}#{anchor}", file=sys.stderr)
        sys.exit(1)
print(f"{len(links)} links of {len(texts)} documents")
sys.exit(not links)
END
    note "$(cat "$work/told")"
}

# needs: the program asks for no newer C library than README says
needs() {
    due=$(grep -o 'glibc 2\.[0-9]*' README.md | cut -d' ' -f2)
    found=$(objdump -T "$top/bin/pbook" | grep -o 'GLIBC_[0-9.]*' | cut -d_ -f2 |
        sort -u -V | tail -n 1)
    holds test -n "$found"
    holds test "$(printf '%s\n' "$due" "$found" | sort -V | tail -n 1)" = "$due"
    note "glibc $found"
}

# first_run: the first commands of README print what stands there. Standard error is no terminal
# here, so the line of the summary doesn't come.
first_run() {
    cd "$top"
    awk '/^    / { print substr($0, 5); found = 1; next } found { exit }' README.md > "$work/block"
    sed -n 's/^\$ //p' "$work/block" > "$work/commands"
    grep -v '^\$ \|^pbook: ' "$work/block" > "$work/due"
    holds grep -q '^pbook collect ' "$work/commands"
    env PATH="$PWD/bin:$PATH" sh -eu "$work/commands" > "$work/printed"
    holds diff "$work/due" "$work/printed"
    holds cmp book.bin examples/book.bin
}

# workers: the example of two workers makes the bundled book by the packed program
workers() {
    cd "$top"
    PROGRAM=bin/pbook sh examples/workers.sh > "$work/told" 2>&1
    holds grep -q '^the book is examples/book.bin$' "$work/told"
}

# steps: the command from PGN to a book, as README has it, is in $work/commands, and what it tells
# in $work/due
steps() {
    awk '/^    \$ sh tools\/pgn_to_book / { found = 1 } found && !/^    / { exit }
        found { print substr($0, 5) }' README.md > "$work/block"
    sed -n 's/^\$ //p' "$work/block" > "$work/commands"
    sed 1d "$work/block" > "$work/due"
    holds test "$(wc -l < "$work/commands")" -eq 1
}

# from_bundled_pgn: this command makes a book of the bundled games, and tells what stands there
from_bundled_pgn() {
    cd "$top"
    steps
    env PATH="$PWD/bin:$PATH" sh -eu "$work/commands" 2> "$work/errors"
    holds same_lines "$work/due" "$work/errors"
    holds test -s book.bin
    rm table.txt book.bin
}

# from_pgn: over other games the same command makes PolyGlot's own entries
from_pgn() {
    cd "$top"
    steps
    tr -d '\r' < examples/games.txt |
        awk -F'\t' '{ printf "[Event \"?\"]\n[Result \"%s\"]\n\n%s %s\n\n", $2, $4, $2 }' \
            > "$work/moves.pgn"
    pgn-extract -s -Wsan "$work/moves.pgn" > games.pgn 2> "$work/errors"
    sed -i 's| examples/games.pgn | games.pgn |' "$work/commands"
    env PATH="$PWD/bin:$PATH" sh -eu "$work/commands" 2>> "$work/errors"
    polyglot make-book -pgn games.pgn -bin other.bin -max-ply 24 -min-game 3 > "$work/told"
    for book in book.bin other.bin; do
        od -An -v -tx1 -w16 "$book" | LC_ALL=C sort > "$work/$book.entries"
    done
    holds test -s book.bin
    holds cmp "$work/book.bin.entries" "$work/other.bin.entries"
    note "$(wc -l < "$work/book.bin.entries") entries"
}

# runs HEADING: the commands below this heading of GUIDE, up to one that begins with `ssh` and without
# a crontab's line, end with status 0
runs() {
    awk -v heading="## $1" '/^## / { is_due = $0 == heading }
        is_due && /^    ssh / { exit }
        is_due && /^    [^0-9]/ { print substr($0, 5) }' ../docs/GUIDE.md > commands
    holds test -s commands
    holds env PATH="$PWD/../bin:$PWD:$PATH" START="$start" bash -eu -o pipefail commands \
        > printed 2> errors < /dev/null
}

# guide: the commands of GUIDE, run as they stand there over the bundled games
guide() {
    mkdir "$top/guide"
    cd "$top/guide"
    ln -s ../examples ../tools .
    cp ../examples/table.txt .
    for name in lines tonight.txt a.journal; do cp ../examples/games.txt "$name"; done
    head -n 9 lines > b.journal
    for name in games 2023 2024; do
        sed 's/^\[Result/[WhiteElo "3500"]\n[BlackElo "3500"]\n&/' ../examples/games.pgn > "$name.pgn"
    done
    printf '#!/bin/sh\nexec cat\n' > less
    chmod +x less
    runs 'Every night'
    runs 'Looking at the book, and using it'
    runs 'A service'
    runs 'Several collectors, and more than a million games'
    holds cmp book.bin ../examples/book.bin
    runs 'An opening suite'
    holds grep -q "there are $(wc -l < suite.epd):" ../docs/GUIDE.md
    runs 'Choosing games'
    for name in lines kept.pgn sicilian decided kept.ledger by_content; do holds test -s "$name"; done
}

# figures: what README says of the time beside PolyGlot stands in PERFORMANCE
figures() {
    sed -n 's/^| one PGN file //p' README.md | grep -o '[0-9.]* s\>' > "$work/due"
    holds test "$(wc -l < "$work/due")" -eq 4
    awk '/^## / { is_due = /PolyGlot/ } is_due' docs/PERFORMANCE.md > "$work/found"
    while read -r time; do holds grep -qw -e "$time" "$work/found"; done < "$work/due"
}

# shared: each of tools/ is packed twice, also where `make install` puts it, and what is to be run
# may be
shared() {
    cd "$top"
    for file in tools/*; do
        holds cmp "$file" "share/pbook/${file#*/}"
        case $file in
            *.service) holds test ! -x "$file" ;;
            *) holds test -x "$file" -a -x "share/pbook/${file#*/}" ;;
        esac
    done
    holds cmp examples/games.pgn share/pbook/games.pgn
    holds test -x examples/workers.sh
}

# says_only_why COMMAND..: whether this command fails, and prints one line that says why, beside
# those of make
says_only_why() {
    if "$@" > "$work/said" 2>&1; then return 1; fi
    grep -v '^make.*Error 1$' "$work/said" > "$work/why"
    [ "$(wc -l < "$work/why")" -eq 1 ]
}

# no_program: where no program stands, none is made, and nothing is put in place or packed
no_program() {
    holds says_only_why make install PROGRAM="$work/none" PREFIX="$work/nothing"
    holds grep -q "^make: no program stands at $work/none" "$work/why"
    holds test ! -e "$work/nothing"
    PROGRAM=$work/none holds says_only_why sh scripts/dist.sh "$work/nothing"
    holds grep -q "^dist: no program stands at $work/none" "$work/why"
    echo '#!/bin/sh' > "$work/silent" && chmod 755 "$work/silent"
    PROGRAM=$work/silent holds says_only_why sh scripts/dist.sh "$work/nothing"
    holds test ! -e "$work/nothing"
}

# no_toolchain: each goal that needs the toolchain says so where it isn't there. The goal is made
# anew, so that it isn't passed over for what stands.
no_toolchain() {
    for goal in build unproved check dev test test-bodies test-noise test-wrong-programs; do
        holds says_only_why env PATH=/usr/bin:/bin make -B "$goal"
        holds grep -q '^make: [a-z/-]* needs the Rattle toolchain' "$work/why"
    done
}

can_book_pgn() { has pgn-extract && has polyglot && has tkscid; }
choose true '' packed packed_again unpacked links first_run figures workers shared no_program
choose 'has objdump' 'objdump is wanted' needs
choose no_rt_there 'rt is in /usr/bin' no_toolchain
choose can_book_pgn 'scid, pgn-extract and polyglot are wanted' from_bundled_pgn from_pgn guide
try_all
