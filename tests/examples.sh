#!/bin/sh
# Tries the scripts of tools/, which users run on their own games, as `make install` puts them in
# place: pgn_to_book, pgn_to_lines, client.py, serve.py and nightly, and what they do at faults.
# Those that want another program are left out where it is missing. KILLS=number kills so many
# nights and services, where 12 and 4 are killed else.
# Usage: PROGRAM=program tests/examples.sh [CHECK..] (at the top of the repository).
set -eu
PROGRAM=${PROGRAM:-build/pbook}
. tests/lib/harness.sh
. tests/lib/places.sh
PATH=$PATH:/usr/games
make -s install PROGRAM="$PROGRAM" PREFIX="$work/put"
top=$PWD
shared=$work/put/share/pbook
mkdir "$work/temporary"
export TMPDIR="$work/temporary"

# as_pgn: the games of these submission lines as pgn-extract writes them, without a move number
as_pgn() {
    awk -F'\t' '{
        printf "[Event \"?\"]\n[Result \"%s\"]\n[FEN \"%s\"]\n[SetUp \"1\"]\n\n", $2, $3
        printf "%s%s%s\n\n", $4, $4 == "" ? "" : " ", $2 }'
}

# tells_of STATUS TEXT COMMAND..: whether the command ends with this status, and these are the lines
# on its standard error. What it prints is in `printed`. No temporary file may be left.
tells_of() {
    due=$1 status=0
    printf '%s\n' "$2" | sed '/^$/d' > due
    shift 2
    "$@" > printed 2> told || status=$?
    left=$(ls "$TMPDIR")
    same_lines due told && [ "$status" -eq "$due" ] && [ -z "$left" ] && return
    echo "    the status is $status, and this is left: $left"
    return 1
}

lines_of_pgn() {
    head -n 59 "$work/games" | tr -d '\r' > games
    long=$(yes g1f3 g8f6 f3g1 f6g8 | head -n 1500 | paste -sd ' ')
    printf 'long\t1-0\t%s\t%s\n' "$start" "$long" >> games
    # Scid takes moves of both spellings.
    sed 40q games | as_pgn | pgn-extract -s -Wsan > one.pgn
    sed 1,40d games | as_pgn > -two.pgn
    # The last line has no end, and no empty line follows it.
    head -c -2 one.pgn > short && mv short one.pgn
    # Lines may end in CR LF, as on Windows.
    sed 's/$/\r/' ./-two.pgn > two.pgn
    packed=
    for by in gzip:gz zstd:zst bzip2:bz2 xz:xz; do
        has "${by%:*}" || continue
        "${by%:*}" -c -- two.pgn > "two.pgn.${by#*:}"
        packed="$packed two.pgn.${by#*:}"
    done
    note "-two.pgn two.pgn$packed"
    awk -F'\t' -v OFS='\t' '{ $1 = "w1-" NR; print }' games > lines
    for two in -two.pgn two.pgn $packed -; do
        holds tells_of 0 "pgn_to_lines: one.pgn: games: 40, left out: 0
pgn_to_lines: $two: games: 20, left out: 0" \
            "$shared/pgn_to_lines" w1 one.pgn "$two" < two.pgn
        holds cmp printed lines
    done
}

# The start of a game may have no clocks.
starts_of_pgn() {
    for start in '4k3/8/8/8/8/8/4P3/4K3 w - -' '4k3/8/8/8/8/8/4P3/4K3 w - - 3 9'; do
        printf '[Result "1-0"]\n[SetUp "1"]\n[FEN "%s"]\n\n1. e4 Kd7 1-0\n\n' "$start" \
            > "start${start##* }.pgn"
    done
    holds tells_of 0 'pgn_to_lines: start-.pgn: games: 1, left out: 0
pgn_to_lines: start9.pgn: games: 1, left out: 0' \
        "$shared/pgn_to_lines" w1 start-.pgn start9.pgn
    holds test "$(cut -f 3 printed)" = '4k3/8/8/8/8/8/4P3/4K3 w - - 0 1
4k3/8/8/8/8/8/4P3/4K3 w - - 3 9'
    holds ends 0 "$PROGRAM" check < printed > replies
    holds test "$(count '^ok' replies)" -eq 2
}

# Between two good games stands one of these: what is due, the result and moves of it or behind `!`
# why it is left out, and then its text. No game gets shorter, and those after it keep their number.
odd_pgn() {
    cases=0
    while IFS='|' read -r wanted text; do
        cases=$((cases + 1))
        printf '[Event "1"]\n\n1. c4 1-0\n\n[Event "2"]\n%b\n\n[Event "3"]\n\n1. a3 *\n' "$text" > odd.pgn
        { printf '\357\273\277' && sed 's/$/\r/' odd.pgn; } > windows.pgn
        for file in odd windows; do
            case $wanted in
                '!'*) out=1 said="pgn_to_lines: $file.pgn: game 2, w-2, is left out: ${wanted#!}" ;;
                *) out=0 said= ;;
            esac
            holds tells_of 0 "$said
pgn_to_lines: $file.pgn: games: 3, left out: $out" "$shared/pgn_to_lines" w "$file.pgn"
            cut -f 1,2,4 printed | tr '\t' ' ' > found
            printf '%s\n' 'w-1 1-0 c2c4' "w-2 $wanted" 'w-3 * a2a3' | grep -v '!' > due
            holds same_lines due found
        done
    done <<'END'
1-0 e2e4 e7e5 g1f3|\n1. e4 {a {b} e5 {d4\n2. d4} 2. Nf3 (2. c3 {)} (2. a3) d5 1-0) {x} 1-0
1-0 e2e4 e7e5 g1f3 b8c6|\n1. e4! $1 e5 $19 2. Nf3!? += Nc6?? 1-0
1-0 e2e4 e7e5|\n1. e4 ; 1. d4 {\n1... e5\n% 2. d4\n1-0
1-0 e2e4 e7e5|[Site "caf\0351"]\n\n1. e4 {M\0374ller} e5 1-0
1-0 e2e4 e7e5|\n1. e4 {+0.3/12 0.5s} e5 {-0.2/11 0.4s}\n{Black resigns} 1-0 {so it is}
1-0 e2e4 e7e5|[Variant "Standard"]\n\n1. e4 { [%clk 0:01:00] } 1... e5 { [%eval 0.2]\n[%clk 0:00:59] } 1-0
1-0 e2e4 e7e5 g1f3 b8c6 f1c4 f8c5 e1g1 g8f6|\n1. e4 e5 2. Nf3 Nc6 3. Bc4 Bc5 4. 0-0 Nf6 1-0
1-0 e2e4 e7e5 g1f3 b8c6 f1c4 f8c5 e1g1|\n1. e4 e5 2. Nf3 Nc6 3. Bc4 Bc5 4. o-o 1-0
1-0 e2e4 a7a6 e4e5 d7d5 e5d6|\n1. e4 a6 2. e5 d5 3. exd6 e.p. 1-0
1-0 e2e4 e7e5 f1b5 f8b4|\n1.e4 e5 2.Bb5 Bb4 1-0
1-0 b1d3 e8d7|[FEN "4k3/8/8/8/8/8/8/1B2KB2 w - - 0 1"]\n\n1. Bbd3 Kd7 1-0
1-0 e2e4 e8d7|[Site "x"] [FEN "4k3/8/8/8/8/8/4P3/4K3 w - -"] 1. e4 Kd7 1-0
1-0 e2e4 e8d7|[Site "two\nlines"]\n{ a comment }\n [FEN "4k3/8/8/8/8/8/4P3/4K3 w - -"] \n \n1. e4 Kd7 1-0
1-0 e2e4|[A]\n[Date "never"]\n[Result "2-0"]\n\n1. e4 1-0
1/2-1/2 e2e4|[Result "1-0"]\n\n1. e4 1/2
* e2e4 e7e5|\n1. e4 e5 *
1-0 |\n1-0
!its text ends before its result|
!its text ends before its result|\n1. e4 e5 2. N
!its text ends before its result|\n1. e4 e5 ; 1-0
!its text goes on behind a result|\n1. e4 1-0 e5 2. Nf3 1-0
!it has a comment that isn't closed|\n1. e4 e5 {oh\n1-0
!it has a variation that isn't closed|\n1. e4 e5 (1... c5 2. Nf3 1-0
!Failed to exit from variation.|\n1. e4 e5) 2. Nf3 1-0
!it has a tag between its moves|\n1. e4 [ e5 1-0
!its text ends before its result|\n1. e4 e51-0
!it has 3 moves, of which Scid takes 2|\n1. e4 $1N e5 *
!it has 3 moves, of which Scid takes 2|\n1. e4 e5 =+Nf3 1-0
!it has a null move|\n1. -- e5 1-0
!it has a null move|\n1. e4 e5 2. -- Nf6 1-0
!Failed to parse the move: Nf6|\n1. e4 e5 2. Nf6 1-0
!Failed to parse the move: Sf3|\n1. e4 e5 2. Sf3 1-0
!it has 4 moves, of which Scid takes 3|\n1. e4 e5 2. Nf3 Bb3 1-0
!it has the word Dd4, which is no move|\n1. e4 e5 2. Dd4 1-0
!Warning: illegal castling O-O|\n1. e4 e5 2. Nf3 Nf6 3. Be2 Be7 4. Kf1 Kf8 5. Ke1 Ke8 6. O-O 1-0
!Error parsing the tag pair: FEN "none"|[FEN "none"]\n\n1. e4 1-0
!it is of the variant atomic|[Variant "atomic"]\n\n1. e4 e5 1-0
!it is of the variant fischerandom|[Variant "fischerandom"]\n[FEN "rnbqkbnr/pppppppp/8/8/8/8/PPPPPPPP/RNBQKBNR w KQkq - 0 1"]\n\n1. e4 1-0
!it is Chess960, by its FEN tag|[FEN "rnbqkbnr/pppppppp/8/8/8/8/PPPPPPPP/RNBQKBNR w HAha - 0 1"]\n\n1. e4 1-0
!it is Chess960, by its FEN tag|[FEN "rnkqbbnr/pppppppp/8/8/8/8/PPPPPPPP/RNKQBBNR w KQkq - 0 1"]\n\n1. e4 1-0
END
    note "$cases cases"
}

# Games are read by stretches of 262,144 characters.
many_of_pgn() {
    seq 8000 | awk '{ printf "[Event \"%s\"]\n[Result \"1-0\"]\n\n1. e4 1-0\n\n", $1 }' > many.pgn
    holds tells_of 0 'pgn_to_lines: many.pgn: games: 8000, left out: 0' \
        "$shared/pgn_to_lines" w1 many.pgn
    seq 8000 | sed "s|.*|w1-&\t1-0\t$start\te2e4|" > lines
    holds cmp printed lines
}

no_pgn() {
    : > empty.pgn
    gzip -c "$shared/games.pgn" | head -c 2000 > cut.pgn.gz
    mkdir folder
    for file in "no.pgn can't be read" 'folder is a folder: name the files in it'; do
        holds tells_of 1 "pgn_to_lines: $file" \
            "$shared/pgn_to_lines" w1 empty.pgn "${file%% *}"
        holds test ! -s printed
    done
    # Ids have no spaces, and room for their numbers.
    long=$(printf '%054d' 0)
    for name in '' 'my worker' 'LAB\new' "$(printf 'caf\303\251')"; do
        said="a name is of ASCII characters without spaces and backslashes: '$name'"
        holds tells_of 1 "pgn_to_lines: $said" \
            "$shared/pgn_to_lines" "$name" "$shared/games.pgn"
    done
    holds tells_of 1 "pgn_to_lines: a name has at most 53 bytes: $long" \
        "$shared/pgn_to_lines" "$long" "$shared/games.pgn"
    holds ends 0 "$shared/pgn_to_lines" "${long#0}" "$shared/games.pgn" > printed 2> told
    # What unpacks a file may not be there.
    mkdir few
    ln -s "$(command -v tkscid)" few
    for by in gzip:gz zstd:zst bzip2:bz2 xz:xz; do
        : > "one.pgn.${by#*:}"
        holds tells_of 1 "pgn_to_lines: one.pgn.${by#*:}: ${by%:*} is not installed" \
            env PATH="$PWD/few" "$shared/pgn_to_lines" w1 "one.pgn.${by#*:}"
    done
    rm few/tkscid
    sed 's|:/usr/games||' "$shared/pgn_to_lines" > elsewhere.sh
    holds tells_of 1 'pgn_to_lines: tkscid is not installed; the package scid has it' \
        env PATH="$PWD/few" /bin/sh elsewhere.sh w1 empty.pgn
    holds tells_of 1 "pgn_to_lines: usage: pgn_to_lines NAME FILE.. > lines" \
        "$shared/pgn_to_lines" no.pgn
    holds tells_of 1 'pgn_to_lines: empty.pgn: games: 0, left out: 0
pgn_to_lines: no games came' "$shared/pgn_to_lines" w1 empty.pgn
    holds tells_of 1 "pgn_to_lines: cut.pgn.gz: game 7, w1-7, is left out: its text ends before its result
pgn_to_lines: cut.pgn.gz was not read to its end: gzip: stdin: unexpected end of file
pgn_to_lines: cut.pgn.gz: games: 7, left out: 1" "$shared/pgn_to_lines" w1 cut.pgn.gz
    holds test "$(wc -l < printed)" -eq 6
    holds ends 1 "$shared/pgn_to_lines" w1 "$shared/games.pgn" > /dev/full 2> told
}

# The bundled games: 20, of which one has no result, and four begin elsewhere. As root and cron do,
# this searches no /usr/games.
bundled_pgn() {
    holds tells_of 0 'pgn_to_lines: games.pgn: games: 20, left out: 0' \
        in_shared env PATH="${PATH%:/usr/games}" ./pgn_to_lines w1 games.pgn
    holds test "$(cut -f 3 printed | sort | uniq -c | awk '{ print $1 }' | tr '\n' ' ')" = '4 16 '
    mv printed lines
    holds tells_of 0 '' "$PROGRAM" collect -q --plies 24 --least 3 "$table" book.bin < lines
    holds test "$(grep -c '^ok' printed)" -eq 19
    holds test "$(grep -v '^ok' printed)" = 'refused w1-11 result'
    holds test -s book.bin
}
in_shared() (cd "$shared" && exec "$@")

# One command makes the same book, and a table of PolyGlot's numbers where none is. At a fault or a
# signal the old book stays, and nothing else.
book_of_pgn() {
    made=$shared/pgn_to_book
    mkdir ./-new
    cp "$shared/games.pgn" ./-games.pgn
    gzip -c -- -games.pgn | head -c 2000 > cut.pgn.gz
    holds tells_of 0 'pgn_to_lines: -games.pgn: games: 20, left out: 0
pbook: 20 lines: 19 ok (19 new, 0 again), 1 refused (1 result); ./-new/book.bin: 20 entries' \
        "$made" -new/book.bin -games.pgn -- --plies 24 --least 3
    holds test ! -s printed
    "$shared/table_from_polyglot" > table.txt
    "$shared/pgn_to_lines" w1 -games.pgn 2> told |
        "$PROGRAM" collect -q --plies 24 --least 3 table.txt book.bin > replies
    holds diff -r . ./-new --exclude=[!bt]* --exclude=told
    # The table that stands is taken, and no old book goes for a file that can't be read.
    : > table.txt
    holds ends 1 "$made" -book.bin -games.pgn > printed 2> told
    holds grep -q '^pbook: ./table.txt: a table has 781 lines' told
    for file in cut.pgn.gz table.txt no.pgn; do
        holds ends 1 "$made" -new/book.bin "$file" > printed 2> told
        holds cmp -- -new/book.bin book.bin
    done
    # A signal comes while games are read.
    mkfifo slow
    "$made" -new/book.bin - < slow 2> told &
    exec 7> slow
    cat ./-games.pgn >&7
    holds awaits sh -c "ls '$TMPDIR'/*/lines > said 2>&1"
    kill $!
    exec 7>&-
    status=0
    wait $! || status=$?
    holds test "$status" -eq 1
    holds cmp -- -new/book.bin book.bin
    holds test "$(ls -A ./-new)" = "$(printf 'book.bin\ntable.txt')"
    holds test -z "$(ls "$TMPDIR")"
    # Where there is no polyglot, a sentence says so, and no table is left.
    mkdir few
    for tool in cat chmod dirname mktemp mv rm sh; do ln -s "$(command -v "$tool")" few; done
    for tool in pgn_to_book table_from_polyglot; do
        sed 's|:/usr/[a-z/]*||g' "$shared/$tool" > "few/$tool"
        chmod 755 "few/$tool"
    done
    cp "$PROGRAM" few/pbook
    rm ./-new/table.txt
    holds tells_of 1 "table_from_polyglot: polyglot is not installed; the package polyglot has it, or\
 name its random.c" env PATH="$PWD/few" few/pgn_to_book -new/book.bin -games.pgn
    holds test "$(ls -A ./-new)" = book.bin
    holds tells_of 1 'pgn_to_book: usage: pgn_to_book BOOK FILE.. [-- OPTION..]' "$made" book.bin
    holds ends 0 "$made" -h > printed
    holds grep -q '^Usage: pgn_to_book' printed
}

# as_source FILE: the numbers of a table as PolyGlot's source file has them, every other one in
# small letters
as_source() { sed '1~2y/abcdef/ABCDEF/; s/.*/   U64(0x&),/' "$1"; }

# The numbers of the program that is installed are those of its source file. One of them that is
# another one, one too few or one too many make no table.
own_table() {
    from=$shared/table_from_polyglot
    holds tells_of 0 '' env PATH="${PATH%:/usr/games}" "$from"
    mv printed numbers
    as_source numbers > random.c
    holds tells_of 0 '' "$from" random.c
    tr A-F a-f < printed > small
    holds cmp small numbers
    { sed 780q random.c && sed -n 1p random.c; } > other.c
    holds ends 1 "$from" other.c > printed 2> told
    holds grep -q '^table_from_polyglot: the numbers of other.c give the initial array' told
    holds test ! -s printed
    holds ends 1 "$from" missing.c > printed 2> told
    sed 780q random.c > few.c
    { cat random.c && sed -n 1p random.c; } > many.c
    for count in 780 782; do
        [ "$count" -eq 780 ] && file=few.c || file=many.c
        holds tells_of 1 "table_from_polyglot: $file has $count such numbers, and not 781" \
            "$from" "$file"
        holds test ! -s printed
    done
}

# client STATUS TEXT FILE..: whether the client so ends over the lines of these files
client() {
    wanted=$1 text=$2
    shift 2
    PBOOK=$PROGRAM holds tells_of "$wanted" "$text" \
        timeout "$patience" "$shared/client.py" "${asked:-$table}" "$book" "$journal" "$@"
}

client_answers() {
    : > "$journal"
    "$PROGRAM" collect -q "$table" other.bin < "$work/games" > replies
    head -n 100 "$work/games" > first
    tail -n +101 "$work/games" > later
    # Table and journal may have a name like an option's.
    cp "$table" ./-table
    mv "$journal" ./-journal
    asked=-table journal=-journal
    client 0 '' first later
    holds cmp printed replies
    holds is_new "$book"
    # The games of the journal are known again.
    client 0 '' later
    tail -n +101 replies > due
    holds cmp printed due
    holds is_new "$book"
}

client_faults() {
    client 1 'usage: client.py TABLE BOOK JOURNAL FILE..'
    client 3 "pbook: $journal: no such file (an empty one begins a journal)" "$work/games"
    : > "$journal"
    client 1 'client.py: [Errno 2] No such file or directory: '"'no.txt'" no.txt
    head -n 9 "$table" > short
    asked=short
    client 1 'pbook: short: a table has 781 lines, and this one 9' "$work/games"
    holds test ! -s printed
    cat "$table" "$table" > long
    asked=long
    client 1 'pbook: long: it is longer than a table' "$work/games"
    holds test ! -s printed
    sed '$s/./-/' "$table" > wrong
    asked=wrong
    client 1 "pbook: wrong: line 781 isn't 16 hexadecimal digits" "$work/games"
    holds test ! -s printed
    # Nor is a journal that is none the answer to a game.
    asked=$table
    cp "$table" "$journal"
    client 1 "pbook: $journal: line 1 isn't a game that can be taken; it looks like a table" \
        "$work/games"
    holds test ! -s printed
    : > "$journal"
    # All games are answered, and there is no book.
    book=$place/no/book.bin
    head -n 9 "$work/games" > games
    client 3 "pbook: $book: no such file or directory" games
    holds test "$(wc -l < printed)" -eq 9
}

# python COMMANDS: runs these over the module, as a caller does
python() {
    PYTHONPATH=$shared timeout "$patience" python3 -B -c "
import os, signal, sys, threading
from client import Collector, Ended
program, table, book, journal, games = sys.argv[1:]
lines = open(games, newline='\\n').read().splitlines()
def collector(): return Collector(table, book, journal, '-q', program=program)
$1" "$PROGRAM" "$table" "$book" "$journal" "$work/games"
}

# A child that is killed loses no answered game, and a new one goes on.
client_killed() {
    : > "$journal"
    holds python '
first = collector()
for line in lines[:100]: first.submit(line)
first.child.kill()
first.child.wait()
try:
    first.submit(lines[100])
    sys.exit("no end was told")
except Ended as ended:
    assert ended.status == -signal.SIGKILL, ended.status
try:
    first.close()
    sys.exit("the book is told as made")
except Ended:
    assert not os.path.exists(book)
try:
    with collector() as second:
        second.child.kill()
        raise KeyError
except KeyError: pass'
    holds python '
with collector() as again:
    answers = [again.submit(line) for line in lines[100:]]
print(*(" ".join(words) for words in answers), sep="\n")' > printed
    "$PROGRAM" collect -q "$table" other.bin < "$work/games" | tail -n +101 > replies
    holds cmp printed replies
    holds is_new "$book"
    # The status of the script is then that by which a shell tells of the signal.
    printf '%s\n' '#!/bin/sh' 'kill -9 $$' > killed
    chmod 755 killed
    PROGRAM=$place/killed
    client 137 '' "$work/games"
    holds test ! -s printed
}

# A refused game with the id `table` is no refused table, and a line is one line.
client_lines() {
    : > "$journal"
    holds python '
start = lines[0].split("\t")[2]
with collector() as it:
    assert it.submit(f"table\t1-0\t{start}\te2e5") == ["refused", "table", "illegal", "1"]
    assert it.submit("no game") == ["refused", "-", "shape"]
    assert it.submit("") == ["refused", "-", "shape"]
    assert it.submit("\u00e9\t1-0\t\t") == ["refused", "-", "id"]
    try:
        it.submit("one\ntwo")
        sys.exit("two lines were submitted")
    except ValueError:
        pass
    assert it.submit(f"table\t1-0\t{start}\te2e4") == ["ok", "table", "1"]'
    # A file may have any bytes. Only LF ends a line.
    {
        printf 'caf\351\t1-0\t%s\te2e4\n' "$start"
        printf 'no\rgame\n'
        printf 'w1\t1-0\t%s\te2e4\r\n' "$start"
    } > bytes
    : > "$journal"
    client 0 '' bytes
    holds test "$(cat printed)" = "$(printf 'refused - id\nrefused - shape\nok w1 1')"
    # What stands behind the last one may be a cut game.
    printf 'w2\t1-0\t%s\te2e4 e7' "$start" >> bytes
    client 0 'client.py: bytes: its last line has no end; it is left out' bytes
    holds test "$(wc -l < printed)" -eq 3
    # An answer is printed before the next line comes.
    mkfifo slow
    PYTHONUNBUFFERED='' PBOOK=$PROGRAM "$shared/client.py" "$table" "$book" "$journal" slow \
        > answers &
    exec 7> slow
    head -n 1 "$work/games" >&7
    holds awaits test -s answers
    exec 7>&-
    holds wait $!
}

# Each thread gets the answers to its own lines.
client_threads() {
    : > "$journal"
    holds python '
lines = [line for line in lines if line.count("\t") == 3][:240]
wrong = []
def work(it, mine):
    for line in mine:
        answer = it.submit(line)
        if answer[1] != line.split("\t")[0]: wrong.append(answer)
with collector() as it:
    threads = [threading.Thread(target=work, args=(it, lines[n::8])) for n in range(8)]
    for thread in threads: thread.start()
    for thread in threads: thread.join()
assert not wrong, wrong'
}

# serves CHECK: whether this check of tests/lib/service.py holds
serves() {
    holds env PBOOK="$PROGRAM" PATIENCE="$patience" timeout $((patience * 3)) \
        python3 -B "$top/tests/lib/service.py" "$1" "$shared/serve.py" "$table" "$work/games" > told
    [ ! -s told ] || note "$(cat told)"
}
for it in answers browsers ends frozen idle limits slow turns workers; do
    eval "serve_$it() { serves $it; }"
done

# systemd takes the service that the example has, and sees a wrong one.
serve_unit() {
    sed "s|/usr/local/share/pbook|$shared|; s|/srv/book|$place|" "$shared/pbook.service" > pbook.service
    holds is_unit pbook.service
    sed 's/^KillMode=.*/KillMode=none at all/' pbook.service > wrong.service
    holds not is_unit wrong.service
    sed 's|/serve.py|/none.py|' pbook.service > wrong.service
    holds not is_unit wrong.service
}
serve_guarded() {
    holds systemd-analyze security --offline=true --threshold=20 "$top/tools/pbook.service" > told
}
offers_offline() { systemd-analyze --help 2> /dev/null | grep -q -e --offline; }
# is_unit FILE: whether systemd says nothing of this file
is_unit() { systemd-analyze verify "$PWD/$1" > said 2>&1 && [ ! -s said ]; }

# night STATUS TEXT [OPTION..]: whether a night in the folder $place/srv ends so, by a line that is
# run as cron does: by sh, in another folder, with few variables
night() {
    due_status=$1 text=$2
    shift 2
    holds tells_of "$due_status" "$text" env -i HOME=/ LOGNAME=nobody PATH=/usr/bin:/bin \
        /bin/sh -c "cd / && $shared/nightly $place/srv $*"
    holds test ! -s printed
    # No draft is left.
    holds test -z "$(find srv -name '.*' ! -name .nightly.lock)"
}

# begin_nights: the folder before the first night
begin_nights() {
    mkdir srv
    cp "$table" srv/table.txt
    : > srv/games.ledger
}

nights() {
    begin_nights
    head -n 150 "$work/games" > srv/tonight.txt
    night 0 ''
    holds test "$(wc -l < srv/replies)" -eq 150
    tail -n +100 "$work/games" > srv/tonight.txt
    before=$(node srv/replies)
    night 0 ''
    holds is_new srv/book.bin
    # A kill leaves old answers or new ones.
    holds not has_node "$before" srv/replies
    holds test "$(wc -l < srv/replies)" -eq "$(wc -l < srv/tonight.txt)"
    # Others may look at the answers, as at any new file.
    holds has_mode 644 srv/replies
    holds test ! -e srv/replies.failed
    # A folder may have a name like an option's.
    mv srv ./-srv
    holds ends 0 "$shared/nightly" -srv
    mv ./-srv srv
    # The script may be named from its own folder.
    holds ends 0 in_shared env PATH=/usr/bin:/bin ./nightly "$place/srv"
    # Neither CDPATH nor a folder beside a clone leads astray. An archive has the program.
    mkdir -p other/srv bin clone/tools
    ln -s /bin/false bin/pbook
    cp "$shared/nightly" clone/tools
    holds ends 0 env CDPATH="$place/other" PATH="$work/put/bin:$PATH" clone/tools/nightly srv
    ln -s "$work/put/bin" clone/bin
    holds ends 0 env PATH="$place/bin:/usr/bin:/bin" clone/tools/nightly srv
    # A night may have no games.
    : > srv/tonight.txt
    night 0 ''
    holds is_new srv/book.bin
    # Options are handed on: the first plies alone are counted.
    night 0 '' --plies 2 --least 3
    holds cmp srv/book.bin "$top/tests/data/few.bin"
}

# A last line without an end isn't taken. The whole game is, a night later.
cut_night() {
    begin_nights
    head -n 9 "$work/games" > whole
    head -c -20 whole > srv/tonight.txt
    night 0 'nightly: tonight.txt has a last line without an end, which is left out'
    holds test "$(wc -l < srv/replies)" -eq 8
    # A power cut leaves zeros.
    { head -n 8 whole && printf 'w9\0'; } > srv/tonight.txt
    night 0 'nightly: tonight.txt has a last line without an end, which is left out'
    cp whole srv/tonight.txt
    night 0 ''
    holds test "$(count '^ok' srv/replies)" -eq 9
    # Lines may go while they are copied.
    printf '#!/bin/sh\nexec /usr/bin/head -n 3 tonight.txt\n' > "$work/put/bin/head"
    chmod 755 "$work/put/bin/head"
    night 1 'nightly: tonight.txt changed while it was read, and nothing was done'
    # A signal may come before the program starts.
    printf "#!/bin/sh\nkill \$PPID\n" > "$work/put/bin/head"
    night 1 'nightly: ended by a signal, and nothing was done'
    rm "$work/put/bin/head"
}

# A signal to the script alone, while the program runs, loses no answers.
stopped_night() {
    begin_nights
    cp "$work/games" srv/tonight.txt
    "$shared/nightly" srv &
    night=$!
    awaits test -e srv/.replies.new -o -e srv/replies
    kill "$night" 2> /dev/null || :
    holds wait "$night"
    holds test "$(wc -l < srv/replies)" -eq "$(wc -l < srv/tonight.txt)"
    holds is_new srv/book.bin
    # Where the script alone is killed, the program goes on, and has the folder until it ends.
    rm srv/table.txt
    mkfifo srv/table.txt
    "$shared/nightly" srv &
    awaits test -e srv/.replies.new
    kill -9 $!
    wait $! 2> /dev/null || :
    status=0
    flock -n srv/.nightly.lock true || status=$?
    cat "$table" > srv/table.txt
    holds test "$status" -eq 1
    holds awaits flock -n srv/.nightly.lock true
}

bad_nights() {
    begin_nights
    night 1 "nightly: $place/srv/tonight.txt can't be read"
    cp "$work/games" srv/tonight.txt
    for name in .tonight.whole .replies.new replies replies.failed; do
        mkdir "srv/$name"
        holds tells_of 1 "nightly: $place/srv/$name is a folder" "$shared/nightly" srv
        rmdir "srv/$name"
    done
    night 0 ''
    cp srv/replies before
    failed="$place/srv/replies.failed has its answers, which may not hold"
    failed="nightly: pbook ended with status 3; $failed"
    # Another run holds the ledger.
    exec 7< srv/games.ledger
    flock -n 7
    night 3 "pbook: games.ledger: it is in use by another run
$failed"
    exec 7<&-
    holds cmp srv/replies before
    holds test "$(cat srv/replies.failed)" = 'fault open'
    holds is_new srv/book.bin
    rm srv/games.ledger
    night 3 "pbook: games.ledger: no such file (an empty one begins a ledger)
$failed"
    holds is_new srv/book.bin
    # Another night has the folder, and its hidden files stay.
    : > srv/games.ledger
    exec 7> srv/.nightly.lock
    flock -n 7
    night 1 "nightly: another night has $place/srv, or flock is not installed"
    : > srv/.replies.new
    holds ends 1 "$shared/nightly" srv 2> told
    holds test -e srv/.replies.new
    exec 7<&-
    holds cmp srv/replies before
    # A good night leaves no answers of a bad one, nor hidden files.
    night 0 ''
    holds cmp srv/replies before
    holds test ! -e srv/replies.failed
}

# Whatever process of a night is killed, the answers, the ledger and the book are old ones or new.
killed_nights() {
    KILLS=${KILLS:-12} holds python3 -B "$top/tests/lib/night_kills.py" "$work/put" "$table" \
        "$work/games" > told
    note "$(cat told)"
}

# The line that the script shows is one that cron takes.
crontab_line() {
    sed -n 's/^#     \(.*nightly .*\)/\1/p' "$top/tools/nightly" > tab
    holds test "$(wc -l < tab)" -eq 1
    holds is_crontab tab
    printf '30 3 * * * one\nsecond line\n' > wrong
    holds not is_crontab wrong
}
# is_crontab FILE: whether cron would take this file
is_crontab() { crontab "$judging" "$1" > said 2>&1; }

# judges_crontabs: whether cron looks at a file without installing it, which one cron does by -T and
# another by -n
judges_crontabs() {
    judging=
    case $(crontab -h 2>&1) in
        *' -T '*) judging=-T ;;
        *'-n'*'dry run'*) judging=-n ;;
    esac
    [ -n "$judging" ]
}
can_kill_nights() { has python3 && has flock; }
has_pgn_tools() { has tkscid && has pgn-extract && has gzip; }
can_book_pgn() { has tkscid && has polyglot && has gzip; }
[ $# -gt 0 ] || {
    choose has_pgn_tools 'scid, pgn-extract and gzip are wanted' lines_of_pgn starts_of_pgn \
        odd_pgn many_of_pgn no_pgn bundled_pgn
    choose can_book_pgn 'scid, polyglot and gzip are wanted' book_of_pgn
    choose 'has python3' 'python3 is wanted' client_answers client_faults client_killed \
        client_lines client_threads serve_answers serve_browsers serve_ends serve_frozen serve_idle \
        serve_limits serve_slow serve_turns serve_workers
    choose 'has polyglot' 'polyglot is wanted' own_table
    choose 'has flock' 'flock is wanted' nights cut_night stopped_night bad_nights
    choose can_kill_nights 'python3 and flock are wanted' killed_nights
    choose 'has systemd-analyze' 'systemd-analyze is wanted' serve_unit
    choose offers_offline 'systemd-analyze of version 250 is wanted' serve_guarded
    choose judges_crontabs 'a crontab that looks at files is wanted' crontab_line
}
try_all "$@"
