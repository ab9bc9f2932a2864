#!/bin/sh
# Proves crates and what they stand on, and tells how far that is. The libraries that are proved are
# left where `rt check` takes them, and the program at build/pbook.
# Usage: scripts/build.sh CRATE.. (at the top of the repository).
#
# The toolchain's gate proves crates side by side and from nothing, and keeps on this machine what
# has passed (rattle-kit-13f). So it runs over a copy of these crates, without the wrong bodies:
# `make test` then takes these proofs as they are, what another run has proved is fetched in
# seconds, and a run that was interrupted goes on with the crates that are left.
set -eu
mkdir -p build
exec 9> build/lock
flock -n 9 || { echo 'make: another run proves here'; exit 1; }
start='rnbqkbnr/pppppppp/8/8/8/8/PPPPPPPP/RNBQKBNR w KQkq - 0 1'
begin=$(date +%s)
room=$(mktemp -d)
# What is proved is left also where the run is cut off.
leave() { python3 -B scripts/lib/libraries.py take "$room" || :; rm -rf "$room"; }
trap leave EXIT
trap 'exit 1' HUP INT TERM

# The lines of these crates and of all below them. They name crates of the toolchain too, which have
# no line of their own.
awk -v names="$*" '
    /^#/ || NF == 0 { next }
    { name = $1; sub(/:$/, "", name); line[name] = $0 }

    # Prints the lines of the crates that these words name, each after those that it stands on.
    function print_lines(words,    word, count, i) {
        count = split(words, word, /[: ]+/)
        for (i = 1; i <= count; i++)
            if (word[i] in line && !printed[word[i]]++) {
                print_lines(substr(line[word[i]], length(word[i]) + 1))
                print line[word[i]]
            }
    }
    END { print_lines(names) }
' crates.txt > "$room/crates.txt"
cp HANDLES "$room/HANDLES"
python3 -B scripts/lib/libraries.py note
crates=$(cut -d: -f1 "$room/crates.txt")
for crate in $crates; do
    mkdir -p "$room/crates/$crate"
    for part in src specs proofs data args stdin stdout status; do
        [ ! -e "crates/$crate/$part" ] || cp -R "crates/$crate/$part" "$room/crates/$crate/$part"
    done
done
all=$(wc -l < "$room/crates.txt")
echo "Proving $*: $all crates, side by side. What is kept is taken as it is."
{ (cd "$room" && exec rt ci) 2>&1 9>&- || echo 'It failed.'; } | tee build/log | awk -v all="$all" '
    /^rt: [a-z_]+ (proved|is kept)/ {
        print $2, $3 == "is" ? "is kept" : "proved", ++done " of " all
        fflush()
    }'
[ "$(tail -n 1 build/log)" != 'It failed.' ] || { cat build/log; exit 1; }

sed -n 's/^logic=proved functions=\([0-9]*\).*/\1/p' build/log |
    awk '{ sum += $1 } END { if (NR) print sum " functions were proved now." }'
if [ -e "$room/crates/pbook" ]; then
    [ "$("$room/crates/pbook/out/pbook" fen "$start")" = "$start" ]
    install -m 755 "$room/crates/pbook/out/pbook" build/pbook
    echo "build/pbook stands, after $(($(date +%s) - begin)) seconds."
else
    echo "All of them are proved and kept, after $(($(date +%s) - begin)) seconds."
fi
