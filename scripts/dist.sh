#!/bin/sh
# Packs the program with its manual page, completions, documents and examples, for those who have
# no toolchain, and tells the checksum. The same program gives the same bytes each time.
# Usage: PROGRAM=program scripts/dist.sh [FOLDER] (at the top of the repository; of build/pbook,
# into the folder build, where none is given).
set -eu
PROGRAM=${PROGRAM:-build/pbook}
to=${1:-build}
[ -x "$PROGRAM" ] ||
    { echo "dist: no program stands at $PROGRAM; make proves and builds build/pbook"; exit 1; }
version=$({ "$PROGRAM" --version || :; } | cut -d' ' -f2)
[ -n "$version" ] || { echo "dist: $PROGRAM tells no version"; exit 1; }
name=pbook-$version-x86_64-linux
mkdir -p "$to"
room=$(mktemp -d)
trap 'rm -rf "$room"' EXIT
trap 'exit 1' HUP INT TERM
top=$room/$name

make -s install PROGRAM="$PROGRAM" DESTDIR="$top" PREFIX=
install -m 644 README.md CHANGELOG.md "$top"
install -D -m 644 -t "$top/docs" docs/*.md docs/*.svg
install -D -m 644 -t "$top/examples" examples/games.* examples/table.txt examples/book.bin
install -m 755 -t "$top/examples" examples/workers.sh
install -d "$top/tools"
cp -p tools/* "$top/tools"

# A link to a file or folder of the source, which isn't packed, becomes its text.
python3 -B - "$top" README.md CHANGELOG.md docs/*.md << 'END'
import pathlib, re, sys
for text in map(pathlib.Path, sys.argv[2:]):
    def packed(link):
        target = text.parent / link[2].partition("#")[0]
        is_left = target.exists() and not pathlib.Path(sys.argv[1], target).exists()
        return link[1] if is_left else link[0]
    source = text.read_text(encoding="utf-8")
    linked = re.sub(r"\[([^][]*)\]\(([^() ]*)\)", packed, source)
    pathlib.Path(sys.argv[1], text).write_text(linked, encoding="utf-8")
END

tar --sort=name --mode='u+rwX,go+rX,go-w' --mtime=@0 --owner=0 --group=0 --numeric-owner \
    --format=ustar -C "$room" -cf - "$name" | gzip -n -9 > "$to/$name.tar.gz"
cd "$to"
sha256sum "$name.tar.gz" | tee "$name.tar.gz.sha256"
