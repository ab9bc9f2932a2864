#!/bin/sh
# Builds the source once without proof, with AddressSanitizer and a check in the place of each
# proof, and leaves the program at build/unproved/pbook. It proves nothing.
# Usage: scripts/unproved.sh (at the top of the repository).
set -eu
to=build/unproved
mkdir -p "$to"
exec 9> "$to/lock"
flock -n 9 || { echo 'make: another run builds without proof here'; exit 1; }
start='rnbqkbnr/pppppppp/8/8/8/8/PPPPPPPP/RNBQKBNR w KQkq - 0 1'
begin=$(date +%s)
# Without links, as the file of a process names it.
work=$(cd "$(mktemp -d)" && pwd -P)
building=
trap '[ -z "$building" ] || kill "$building" 2> /dev/null || :; rm -rf "$work"' EXIT
trap 'exit 1' HUP INT TERM

. scripts/lib/unproved.sh
echo 'Building pbook without proof, with a check in the place of each: a minute or two.'
build_unproved "$PWD" "$work/pbook" 9>&-
[ "$("$work/pbook" fen "$start")" = "$start" ]
{ "$work/pbook" --version || :; } | grep -q '^pbook [0-9.]*-unproved$'
install -m 755 "$work/pbook" "$to/pbook"
echo "$to/pbook stands, after $(($(date +%s) - begin)) seconds. Nothing was proved."
