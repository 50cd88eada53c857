#!/bin/bash
# Compares the final positions that `cha adjudicate` prints with those of `pgn-extract -F` (Debian package `pgn-extract`).
#
#   tools/finals.sh [PROGRAM] [GAMES.pgn]
#
# PROGRAM is the built cha (./cha, which `make` leaves there); the games are the package's own openings where no file is named.
# Games without a move are left out, since pgn-extract prints no position of them. pgn-extract names an en passant target after
# each double step, as cha does. The status is 0 where all positions agree.
set -eu
here=$(dirname "$(readlink -f "$0")")
program=${1:-$here/../cha}
games=${2:-/usr/share/pgn-extract/eco.pgn}
extract=$(command -v pgn-extract || ls /usr/games/pgn-extract)
work=$(mktemp -d)
trap 'rm -rf "$work"' EXIT

"$extract" -s -F -w1000000 "$games" 2> "$work/log" | grep -o '{ "[^"]*" }' | cut -d'"' -f2 | cut -d' ' -f1-4 > "$work/theirs"
"$program" adjudicate < "$games" > "$work/ours.txt"
sed -n 's/^fen: //p' "$work/ours.txt" > "$work/ours"
tail -n 1 "$work/ours.txt"
cmp "$work/ours" "$work/theirs"
echo "final positions: $(wc -l < "$work/ours"), all equal"
