#!/bin/bash
# Counts the processor instructions of `cha` and `cha_perft` beside those of other programs on the same input, by callgrind.
# Other load on the machine does not change them. Debian packages: valgrind, pgn-extract, stockfish.
#
#   tools/instructions.sh GAMES.pgn [FEN] [DEPTH]
#
# FEN is the second of the six usual positions where it is left out, and DEPTH is 4. The programs are those that `rt run`
# leaves in crates/cha_main and crates/cha_perft; CHA and PERFT name others, and what is not built has no row. Each row has
# the instructions of ours and of theirs in millions, and the first over the second:
#
#   games    `cha adjudicate --budget 1 --depth 2`, and `pgn-extract -F -s`
#   counted  `cha_perft`, which counts the last moves and does not make them, and Stockfish's `go perft`, which does the same
#   made     `cha_perft made`, which makes every move, and the same
#
# cha_perft counts the depths 1, 2, .. one after the other. What the programs take to start without a question does not count
# for positions.
set -eu
PATH=$PATH:/usr/games
here=$(dirname "$0")/..
games=${1:?GAMES.pgn}
fen=${2:-r3k2r/p1ppqpb1/bn2pnp1/3PN3/1p2P3/2N2Q1p/PPPBBPPP/R3K2R w KQkq - 0 1}
depth=${3:-4}
cha=${CHA:-$here/crates/cha_main/out/cha_main}
perft=${PERFT:-$here/crates/cha_perft/out/cha_perft}
for tool in valgrind pgn-extract stockfish; do
    command -v "$tool" > /dev/null || { echo "no $tool: it is a package of Debian" >&2; exit 1; }
done

# instructions COMMAND..: how many instructions the command takes over standard input
instructions() {
    local said
    said=$(mktemp)
    valgrind --tool=callgrind --callgrind-out-file=/dev/null --log-file="$said" "$@" > /dev/null 2>&1
    awk '/Collected/ { print $NF }' "$said"
    rm -f "$said"
}

# row NAME OURS THEIRS
row() { awk -v name="$1" -v a="$2" -v b="$3" 'BEGIN { printf "%-8s %10.1f %10.1f %8.3f\n", name, a / 1e6, b / 1e6, a / b }'; }

asks() { printf 'position fen %s\n%squit\n' "$fen" "$1" | instructions stockfish; }
counts() { printf '%s;%s\n' "$fen" "$1" | instructions "$perft" "${@:2}"; }

printf '%-8s %10s %10s %8s\n' what ours theirs ratio
if [ -x "$cha" ]; then
    row games "$(instructions "$cha" adjudicate --budget 1 --depth 2 < "$games")" "$(instructions pgn-extract -F -s "$games")"
fi
[ -x "$perft" ] || exit 0
theirs=$(($(asks "go perft $depth"$'\n') - $(asks '')))
row counted $(($(counts "$depth") - $(counts 0))) "$theirs"
row made $(($(counts "$depth" made) - $(counts 0 made))) "$theirs"
