#!/bin/bash
# Counts lines of legal moves of the six usual positions, and measures how fast that goes, beside Stockfish where it is
# installed (Debian package `stockfish`).
#
#   tools/perft.sh [PROGRAM] [DEEPER]
#
# PROGRAM is the built cha_perft (crates/cha_perft/out/cha_perft, which `rt run` in crates/cha_perft makes), and DEEPER
# is added to each depth. Each position has one row:
#
#   depth, lines   the depth, and its lines of that many moves
#   list-s, list/s the processor seconds of `cha_perft`, and the lines that it counted in lists a second
#   made-s, made/s the processor seconds of `cha_perft made`, and the moves that it made a second
#   sf-s, sf/s     the processor seconds of Stockfish, and the lines that it counted in lists a second
#   list:sf        the first speed over Stockfish's; made:sf the second one
#
# cha_perft counts the depths 1, 2, .. one after the other, and what it listed or made for each counts. The counts of all
# three are compared. Stockfish lists the last moves and does not make them, as `cha_perft` does; the time in which it
# starts does not count.
set -eu
TIMEFORMAT=%U
program=${1:-$(dirname "$0")/../crates/cha_perft/out/cha_perft}
deeper=${2:-0}
other=$(command -v stockfish || ls /usr/games/stockfish 2>/dev/null || true)

listed() { printf '%s;%s\n' "$1" "$2" | "$program"; }
made() { printf '%s;%s\n' "$1" "$2" | "$program" made; }
theirs() { printf 'position fen %s\ngo perft %s\nquit\n' "$1" "$2" | "$other" | awk '/^Nodes searched/ { print $3 }'; }

# measure COMMAND..: leaves what the command writes in $output and its processor seconds in $seconds
measure() {
    { seconds=$( { time "$@" > /tmp/perft.$$; } 2>&1 ); }
    output=$(cat /tmp/perft.$$)
    rm -f /tmp/perft.$$
}

# all COUNTS: the moves that were listed or made for the counts of the depths 1, 2, .. together
all() { awk '{ for (k = 1; k <= NF; k++) { sum += $k; all += sum }; printf "%.0f", all }' <<< "$1"; }

# speed MOVES SECONDS
speed() { awk -v n="$1" -v t="$2" 'BEGIN { printf "%.0f", n / (t > 0 ? t : 0.001) }'; }

start=0
if [ -n "$other" ]; then
    measure theirs '8/8/8/8/8/8/8/K1k5 w - - 0 1' 1
    start=$seconds
fi
printf '%5s %12s %8s %11s %8s %11s %8s %11s %8s %8s\n' depth lines list-s list/s made-s made/s sf-s sf/s list:sf made:sf
while IFS=';' read -r fen depth; do
    depth=$((depth + deeper))
    measure listed "$fen" "$depth"
    counts=$output lines=${output##* } list_seconds=$seconds list_speed=$(speed "$(all "$output")" "$seconds")
    measure made "$fen" "$depth"
    made_seconds=$seconds made_speed=$(speed "$(all "$output")" "$seconds")
    [ "$output" = "$counts" ] || { echo "$fen: made one by one the lines are $output, from lists $counts" >&2; exit 1; }
    if [ -z "$other" ]; then
        printf '%5d %12d %8.3f %11d %8.3f %11d\n' "$depth" "$lines" "$list_seconds" "$list_speed" "$made_seconds" "$made_speed"
        continue
    fi
    measure theirs "$fen" "$depth"
    [ "$output" = "$lines" ] || { echo "$fen: Stockfish counts $output lines, cha_perft $lines" >&2; exit 1; }
    seconds=$(awk -v t="$seconds" -v o="$start" 'BEGIN { printf "%.3f", (t > o ? t - o : 0.001) }')
    other_speed=$(speed "$(awk '{ for (k = 1; k <= NF; k++) sum += $k; printf "%.0f", sum }' <<< "$counts")" "$seconds")
    awk -v l="$list_speed" -v m="$made_speed" -v o="$other_speed" -v head="$(printf '%5d %12d %8.3f %11d %8.3f %11d %8.3f %11d' \
        "$depth" "$lines" "$list_seconds" "$list_speed" "$made_seconds" "$made_speed" "$seconds" "$other_speed")" \
        'BEGIN { printf "%s %8.3f %8.3f\n", head, l / o, m / o }'
done << 'POSITIONS'
rnbqkbnr/pppppppp/8/8/8/8/PPPPPPPP/RNBQKBNR w KQkq - 0 1;6
r3k2r/p1ppqpb1/bn2pnp1/3PN3/1p2P3/2N2Q1p/PPPBBPPP/R3K2R w KQkq - 0 1;5
8/2p5/3p4/KP5r/1R3p1k/8/4P1P1/8 w - - 0 1;7
r3k2r/Pppp1ppp/1b3nbN/nP6/BBP1P3/q4N2/Pp1P2PP/R2Q1RK1 w kq - 0 1;6
rnbq1k1r/pp1Pbppp/2p5/8/2B5/8/PPP1NnPP/RNBQK2R w KQ - 1 8;5
r4rk1/1pp1qppp/p1np1n2/2b1p1B1/2B1P1b1/P1NP1N2/1PP1QPPP/R4RK1 w - - 0 10;5
POSITIONS
