#!/bin/bash
# Has the second program judge the whole report of `cha` on positions, every printed line and certificate among it, and compares
# their answers on every certificate that it printed, and on each of these certificates with a fault put into it.
#
#   tools/second/compare.sh [PROGRAM] [POSITIONS.fen]
#
# PROGRAM is the built cha (./cha, which `make` leaves there). Without a file of positions, 200 random ones are taken.
# The status is 0 where the report is right and all answers agree.
set -eu
here=$(dirname "$(readlink -f "$0")")
program=$(readlink -f "${1:-$here/../../cha}")
work=$(mktemp -d)
trap 'rm -rf "$work"' EXIT
if [ $# -ge 2 ]; then cp "$2" "$work/fen"; else python3 "$here/walls.py" 200 1 > "$work/fen"; fi

"$program" position --certs < "$work/fen" > "$work/ours"
python3 "$here/second.py" judge "$work/ours" < "$work/fen"

# agree FILE: the answer of both programs on a certificate
agree() {
    ours=$("$program" check < "$1" 2>&1) || true
    theirs=$(python3 "$here/second.py" check < "$1") || true
    [ "$ours" = "$theirs" ] || { echo "cha: $ours, the second program: $theirs, on"; cat "$1"; exit 1; }
}

mkdir "$work/certs"
awk -v dir="$work/certs" '/^cha-cert 2$/ { n += 1; open = 1 } open { print > (dir "/" n) } /^end$/ { open = 0; close(dir "/" n) }' "$work/ours"
accepted=0 damaged=0 refused=0
for cert in "$work"/certs/*; do
    [ -e "$cert" ] || break
    agree "$cert"
    [ "$ours" = "accepted $(sed -n 's/^winner //p' "$cert")" ] || { echo "$ours:"; cat "$cert"; exit 1; }
    accepted=$((accepted + 1))
    for seed in 1 2 3; do
        damaged=$((damaged + 1))
        python3 "$here/damage.py" "$accepted$seed" < "$cert" > "$work/bad"
        agree "$work/bad"
        case $ours in refused*) refused=$((refused + 1)) ;; esac
    done
done
echo "certificates: $accepted, all accepted by both; with a fault: $damaged, of which both refuse the same $refused"
