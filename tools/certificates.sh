#!/usr/bin/env bash
# Puts the certificates of a report with each kind of node to `cha check`. The kinds are those that the manual lists, and the positions those
# of the known rows in which certificates are printed.
#
#     tools/certificates.sh PROGRAM
#
# It prints how many certificates are accepted, and ends with 0 where all are, and each kind of node was there.
set -euo pipefail
top=$(dirname "$0")/..
kinds=$(sed -n 's/^- `\([a-z]*\) .*FEN`: .*/\1/p' "$top/docs/MANUAL.md")
[ -n "$kinds" ] || { echo "no kinds of nodes in the manual" >&2; exit 1; }
asked='/^\$ / { is_asked = /^\$ cha position --certs$/ } is_asked && sub(/^< /, "") { sub(/\\$/, ""); print }'
report=$(awk "$asked" "$top/rows/runs/certificates.txt" | "$1" position --certs; "$1" adjudicate --certs < "$top/docs/sample.pgn")
for kind in $kinds; do
    grep -q "^$kind " <<< "$report" || { echo "no node of the kind $kind" >&2; exit 1; }
done
"$top/tools/check-report.sh" "$1" <<< "$report"
echo "1 passed, 0 failed"
