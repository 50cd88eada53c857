#!/bin/bash
# Checks the certificates of a report of `cha adjudicate --certs` or `cha position --certs`.
#
#   tools/check-report.sh [PROGRAM] < REPORT
#
# PROGRAM is the built cha (by default ./cha at the top, as `make` leaves it). Each certificate is put to `cha check`, and
# must be accepted for the position and the side that its block names: its first node has the FEN of the block, and its
# winner is the side of the line before it. Behind a line `dead from` there may be two certificates, White's and then Black's, of
# one earlier position. A line `unwinnable` with no certificate behind it counts as one that is not accepted, and so does a
# certificate that breaks off.
#
# It prints how many are accepted of how many, and before that the first that is not. The status is 0 where all are
# accepted, 1 where one is not, and 2 where PROGRAM cannot be run.
set -u
export LC_ALL=C
program=${1:-$(dirname "$0")/../cha}
[ -x "$(command -v "$program")" ] || { echo "no program: $program" >&2; exit 2; }

count=0 accepted=0 block='' fen='' side='' text='' early='' before=''

# count_one FAULT: counts a certificate, whose fault is empty where it is accepted
count_one() {
    [ -z "$1" ] || [ "$accepted" -lt "$count" ] || echo "${block:-no block}, ${side:-no side}: $1"
    [ -n "$1" ] || accepted=$((accepted + 1))
    count=$((count + 1)) side='' text=''
}

# position_of NODE: the FEN of a node's line, behind its kind and, for a leaf, the number of its sets
position_of() {
    local rest=${1#* }
    case $1 in leaf\ *) rest=${rest#* } ;; esac
    echo "$rest"
}

# fault: says what is wrong with the certificate in $text, and nothing where it is accepted
fault() {
    local lines first answer status
    mapfile -t lines <<< "$text"
    first=$(sed -n '/^nodes /{n;p;q;}' <<< "$text")
    [ "${lines[1]-}" = "winner ${side:0:1}" ] || { echo "for another side: ${lines[1]-}"; return; }
    [ "$(position_of "$first")" = "$fen" ] || { echo "of another position: $first"; return; }
    answer=$(printf %s "$text" | "$program" check)
    status=$?
    [ "$status $answer" = "0 accepted ${side:0:1}" ] || echo "${answer:-no answer}, status $status"
}

while IFS= read -r line; do
    if [ -n "$text" ]; then
        text+=$line$'\n'
        case $early$before in 'whitenodes '*) fen=$(position_of "$line") ;; esac
        before=$line
        if [ "$line" = end ]; then
            count_one "$(fault)"
            case $early in white) early=black ;; *) early='' ;; esac
        fi
    elif [ "$line" = 'cha-cert 2' ]; then
        [ -n "$side" ] || side=$early
        if [ -n "$side" ]; then text=$line$'\n'; else count_one 'a certificate of no verdict'; fi
    else
        [ -z "$side" ] || count_one 'no certificate'
        case $line in
            'game '* | 'position '*) block=$line fen='' early='' ;;
            'fen: '*) fen=${line#fen: } ;;
            'dead from: '*) fen='' early=white ;;
            'white: unwinnable' | 'black: unwinnable') side=${line%%:*} ;;
        esac
    fi
done
[ -z "$side" ] || count_one 'the report breaks off'
echo "accepted: $accepted of $count"
[ "$accepted" = "$count" ]
