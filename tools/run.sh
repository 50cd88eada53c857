#!/usr/bin/env bash
# Judges the sample: by the proved ./cha where it is there and no source is newer, else by a build that is compiled and not proved,
# with a check at run time of each index, sum and unwrap. Standard output is that of ./cha; standard error has a few lines more.
#
#     tools/run.sh [WORD ..] < INPUT        by default: adjudicate < docs/sample.pgn
set -u
cd "$(dirname "$0")/.." || exit 2
if [ $# -eq 0 ]; then
    set -- adjudicate
    exec < docs/sample.pgn
fi

if [ -x cha ] && [ -z "$(find HANDLES crates.txt crates/*/src crates/*/specs crates/*/proofs -type f -newer cha -print -quit)" ]; then
    exec ./cha "$@"
fi
if ! command -v rt > /dev/null; then
    echo "there is no proved ./cha, and the Rattle kit is missing: its command 'rt' is not on the PATH" >&2
    exit 2
fi

room=$(mktemp -d) || exit 2
ticks=
trap 'rm -rf "$room"; [ -z "$ticks" ] || kill "$ticks" 2> /dev/null' EXIT
echo "there is no proved ./cha of these sources: compiling the program without its proofs, which takes about a minute" >&2
if [ -t 2 ]; then
    while sleep 5; do printf '\r%d s' "$SECONDS" >&2; done &
    ticks=$!
fi
(cd crates/cha_main && exec rt try -- "$@") > "$room/out" 2> "$room/err"
status=$?
if [ -n "$ticks" ]; then
    kill "$ticks"
    ticks=
    printf '\r        \r' >&2
fi
cat "$room/out"
# what the program said, without the last lines, in which the kit tells how the run ended
if grep -q '^run=ended' "$room/err"; then
    grep -v -e '^checked: ' -e '^races: ' -e '^run=ended' "$room/err" >&2
else
    cat "$room/err" >&2
    exit 2
fi
echo "This build is compiled and not proved. 'make' proves it and leaves ./cha: that takes half an hour or more on four processors." >&2
exit $status
