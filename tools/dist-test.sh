#!/usr/bin/env bash
# Unpacks the release in dist/ elsewhere and uses it without the kit: the checksums hold, the program judges the sample as ./cha does and
# tells the version, the manual page, the completions and what the README names are there, the second checker accepts a certificate of
# the program's, and a program in C that is linked with the library runs.
#
#     tools/dist-test.sh    its last line is 'N passed, M failed'; the status is 0 where none failed
set -u
cd "$(dirname "$0")/.." || exit 2
top=$PWD version=$(cat VERSION)
room=$(mktemp -d) || exit 2
trap 'rm -rf "$room"' EXIT
passed=0 failed=0

try() {
    if "${@:2}"; then passed=$((passed + 1)); else failed=$((failed + 1)) && echo "not so: $1"; fi
}

judges_the_sample() {
    env -i PATH=/nowhere "$room"/cha/bin/cha adjudicate < docs/sample.pgn > "$room/of-release" && ./cha adjudicate < docs/sample.pgn | cmp -s - "$room/of-release"
}

has_what_it_names() {
    local name
    for name in $(grep -oE '`(docs|python|web|tools)/[^` ]*|CONTRIBUTING\.md' README.md | tr -d '`' | grep -vE '^tools/(run\.sh|definitions\.py)$'); do
        [ -e "$room/cha/share/doc/cha/$name" ] || { echo "no $name"; return 1; }
    done
}

is_believed() {
    echo '8/8/8/4k3/8/8/8/4KB2 w - -' | "$room"/cha/bin/cha position --certs | sed -n '/^white: unw/,/^end$/p' | sed 1d \
        | python3 "$room/cha/share/doc/cha/tools/second/second.py" check | grep -qx 'accepted w'
}

links_with_c() {
    cat > "$room/example.c" << 'CODE'
#include "cha.h"
#include <stdio.h>
#include <string.h>

int main(void) {
    const char *line = "8/8/8/4k3/8/8/8/4KB2 w - -";
    uint8_t out[4096];
    size_t used;
    uint8_t answer = cha_run((const uint8_t *)"position", 8, (const uint8_t *)line, strlen(line), out, sizeof out, &used);
    fwrite(out, 1, used, stdout);
    return answer;
}
CODE
    cc -I"$room/cha/include" -o "$room/example" "$room/example.c" "$room/cha/lib/libcha.a" && "$room/example" | grep -qx 'status: dead'
}

try 'the checksums hold' sh -c 'cd dist && sha256sum --quiet -c SHA256SUMS'
mkdir "$room/cha" && tar -xzf dist/cha-"$version"-*.tar.gz -C "$room/cha" --strip-components=1
try 'the program judges the sample as ./cha does' judges_the_sample
try 'it tells the version' sh -c "'$room'/cha/bin/cha --version 2>&1 < /dev/null | grep -qx 'cha $version'"
for file in LICENSE README.txt PROVED.txt share/man/man1/cha.1 share/bash-completion/completions/cha share/zsh/site-functions/_cha include/cha.h lib/libcha.so lib/pkgconfig/cha.pc; do
    try "the release has $file" test -s "$room/cha/$file"
done
try 'the release has what its README names' has_what_it_names
try 'the second checker accepts a certificate of its program' is_believed
try 'a program in C that is linked with it runs' links_with_c
cd "$top" || exit 2
echo "$passed passed, $failed failed"
[ "$failed" -eq 0 ]
