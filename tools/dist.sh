#!/usr/bin/env bash
# Makes a release in dist/ of what `make` and `make lib` have built: a tar for this kind of machine with program, manual page,
# completions, library, header, documents, the second checker of certificates, and licence; with Python's wheel and the page, where those
# are made (python/dist, page/dist); and the checksums of all.
#
#     tools/dist.sh         `make dist` calls it, behind what it stands on
set -eu
cd "$(dirname "$0")/.."
version=$(cat VERSION)
[ "$(./cha --version 2>&1 < /dev/null | head -1)" = "cha $version" ] || { echo "./cha and the file VERSION name different versions" >&2; exit 1; }
commit=$(git rev-parse --short=12 HEAD 2> /dev/null || echo unknown)
[ -z "$(git status --porcelain 2> /dev/null)" ] || commit="$commit, with changes"
name=cha-$version-$(uname -m)-$(uname -s | tr '[:upper:]' '[:lower:]')

rm -rf dist
mkdir -p dist
room=$(mktemp -d)
trap 'rm -rf "$room"' EXIT
make --no-print-directory install install-lib DESTDIR="$room/$name" PREFIX=/ > /dev/null
sed -i 's|^prefix=.*|prefix=${pcfiledir}/../..|' "$room/$name/lib/pkgconfig/cha.pc"
# The documents stand as in the repository, since they name each other so.
documents=$room/$name/share/doc/cha
install -d "$documents/docs" "$documents/python" "$documents/web" "$documents/tools/second"
install -m 644 README.md CHANGELOG.md CONTRIBUTING.md "$documents"
install -m 644 docs/*.md docs/*.svg docs/sample.pgn "$documents/docs"
install -m 644 python/README.md "$documents/python"
install -m 644 web/README.md web/page.png "$documents/web"
install -m 755 tools/check-report.sh "$documents/tools"
install -m 644 tools/second/{board,lone,sets,small}.py "$documents/tools/second"
install -m 755 tools/second/second.py "$documents/tools/second"
install -m 644 LICENSE "$room/$name"
needed=$(objdump -T "$room/$name/bin/cha" "$room/$name/lib/libcha.so" | grep -o 'GLIBC_[0-9.]*' | sort -Vu | tail -1 | tr _ ' ')
cat > "$room/$name/README.txt" << NOTE
cha $version for Linux on $(uname -m). It needs the system's C library alone, $needed or newer, and neither the Rattle kit nor a network.

    bin/cha adjudicate < share/doc/cha/docs/sample.pgn     judges a game
    sudo cp -r bin include lib share /usr/local            installs all of it

bin, share/man      the program and its manual page; share also has completions for bash and zsh
include, lib        the library for C: share/doc/cha/docs/LIBRARY.md
share/doc/cha       README.md and all documents. What they say of 'make' is for the repository, and './cha' is bin/cha here. The documents,
                    the sample and the second checker stand in this folder under the names that they give
PROVED.txt          what was proved, and by which toolchain

What may lie beside this archive: cha-*.whl, the package for Python (share/doc/cha/python/README.md); cha.html, the page, to be opened in a
browser; cha.wasm, cha.mjs and cha.d.mts, the module for JavaScript (share/doc/cha/web/README.md); and SHA256SUMS, which has the checksums of
all: sha256sum -c SHA256SUMS
NOTE
cat > "$room/$name/PROVED.txt" << NOTE
cha $version, commit $commit

Program and library are built from crates of which each function was proved, by
$(rt version)
What is proved, crate by crate and with the contract that carries it, is in share/doc/cha/docs/PROVED.md. The proofs rest on the definitions
that the contracts cite, on that toolchain and the contracts of the libraries it uses, and on the C library and the compiler behind them.
NOTE
tar -C "$room" --sort=name --owner=0 --group=0 --numeric-owner --mtime="@$(git log -1 --format=%ct 2> /dev/null || date +%s)" -cf - "$name" | gzip -n > "dist/$name.tar.gz"
for made in python/dist/*.whl page/dist/*; do
    [ -e "$made" ] || continue
    if [ "$made" -ot libcha.so ] && [[ $made == *.whl || $made == *.wasm ]]; then
        echo "$made is older than the library: 'make wheel page' builds both anew" >&2
        exit 1
    fi
    cp -r "$made" dist/
done
(cd dist && find . -type f ! -name SHA256SUMS -printf '%P\0' | sort -z | xargs -0 sha256sum > SHA256SUMS)
cat dist/SHA256SUMS
