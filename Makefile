# make            proves and builds the program, and leaves it as ./cha (half an hour or more the first time)
# make run        judges a sample: by ./cha where it is up to date, else by a build without proofs (a minute)
# make test       the whole gate: rt ci, and the tests of the library, the Python package, the page, the documents and the release
# make install    copies the program to PREFIX/bin (PREFIX=/usr/local), with the manual page and the completions, which it makes
# make lib        builds libcha.a and libcha.so; make install-lib copies them, the header and cha.pc
# make lib-test   runs both from C, under sanitizers, and from Python
# make rows-test  puts rows with known answers (rows/) to the program and to the library
# make join-test  cuts files of games apart, judges the pieces and joins their reports (tools/packages games)
# make wheel      builds Python's wheel, python/dist/cha-*.whl, with the library in it
# make data-test  tests the Python package: databases, tables, clusters, the wheel in a fresh environment (tools/packages data)
# make text-test  runs the command lines that the documents print, asks the completions for the options of the manual, and checks certificates of each kind
# make page       builds page/dist: the page in one file (also dist/cha.html), and the module for JavaScript; make page-test tests both
# make dist       makes a release in dist/; make dist-test uses it elsewhere, without the kit
PREFIX ?= /usr/local
PROGRAM = crates/cha_main/out/cha_main
SOURCES = HANDLES crates.txt $(shell find crates/*/src crates/*/specs crates/*/proofs -type f)

.PHONY: all run test install clean kit lib lib-test rows-test join-test install-lib wheel data-test text-test page page-test dist dist-test

all: cha

kit:
	@command -v rt >/dev/null 2>&1 || { echo "the Rattle kit is missing: its command 'rt' is not on the PATH" >&2; exit 2; }

cha: $(SOURCES) | kit
	@tools/prove.py cha_main
	@cd crates/cha_main && rt run -- position < /dev/null > /dev/null
	@cp $(PROGRAM) cha

run:
	@tools/run.sh

test: kit
	@tools/gate.py

# What is installed beside the program, from the usage that it prints.
BESIDE = made/cha.1

$(BESIDE): cha docs/cha.1.in tools/beside.py
	@tools/beside.py ./cha made

install: cha $(BESIDE)
	install -d $(DESTDIR)$(PREFIX)/bin
	install -m 755 cha $(DESTDIR)$(PREFIX)/bin/cha
	install -d $(DESTDIR)$(PREFIX)/share/man/man1 $(DESTDIR)$(PREFIX)/share/bash-completion/completions $(DESTDIR)$(PREFIX)/share/zsh/site-functions
	install -m 644 made/cha.1 $(DESTDIR)$(PREFIX)/share/man/man1/cha.1
	install -m 644 made/cha.bash $(DESTDIR)$(PREFIX)/share/bash-completion/completions/cha
	install -m 644 made/_cha $(DESTDIR)$(PREFIX)/share/zsh/site-functions/_cha

# The library's own code and the few lines of C by which it takes memory.
LIBRARY = crates/cha_c/out/libcha_c.a
HEAP = $(dir $(shell rt doc 2>/dev/null))c/liblibc_c.a

lib: libcha.a libcha.so

$(LIBRARY): $(SOURCES) | kit
	@tools/library.py cha_c

libcha.a: $(LIBRARY)
	@rm -f $@
	@printf 'create $@\naddlib $(LIBRARY)\naddlib $(HEAP)\nsave\nend\n' | $(AR) -M

libcha.so: $(LIBRARY)
	@$(CC) -shared -o $@ -Wl,--version-script=library/exports.map -Wl,--whole-archive $(LIBRARY) -Wl,--no-whole-archive $(HEAP)

lib-test: lib cha
	$(CC) -std=c11 -Wall -Wextra -g -fsanitize=address,undefined -Iinclude -Wl,--wrap=malloc,--wrap=realloc,--wrap=free -o library/test library/test.c libcha.a
	./library/test
	CHA_LIBRARY=./libcha.so python3 library/test.py ./cha $(FILES)
	CHA_LIBRARY=./libcha.so python3 library/mates.py

rows-test: lib cha
	CHA_LIBRARY=./libcha.so python3 rows/rows.py ./cha

join-test: lib
	CHA_LIBRARY=./libcha.so python3 library/closed.py

# Debian's packages for Python belong to its own interpreter.
PYTHON ?= /usr/bin/python3

wheel: lib
	@rm -rf python/build python/dist python/cha.egg-info
	$(PYTHON) -m pip wheel --quiet --disable-pip-version-check --no-index --no-deps --no-build-isolation --wheel-dir python/dist ./python
	@rm -rf python/build python/cha.egg-info

data-test: wheel
	cd python && PYTHONPATH=$(CURDIR)/python CHA_LIBRARY=$(CURDIR)/libcha.so timeout -k 20 900 $(PYTHON) -m pytest

text-test: cha $(BESIDE)
	tools/printed.py ./cha
	tools/beside.py --check made
	tools/certificates.sh ./cha
	tools/flowing.py ./cha
	tools/words.py
	tools/draw.py --check

# The module is made of the static library, whose proof it waits for; the page is the module and the files of web/.
MODULE = page/dist/cha.wasm
PAGE = page/dist/cha.html

page: $(PAGE)
	@cp web/cha.mjs web/cha.d.mts page/dist
	@mkdir -p dist && cp $(PAGE) dist

$(MODULE): $(LIBRARY) web/heap.c tools/page-module.py
	@tools/packages page
	@mkdir -p page/dist && echo '*' > page/.gitignore
	@tools/page-module.py cha_c $@

$(PAGE): $(MODULE) VERSION tools/page-build.py $(wildcard web/*.*)
	@tools/page-build.py $(MODULE) $@

page-test: page cha
	@tools/packages page
	timeout -k 20 900 tools/page-test.py ./cha $(FILES)

dist: cha lib
	tools/dist.sh

dist-test: dist
	tools/dist-test.sh

install-lib: lib
	install -d $(DESTDIR)$(PREFIX)/lib/pkgconfig $(DESTDIR)$(PREFIX)/include
	install -m 644 include/cha.h $(DESTDIR)$(PREFIX)/include/cha.h
	install -m 644 libcha.a $(DESTDIR)$(PREFIX)/lib/libcha.a
	install -m 755 libcha.so $(DESTDIR)$(PREFIX)/lib/libcha.so
	sed 's|@PREFIX@|$(PREFIX)|; s|@VERSION@|'$$(cat VERSION)'|' library/cha.pc.in > $(DESTDIR)$(PREFIX)/lib/pkgconfig/cha.pc

clean:
	rm -rf cha libcha.a libcha.so library/test made dist page python/dist crates/*/out
