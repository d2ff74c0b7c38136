# sfbank: `make demo` builds the program and runs it on the examples; `make lib` builds the library for C; `make test`
# proves and tests everything; `make deb` makes a Debian package.

.PHONY: build lib demo test bench clean install install-lib uninstall deb deb-lib build/x86-64-v2/sfbank \
  build/x86-64-v2/libsfbank.a

# `make install` copies the program, its pages, its completions and the examples below DESTDIR and PREFIX, and the
# library for C if it is built.
PREFIX = /usr/local
# A program to install or to pack, and a library to install, instead of the built ones; `none` installs no library.
PROGRAM =
LIBRARY =
BIN = $(DESTDIR)$(PREFIX)/bin
MAN = $(DESTDIR)$(PREFIX)/share/man/man1
BASH = $(DESTDIR)$(PREFIX)/share/bash-completion/completions
ZSH = $(DESTDIR)$(PREFIX)/share/zsh/site-functions
FISH = $(DESTDIR)$(PREFIX)/share/fish/vendor_completions.d
DOC = $(DESTDIR)$(PREFIX)/share/doc/sfbank
LIB = $(DESTDIR)$(PREFIX)/lib
INCLUDE = $(DESTDIR)$(PREFIX)/include
VERSION = $(shell sed -n '1s/.*(\(.*\)).*/\1/p' packaging/debian/changelog)
# The pages for users, and their pictures.
PAGES = README.md docs/FAULTS.md docs/FINDINGS.md docs/FORMAT.md docs/LIBRARY.md docs/LISTING.md docs/LIVE.md \
  docs/NOTES.md docs/RECORDINGS.md docs/SCRIPT.md docs/SOUND.md docs/TUTORIAL.md docs/ocarina.svg docs/organ.svg \
  docs/plucks.svg

build:
	@scripts/build

lib:
	@scripts/build sfbank_c

demo: build
	@scripts/demo

test:
	@scripts/test

bench: build
	@scripts/bench

clean:
	@scripts/build --clean
	rm -rf build crates/*/out

install: $(or $(PROGRAM),build/sfbank) $(if $(filter-out none,$(or $(LIBRARY),$(wildcard build/libsfbank.a))),install-lib)
	install -D -m 755 "$<" "$(BIN)/sfbank"
	install -D -m 755 scripts/notes_of_midi "$(BIN)/sfbank-notes-of-midi"
	install -D -m 755 scripts/sfbank-keys "$(BIN)/sfbank-keys"
	install -D -m 644 docs/sfbank.1 "$(MAN)/sfbank.1"
	ln -sf sfbank.1 "$(MAN)/sfbank-notes-of-midi.1"
	ln -sf sfbank.1 "$(MAN)/sfbank-keys.1"
	install -D -m 644 completions/sfbank.bash "$(BASH)/sfbank"
	install -D -m 644 completions/_sfbank "$(ZSH)/_sfbank"
	install -D -m 644 completions/sfbank.fish "$(FISH)/sfbank.fish"
	install -d "$(DOC)/examples"
	install -m 644 $(PAGES) "$(DOC)"
	install -m 644 examples/*.* "$(DOC)/examples"

install-lib: $(or $(LIBRARY),build/libsfbank.a)
	install -D -m 644 "$<" "$(LIB)/libsfbank.a"
	install -D -m 644 c/sfbank.h "$(INCLUDE)/sfbank.h"
	install -D -m 644 c/sfbank.pc.in "$(LIB)/pkgconfig/sfbank.pc"
	sed -i 's|@PREFIX@|$(PREFIX)|; s|@VERSION@|$(VERSION)|' "$(LIB)/pkgconfig/sfbank.pc"

uninstall:
	rm -f "$(BIN)/sfbank" "$(BIN)/sfbank-notes-of-midi" "$(BIN)/sfbank-keys"
	rm -f "$(MAN)/sfbank.1" "$(MAN)/sfbank-notes-of-midi.1" "$(MAN)/sfbank-keys.1"
	rm -f "$(BASH)/sfbank" "$(ZSH)/_sfbank" "$(FISH)/sfbank.fish"
	rm -rf "$(DOC)"
	rm -f "$(LIB)/libsfbank.a" "$(INCLUDE)/sfbank.h" "$(LIB)/pkgconfig/sfbank.pc"

deb: $(or $(PROGRAM),build/x86-64-v2/sfbank)
	@scripts/deb "$<"

deb-lib: $(or $(LIBRARY),build/x86-64-v2/libsfbank.a)
	@scripts/deb --library "$<"

build/sfbank:
	@scripts/build

build/libsfbank.a:
	@scripts/build sfbank_c

# A package is for more processors than this one, so its program is not build/sfbank.
build/x86-64-v2/sfbank:
	@BUILD_FOLDER=build/x86-64-v2 CPU=x86-64-v2 scripts/build

build/x86-64-v2/libsfbank.a:
	@BUILD_FOLDER=build/x86-64-v2 CPU=x86-64-v2 scripts/build sfbank_c
