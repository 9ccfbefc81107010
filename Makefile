# Builds and installs the program. `rt ci` is the gate, and needs no make.
#
#     make build                      proves and builds the program, and solves a first deck
#     make install PREFIX=$HOME/.local
#     make outputs                    compares what the documents show with what the program writes

# How many crates are proved side by side.
JOBS = 4
PREFIX = /usr/local
DESTDIR =
PROGRAM = crates/umpire_main/out/umpire_main
FIRST_DECK = $(CURDIR)/examples/two_columns.mps
COMMIT = $(shell git rev-parse --short=12 HEAD 2>/dev/null || echo unknown)

.PHONY: build install uninstall outputs

build:
	rt all check --jobs $(JOBS)
	cd crates/umpire_main && rt run -- solve "$(FIRST_DECK)"

install: $(PROGRAM)
	install -d "$(DESTDIR)$(PREFIX)/bin"
	install -d "$(DESTDIR)$(PREFIX)/share/man/man1"
	install -d "$(DESTDIR)$(PREFIX)/share/bash-completion/completions"
	install -m 755 "$(PROGRAM)" "$(DESTDIR)$(PREFIX)/bin/umpire"
	sed 's/@COMMIT@/$(COMMIT)/g' docs/umpire.1 > "$(DESTDIR)$(PREFIX)/share/man/man1/umpire.1"
	chmod 644 "$(DESTDIR)$(PREFIX)/share/man/man1/umpire.1"
	install -m 644 docs/completion.bash "$(DESTDIR)$(PREFIX)/share/bash-completion/completions/umpire"

uninstall:
	rm -f "$(DESTDIR)$(PREFIX)/bin/umpire"
	rm -f "$(DESTDIR)$(PREFIX)/share/man/man1/umpire.1"
	rm -f "$(DESTDIR)$(PREFIX)/share/bash-completion/completions/umpire"

outputs: $(PROGRAM)
	docs/outputs.sh "$(PROGRAM)"

$(PROGRAM):
	@echo 'the program is not built: make build' >&2; exit 1
