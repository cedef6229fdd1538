# make            makes sure that there is a proved program: that of dist/, or else one that is proved and built here
# make test       all tests that need no proof
# make prove      proves all from nothing, builds, and compares with dist/
# make dist       writes dist/ of what is proved and built here
# make install    puts the script, the program, the man page and the completions below PREFIX
PREFIX ?= /usr/local
DESTDIR ?=
# what is installed; if nothing is said, the program of dist/ if its sources are those here, else the one that is proved here
PROGRAM ?=

all:
	@tools/build/program --proved >/dev/null 2>&1 || tools/build/first-build

test:
	@tests/run.py

prove:
	tools/build/dist --prove

dist:
	tools/build/dist

# The script finds the program and what else it reads from its own place, so that the tree can be moved.
install:
	@program="$(PROGRAM)"; [ -n "$$program" ] || program=$$(tools/build/program --proved) || exit 1; \
	install -D -m 755 "$$program" "$(DESTDIR)$(PREFIX)/libexec/gemzulat/quorum_cli"
	install -D -m 755 quorum_cli "$(DESTDIR)$(PREFIX)/bin/quorum_cli"
	install -d "$(DESTDIR)$(PREFIX)/share/gemzulat"
	install -m 644 VERSION share/script/commands share/script/organisations.bash share/script/organisations.py share/script/watch.bash share/script/words.bash "$(DESTDIR)$(PREFIX)/share/gemzulat"
	install -D -m 644 share/quorum_cli.1 "$(DESTDIR)$(PREFIX)/share/man/man1/quorum_cli.1"
	install -D -m 644 share/quorum_cli.bash "$(DESTDIR)$(PREFIX)/share/bash-completion/completions/quorum_cli"
	install -D -m 644 share/_quorum_cli "$(DESTDIR)$(PREFIX)/share/zsh/site-functions/_quorum_cli"
	install -D -m 644 share/quorum_cli.fish "$(DESTDIR)$(PREFIX)/share/fish/vendor_completions.d/quorum_cli.fish"

.PHONY: all test prove dist install
