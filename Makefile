# `make demo` and `make test` run the program and its tests, unproved, in minutes. `make` proves the program and builds it;
# `make prove` is the gate. All want the Rattle toolchain (`rt` on the PATH) and nothing else.

PREFIX ?= /usr/local
EXAMPLE ?= examples/two_rooms.txt
DOC = $(PREFIX)/share/doc/leveled
BASH = $(PREFIX)/share/bash-completion/completions
ZSH = $(PREFIX)/share/zsh/vendor-completions
FISH = $(PREFIX)/share/fish/vendor_completions.d

.PHONY: all demo test prove stress install uninstall package package-test clean distclean

# proves the crates side by side; bin/leveled is made only once it and all that it stands on are proved
all:
	scripts/prove

# an example drawn, checked, built and inspected, each command beside its answer; unproved where bin/leveled isn't made yet
demo:
	scripts/demo $(EXAMPLE)

# every test, and the program on real files, unproved, with every access and sum checked as it runs
test:
	scripts/kit
	scripts/house
	scripts/unused
	scripts/pages
	scripts/test

# the gate: every proof from nothing, the wrong bodies, the tests proved and run, the programs as two compilers build them
prove:
	scripts/gate

# what takes too long for the gate: kills at any moment, edits at once, a full disk at each call, damaged projects and PWADs,
# projects drawn again from their dumps, trees of maps just at each limit and just above it, and each allocation refused in
# turn; before them the proved program runs on real files, as the unproved one does in `make test`
stress: all
	scripts/edge bin/leveled
	bench/stops bin/leveled 200
	bench/full bin/leveled
	bench/damage bin/leveled
	bench/round bin/leveled
	bench/areas bin/leveled
	bench/hostile bin/leveled
	bench/limits
	bench/memory

# the program, its manual page, completion for three shells, and what a user reads and runs; nothing is proved or built here
install:
	@test -x bin/leveled || { echo 'There is no bin/leveled: make comes first.' >&2; exit 1; }
	install -d $(DESTDIR)$(PREFIX)/bin $(DESTDIR)$(PREFIX)/share/man/man1 $(DESTDIR)$(DOC)/examples
	install -m 755 bin/leveled $(DESTDIR)$(PREFIX)/bin/leveled
	install -m 644 docs/leveled.1 $(DESTDIR)$(PREFIX)/share/man/man1/leveled.1
	install -D -m 644 completion/leveled.bash $(DESTDIR)$(BASH)/leveled
	install -D -m 644 completion/_leveled $(DESTDIR)$(ZSH)/_leveled
	install -D -m 644 completion/leveled.fish $(DESTDIR)$(FISH)/leveled.fish
	install -m 644 README.md LICENSE CHANGELOG.md docs/COMMANDS.md docs/FIRST_LEVEL.md docs/FORMAT.md $(DESTDIR)$(DOC)
	install -m 644 examples/* $(DESTDIR)$(DOC)/examples

uninstall:
	rm -f $(DESTDIR)$(PREFIX)/bin/leveled $(DESTDIR)$(PREFIX)/share/man/man1/leveled.1
	rm -f $(DESTDIR)$(BASH)/leveled $(DESTDIR)$(ZSH)/_leveled $(DESTDIR)$(FISH)/leveled.fish
	rm -rf $(DESTDIR)$(DOC)

# a Debian package and a plain archive of bin/leveled, in bin/
package:
	scripts/package

# installs both into clean folders, runs them there and removes them
package-test:
	scripts/package-test

# what was proved stays kept, so that the next build is quick
clean:
	rm -rf bin

distclean: clean
	rm -rf crates/*/out
