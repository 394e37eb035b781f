# The commands of the repository. Each but `test` and `quick-test` needs the toolchain alone, and these Python 3 beside it.

.PHONY: help quick demo build install check quick-test test oracles wrong-bodies fmt bench clean

# What there is.
help:
	@echo "make quick         builds the program without its proofs, at out/ug_main-unproved (some minutes)"
	@echo "make demo          runs an example by what was built, or else by make quick; NAME=route-reflector, route-server or spine"
	@echo "make build         proves the program and leaves it at out/ug_main (an hour and more, but not behind make test)"
	@echo "make install       installs the proved program and its manual page below PREFIX=/usr/local"
	@echo "make check         proves the crates that changed since the last commit, and what they stand on"
	@echo "make fmt           formats the sources"
	@echo "make quick-test    tries all cases and scripts by the program without its proofs (ten to fifteen minutes)"
	@echo "make test          the gate: proves and tests everything"
	@echo "make oracles       proves the plain, slow programs with which fast ones are compared (half an hour)"
	@echo "make wrong-bodies  tries all wrong bodies, or those of the crates in CRATES (an hour or two)"
	@echo "make bench         measures the program, proved"
	@echo "make clean         removes what was built"

# Builds the program without its proofs, where that of the last time is older than the code.
quick: out/ug_main-unproved

out/ug_main-unproved: crates.txt HANDLES $(shell find crates -path '*/src/*.rt')
	tests/quick.sh

# Runs an example by what was built, the proved program first. Of `first` it shows the report and the bytes of the session; of
# one of examples/configurations (make demo NAME=route-server) the report and then what each session leaves at its receiver.
NAME = first
demo: $(firstword $(wildcard out/ug_main) out/ug_main-unproved)
	examples/demo.sh $(NAME) $<

# Leaves the proved program at out/ug_main: the one that the gate proved, where no source changed since, or else it proves what
# the program stands on, and runs it once.
build:
	@mkdir -p out/build
	@if [ -x crates/ug_main/out/ug_main ] && [ -z "$$(find crates.txt HANDLES crates -path '*/out' -prune -o -type f -newer crates/ug_main/out/ug_main -print | head -n 1)" ]; then \
		echo "crates/ug_main/out/ug_main was proved, and no source has changed since"; \
	else \
		cd crates/ug_main && rt run -- one data/events.txt ../../out/build; \
	fi
	cp crates/ug_main/out/ug_main out/ug_main

# Installs the proved program, which make build or make test left, and its manual page.
PREFIX = /usr/local
install: out/ug_main.1
	@[ -x out/ug_main ] || { echo "make build first"; exit 1; }
	install -D -m 755 out/ug_main $(DESTDIR)$(PREFIX)/bin/ug_main
	install -D -m 644 out/ug_main.1 $(DESTDIR)$(PREFIX)/share/man/man1/ug_main.1

out/ug_main.1: docs/man/page.sh docs/man/ug_main.1.in README.md CHANGELOG.md docs/RUNNING.md
	@mkdir -p out
	docs/man/page.sh > $@

# Proves and tries the crates that changed since the last commit.
check:
	@changed=$$(git status --porcelain -- crates | sed -E 's#^.. ("?crates/[^>]*-> )?"?crates/([^/]*)/.*#\2#' | sort -u | while read -r c; do [ -d "crates/$$c/src" ] && echo "$$c"; done); \
	for crate in $$changed; do (cd "crates/$$crate" && rt check) || exit 1; done; \
	if [ -n "$$changed" ]; then rt must-fail $$changed; else echo "no crate changed"; fi

# Tries all cases and scripts by the program without its proofs.
quick-test: quick
	tests/quick-test.sh

# Proves and tests everything.
test:
	.ci/run

# Proves the oracles and their tests, which the gate runs unproved.
oracles:
	tests/oracles.sh prove

# Tries all wrong bodies, also those that the gate passes over, or those of the crates in CRATES, several in one check.
# It takes an hour or two, and wants Python 3.
wrong-bodies:
	tests/wrong-bodies.sh $(CRATES)

# Formats the sources.
fmt:
	rt fmt

# Measures the program, proved.
bench: build
	bench/one.sh
	bench/check.sh

clean:
	rm -rf out crates/*/out
