# Short names for the project's commands, and installing the program.

PREFIX = /usr/local
program = crates/pgcopy/out/pgcopy
bin = $(DESTDIR)$(PREFIX)/bin
man1 = $(DESTDIR)$(PREFIX)/share/man/man1

.PHONY: build test bench program-test memory-test postgres-test baseline-test install uninstall

build:
	./pgcopy --build

$(program):
	./pgcopy --build

test:
	rt ci

bench:
	bench/run

program-test:
	tests/program/run

memory-test:
	tests/memory/run

postgres-test:
	tests/postgres/run

baseline-test:
	tests/baseline/run

install: $(program)
	install -D -m 755 $(program) "$(bin)/pgcopy"
	install -D -m 644 docs/pgcopy.1 "$(man1)/pgcopy.1"

uninstall:
	rm -f "$(bin)/pgcopy" "$(man1)/pgcopy.1"
