# make demo     build what is needed, and report, repair and draw a sample net
# make test     prove every crate, build the library, run the Rust tests; the last line is 'N passed, M failed'
# make bench    the proved library against plain Rust, as ratios, and the stack that each call takes
#               BEFORE=COMMIT: against that commit's library too, if this kit builds it (a commit with tests/library)
# make fuzz     all five calls against the independent implementation under libFuzzer, for SECONDS (3600)
# make install  library, header, pkg-config file, programs and man pages under PREFIX (/usr/local)
#
# KIT=any with any of these takes another Rattle kit than the one that the file KIT names.

PREFIX ?= /usr/local
SECONDS ?= 3600
CARGO = cargo build --release --offline --locked --quiet --manifest-path
LIBRARY = target/staticlib/libantenna.a
COMMAND = command/target/release/antenna

.PHONY: help test demo bench fuzz install library programs tools

help:
	@sed -n '/^#/!q; s/^# \?//p' Makefile

test: tools
	@tests/run

demo: library
	@examples/demo

bench: library
	@bench/run $(BEFORE)

fuzz: library
	@tests/fuzz $(SECONDS)

# rt proves what has changed since it was last proved, and nothing else.
library: tools
	@mkdir -p target
	@echo "proving and building; the first time takes some minutes"
	@tests/library staticlib > target/library.log 2>&1 || { tail -n 30 target/library.log; exit 1; }
	@$(CARGO) command/Cargo.toml

programs: library
	@tests/library > target/programs.log 2>&1 || { tail -n 30 target/programs.log; exit 1; }

install: library programs
	@install -d $(DESTDIR)$(PREFIX)/include $(DESTDIR)$(PREFIX)/lib/pkgconfig $(DESTDIR)$(PREFIX)/bin
	@install -d $(DESTDIR)$(PREFIX)/share/man/man1 $(DESTDIR)$(PREFIX)/share/man/man3
	@install -m 644 include/antenna.h $(DESTDIR)$(PREFIX)/include
	@install -m 644 $(LIBRARY) $(DESTDIR)$(PREFIX)/lib
	@sed 's|@PREFIX@|$(PREFIX)|' include/antenna.pc > $(DESTDIR)$(PREFIX)/lib/pkgconfig/antenna.pc
	@install $(COMMAND) $(DESTDIR)$(PREFIX)/bin
	@install target/bin/report $(DESTDIR)$(PREFIX)/bin/antenna-report
	@install target/bin/repair $(DESTDIR)$(PREFIX)/bin/antenna-repair
	@install -m 644 docs/man/*.1 $(DESTDIR)$(PREFIX)/share/man/man1
	@install -m 644 docs/man/*.3 $(DESTDIR)$(PREFIX)/share/man/man3
	@echo "installed under $(DESTDIR)$(PREFIX)"

tools:
	@tests/tools
