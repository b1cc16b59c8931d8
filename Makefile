# make            builds bin/zebraidx, which proves it first: half an hour or more the first time, on four processors; later what changed
# make try        runs the first example interpreted, with nothing proved, in some two minutes: SCRIPT=file for a script of your own
# make run        runs the first example with the program, proved and built
# make quick      the daily check: layout, edits, names, pages, and the proofs of the crates that changed
# make check      the gate: every proof, every test and the edits of must-fail/; some hours of processor time where nothing passed before
# make words      runs the built program by words over folders and altered registers, installs it and moves to it from Zebra; installs lowdown, yaz, idzebra-2.0
# make session    runs the session of README.md as it stands there; installs Debian's yaz and idzebra-2.0-examples where they aren't there
# make real       takes in real records and compares what is found in them with another count; installs the same packages
# make examples   proves and builds a small caller of the engine as a library
# make hostile    runs the built program on the greatest inputs, with each call failing in turn, and on scripts and tables drawn by lot: SECONDS=3600 for longer runs
# make allocations  refuses each allocation of the tests that are made for it, one a run; proves and links those tests where they aren't there
# make edits      tries the wrong bodies of edits/ too: CRATE=zeb_marc for one crate, EDIT=crates/zeb_marc/edits/no_units.edit for one
# make cost       the gate, with the processor minutes of each crate written into docs/TESTING.md
# make bench      times of the register's calls and of an update's statements, and how commands grow: RECORDS=1000 for fewer than 10,000
# make bench-zebra  this program beside Zebra, in times and in hits; installs Debian's idzebra-2.0: RECORDS=10000 for more than 2,000
# make bench-larger  100,000 records in one register, 10,000 in a command: updates, openings and sizes; RECORDS=20000 for fewer
# make man        the manual pages in bin/man, from docs/MANUAL.md and VERSION; installs Debian's lowdown where it isn't there
# make install    PREFIX=/usr/local NAME=zebraidx: the program, its manual and pages, examples, completions of bash and zsh; make uninstall takes them away
# make dist       the same in an archive, bin/zebraidx-VERSION-MACHINE.tar.gz, for machines without the toolchain
# make clean      removes what these made
PREFIX ?= /usr/local
# What the program is called where it is installed. Debian's idzebra-2.0-utils has a zebraidx too.
NAME ?= zebraidx
# Where the installed pages say that they are: below PREFIX, and in an archive where it is to be unpacked.
SHOWN ?= $(PREFIX)
SCRIPT ?= examples/whale.script
SOURCES := crates.txt $(wildcard crates/*/src/*.rt crates/*/src/*/*.rt crates/*/specs/*.antt crates/*/specs/*/*.antt)

.PHONY: all help try run quick check words session real examples hostile allocations edits cost bench bench-zebra bench-larger man install uninstall dist clean
all: bin/zebraidx

help:
	@sed -n 's/^# make/make/p' $(firstword $(MAKEFILE_LIST))

NEEDS_RT = @command -v rt >/dev/null || { echo "make: the Rattle toolchain's command rt is not on the PATH" >&2; exit 1; }

# A build is a proof first: the toolchain builds no function that it has not proved.
bin/zebraidx: $(SOURCES)
	$(NEEDS_RT)
	@tools/build $@

try:
	$(NEEDS_RT)
	@test -r "$(SCRIPT)" || { echo "make: $(SCRIPT) can't be read" >&2; exit 1; }
	@echo "running $(SCRIPT) interpreted; nothing is proved yet. It says nothing for some two minutes, and then what the script answers." >&2
	@script=$$(realpath "$(SCRIPT)") && cd crates/zebraidx && rt try <"$$script"

run: bin/zebraidx
	@bin/zebraidx <examples/whale.script

quick:
	@tools/quick

# tools/gate proves and tries all, by a plan that keeps the processors busy, where the toolchain keeps that; the verdict is that of `rt ci` alone,
# which takes over what passed there and tries the rest.
check cost: export RT_JOBS ?= $(shell nproc)
check:
	tools/quick --texts
	-tools/gate
	rt ci

words: bin/zebraidx
	@tests/words/run
	@tests/words/run --leaves
	@tests/words/finds
	@tests/words/finds --leaves
	@tests/words/registers
	@tests/words/folders
	@tests/words/faults
	@tests/words/nightly
	@tests/words/install
	@tests/words/from_zebra
	@tests/words/front_end
	@tests/words/one_file
	@tests/words/leaves
	@tests/words/one_file --leaves
	@tests/words/causes

session: bin/zebraidx
	@tests/words/session

real: bin/zebraidx
	@tests/real/run

examples:
	@tools/build small_catalogue

hostile: bin/zebraidx
	@tests/hostile/greatest
	@tests/hostile/greatest --leaves
	@tests/hostile/failing_calls
	@tests/hostile/failing_calls --leaves
	@tests/hostile/drawn --seconds $(or $(SECONDS),60)
	@tests/hostile/drawn --leaves --seconds $(or $(SECONDS),60)
	@tests/hostile/drawn_tables $(if $(SECONDS),--seconds $(SECONDS))
	@tests/hostile/drawn_tables --leaves $(if $(SECONDS),--seconds $(SECONDS))

allocations:
	@tests/each_allocation.py

edits:
	@tools/edits $(CRATE) $(EDIT)

cost:
	@tools/cost --write

bench: bin/zebraidx
	bench/registers
	bench/statements
	bench/growth $(RECORDS)

bench-zebra: bin/zebraidx
	@bench/zebra $(RECORDS)

bench-larger: bin/zebraidx
	@bench/larger $(RECORDS)

man:
	@tools/man bin/man $(NAME) $(SHOWN)/share/doc/$(NAME)

DOC = $(DESTDIR)$(PREFIX)/share/doc/$(NAME)
MAN = $(DESTDIR)$(PREFIX)/share/man
BASH_COMPLETION = $(DESTDIR)$(PREFIX)/share/bash-completion/completions/$(NAME)
ZSH_COMPLETION = $(DESTDIR)$(PREFIX)/share/zsh/site-functions/_$(NAME)

# A page as it is installed: the examples stand beside it, and what measures is in the source alone.
PLACED = sed -E -e 's,/usr/local/share/doc/zebraidx([^-]|$$),$(SHOWN)/share/doc/$(NAME)\1,g' -e 's,\]\(\.\./examples/,](examples/,g' \
  -e 's,\[([^]]*)\]\(\.\./bench/[^)]*\),`\1` of the source,g'

install: bin/zebraidx man
	install -D -m 755 bin/zebraidx $(DESTDIR)$(PREFIX)/bin/$(NAME)
	install -D -m 644 bin/man/$(NAME).1 $(MAN)/man1/$(NAME).1
	install -D -m 644 bin/man/$(NAME).cfg.5 $(MAN)/man5/$(NAME).cfg.5
	install -D -m 644 -t $(DOC) LICENSE VERSION
	$(PLACED) docs/MANUAL.md >$(DOC)/MANUAL.md
	$(PLACED) docs/ZEBRA.md >$(DOC)/ZEBRA.md
	install -D -m 644 -t $(DOC)/examples examples/*.*
	install -D -m 755 -t $(DOC)/examples examples/nightly examples/sort-records examples/front-end
	$(PLACED) examples/nightly >$(DOC)/examples/nightly
	install -d $(dir $(BASH_COMPLETION)) $(dir $(ZSH_COMPLETION))
	sed 's/^\(complete .*\) zebraidx$$/\1 $(NAME)/' completions/zebraidx.bash >$(BASH_COMPLETION)
	sed '1s/zebraidx/$(NAME)/' completions/_zebraidx >$(ZSH_COMPLETION)

uninstall:
	rm -f $(DESTDIR)$(PREFIX)/bin/$(NAME) $(MAN)/man1/$(NAME).1 $(MAN)/man5/$(NAME).cfg.5
	rm -f $(BASH_COMPLETION) $(ZSH_COMPLETION)
	rm -rf $(DOC)

# What install puts below PREFIX, in one folder of an archive. The manual's section "Installation" unpacks it.
DIST = zebraidx-$(shell cat VERSION)-$(shell uname -m)
dist:
	rm -rf bin/dist
	$(MAKE) --no-print-directory install DESTDIR=bin/dist PREFIX=/$(DIST) SHOWN=/usr/local
	tar -czf bin/$(DIST).tar.gz -C bin/dist $(DIST)
	rm -rf bin/dist

clean:
	rm -rf bin crates/*/out
