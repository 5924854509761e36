# make            builds the proved program as bin/cue2schema
# make run        builds it and runs it on examples/port.cue
# make try        runs the program from its sources without the proofs, in about a minute, or at once behind `make test`: on
#                 examples/port.cue, or as make try ARGS="vet --root '#P' --doc d.json port.cue"
# make test       all tests without a proof, in six minutes: that program on all cases, the tests of calls, and whether the pages of
#                 docs/ say what is in the code
# make prove      every proof from nothing, the mistakes of edits/GATE, which the prover must refuse, and the proved program on all cases
# make cases      the proved program on all cases: those of cases/, the packages of examples/, what the pages for users show, what needs
#                 pipes, rights or special files, and how many faults of ordinary CUE `check` tells
# make examples   the packages of examples/ alone: their schemas, verdicts and reasons, and what their pages show
# make edits      the mistakes of edits/ in the crates that differ from what landed last: from the commit where this branch left the one
#                 that it tracks, or from SINCE=REV; CRATES="cs_x cs_y" for those of some crates, ALL=1 for all
# make memory     runs each command, and each step from bytes to a file or a document, with each of its growths of memory refused
#                 in turn; a minute, once the programs are built
# make hostile    runs the program on deep, long, wide and doubling inputs within a stack of 8 MiB and 1 GiB of memory, and says the
#                 time and the memory of each; two minutes
# make bench      times the lexer and the parser on 1 MiB of source in four shapes each, packages at their limits, documents
#                 of 50 MB and the largest table, and says how much memory the last two take; then whole runs of `vet`
#                 and `validate` against few and many rules, with what a judgement takes beyond reading on small, medium
#                 and large ones, of `export` near the limits of packages, of `vet --lines` over 1,000,000 lines, of `--why`
#                 beside the verdict alone, and of `compare` and `samples` on large packages; and at its end the table of
#                 docs/PERFORMANCE.md
# make man        writes the manual pages, cue2schema(1) and cue2schema-refusals(7), from docs/ into bin/man, and prints what groff has
#                 against them, where there is one: man -M bin/man cue2schema shows them
# make install    copies the program to $(PREFIX)/bin and its manual pages to $(PREFIX)/share/man
# make dist       packs the program with its pages and examples as dist/cue2schema-VERSION-linux-x86_64.tar.gz
# make deb        packs it as a package of Debian, dist/cue2schema_VERSION_amd64.deb
# JOBS=4 works on four crates or runs at once, with a processor each. Where it isn't given there are as many as processors, and a proof
# that nothing runs beside gets more of them
PREFIX ?= /usr/local
jobs = $(or $(JOBS),$(shell nproc))
SOURCES := crates.txt $(shell find crates -name out -prune -o \( -name '*.rt' -o -name '*.antt' \) -print)
BUILT := crates/cue2schema/out/cue2schema

.PHONY: all run try test prove cases examples edits memory hostile bench man install dist deb clean toolchain

all: bin/cue2schema

# The libraries side by side first: `rt run` proves them in turn.
bin/cue2schema: $(SOURCES)
	@$(MAKE) -s toolchain
	JOBS=$(JOBS) tools/build.py cue2schema > proved.log 2>&1 || { tail -n 40 proved.log; exit 1; }
	cd crates/cue2schema && rt run -- export --root '#P' < ../../examples/port.cue > /dev/null
	mkdir -p bin
	cp $(BUILT) $@

try: | toolchain
	@tools/try.sh $(ARGS)

run: bin/cue2schema
	bin/cue2schema export --root '#P' < examples/port.cue

test: | toolchain
	@JOBS=$(JOBS) tools/checks.py test bin/unproved

prove: | toolchain
	@JOBS=$(JOBS) tools/checks.py prove $(BUILT)

cases: bin/cue2schema
	@JOBS=$(JOBS) tools/checks.py program bin/cue2schema

examples: bin/cue2schema
	@tools/examples.sh bin/cue2schema; examples=$$?; tools/pages.sh bin/cue2schema examples/*/README.md && [ $$examples = 0 ]

edits: | toolchain
	tools/edits.py --fit
	JOBS=$(jobs) tools/edits.py $(or $(and $(ALL),--all),$(CRATES),--since $(SINCE))

memory: bin/cue2schema | toolchain
	cd crates/cs_calls && rt run < stdin > /dev/null
	JOBS=$(jobs) tools/memory.sh bin/cue2schema crates/cs_calls/out/cs_calls

hostile: bin/cue2schema
	tools/hostile.sh bin/cue2schema

bench: bin/cue2schema | toolchain
	cd crates/cs_calls && rt run < stdin > /dev/null
	sh bench/table.sh crates/cs_calls/out/cs_calls bin/cue2schema

man:
	tools/manual.py bin/man
	@if command -v groff > /dev/null; then groff -man -Tutf8 -ww -z bin/man/man1/cue2schema.1 bin/man/man7/cue2schema-refusals.7; fi

install: bin/cue2schema
	tools/install.sh bin/cue2schema $(DESTDIR)$(PREFIX)

dist: bin/cue2schema | toolchain
	tools/dist.sh bin/cue2schema "$$(rt version)"

deb: bin/cue2schema | toolchain
	tools/deb.sh bin/cue2schema "$$(rt version)"

clean:
	rm -rf bin dist proved.log crates/*/out

toolchain:
	@command -v rt > /dev/null || { echo "cue2schema is built with Rattle: put its command 'rt' on the PATH (its kit has it as bin/rt)" >&2; exit 1; }
