# What a newcomer types. `rt` is the command of the Rattle kit.

PREFIX = /usr/local

# Says what is missing where the toolchain isn't there.
needs_kit = command -v rt > /dev/null && command -v rattle > /dev/null || \
	{ echo 'This needs the Rattle kit, and there are no rt and rattle on the PATH. make run, test, install and dist do without.'; \
	exit 1; }

.PHONY: help run test prove install dist packages try ira web lib proved checks release verify-release clean

help:
	@echo 'With what is in the repository, in seconds, on Linux on x86-64:'
	@echo 'make run        holds the released program, release/ira, against its sums, judges examples with it, and types the'
	@echo '                commands of the pages, those of its commit where the sources have gone on'
	@echo 'make install    copies bin/ira, or the release where that was not built of these sources, to $$(PREFIX)/bin, and the'
	@echo '                manual and completions of its commit below $$(PREFIX)/share; PREFIX is $(PREFIX) if not given'
	@echo 'make dist       packs the same with its examples and pages, for other machines'
	@echo 'make packages   makes of release/ what pip, npm and dpkg install: dist/ira-*.whl, dist/ira-*.tgz, dist/ira_*.deb'
	@echo 'In minutes, and without the Rattle kit in seconds:'
	@echo 'make test       tests and programs, built with no proof, and the checks that take minutes at most; without the kit'
	@echo '                the checks alone, of the released program those of its commit. The last lines say what passed, what'
	@echo '                ran, and what was skipped and why'
	@echo 'make checks     all checks, or those that are named: CHECKS="A B". They look at what no proof speaks of:'
	@echo '    definitions that each definition has its words; sh checks/definitions.sh --write FILE makes a page of them'
	@echo '    names       what pages name: links, headings, items of code; crates without a user'
	@echo '    weight      lines of code and words of pages, which never rise: the table in CONTRIBUTING.md'
	@echo '    sentences   each sentence of the views, in some expected output'
	@echo '    refused     edits that the prover must refuse, each in a function that it names, over the libraries of make prove'
	@echo '    release     what is refused of release/ where it was changed; what is installed and packed is of one commit'
	@echo '    examples    the tables and the commands of examples/'
	@echo '    limits      faults, long texts, what is past the limits'
	@echo '    pages       the commands of README.md, docs/ and the README of a package'
	@echo '    completions commands and options of the completions, those of the help'
	@echo '    version     the logic that the version, README.md and the toolchain name'
	@echo '    pictures    pictures of the examples and of recorded rings, read back and held against the logs'
	@echo '    script      the script of pages to move in, looked through, and run in Node over pages, in the same way'
	@echo '    page        pages to move in, opened in a headless Chromium, in the same way; and how fast a large one moves'
	@echo '    web         answers of ira.html in a headless Chromium, those of the program; hostile names and texts'
	@echo '    library     the library from Python, C and Node, and the command line in Node: what they answer, the program does'
	@echo '    json        lines of JSON, in the same way'
	@echo '    plain       plain pages of show and explain, in the same way'
	@echo '    hints       slips of recorders and links, planted in recorded elections: no hint of explain is false'
	@echo '    writes      writes that fail, and kills within a write: what was there is there'
	@echo '    odd_names   names with control characters, line feeds and the like, in each command: how they are printed'
	@echo '    refusals    the first growths of memory and each start of a thread refused in turn, of a few command lines'
	@echo '    recorders   elections by each recorder of examples/recorders'
	@echo '    sweep       each growth of memory and each start of a thread refused in turn, each read and write of a file'
	@echo '                interrupted, one open file at a time'
	@echo 'With the kit, in minutes:'
	@echo 'make try        builds the program with no proof, leaves it at bin/ira-unproved, and judges examples with it'
	@echo 'With the kit, the first time in hours of processor time, over all cores; then in those of what changed:'
	@echo 'make ira        proves the program and all that it rests on, and leaves it at bin/ira'
	@echo 'make web        the same, with the module for a browser and the page that has it, bin/ira.html'
	@echo 'make lib        the same, with the module as a library for C, Python and what calls C, bin/libira.a and bin/libira.so'
	@echo 'make prove      the gate: each proof, the edits that must be refused, tests and programs as they are proved, checks,'
	@echo '                and that release/ is what its sources give, where these are its sources'
	@echo 'make release    makes release/ of what is committed here, and says what differs from the one that was there'
	@echo 'make verify-release  proves and builds the commit of release/ in a clone, and compares'
	@echo 'make clean      removes what was built and proved'

# A release of other sources than these is held against the pages of its commit, where it has them.
run:
	@. build/packed.sh; sh build/first.sh $$ira && \
	{ test -z "$$pages" || sh $$pages/checks/all.sh $$ira examples limits pages completions version; } && \
	echo 'Go on with release/ira.html in a browser, with make install, and with logs of your own (docs/LOGGING.md):' && \
	echo "$$ $$ira logs --dir examples/recorded_ring" && $$ira logs --dir examples/recorded_ring

test:
	@sh build/test.sh

# The merge gate: every proof from nothing, the edits that the prover must refuse, all tests, the programs as
# two compilers build them, and the checks that take minutes at most, beside the edits.
prove:
	@$(needs_kit)
	@sh build/release.sh sums
	rm -rf crates/*/out/rlib
	rt ci
	@said=$$(mktemp); python3 -B checks/refused.py > $$said 2>&1 & edits=$$!; \
	sh checks/all.sh crates/ira/out/ira definitions names sentences weight release examples limits pages completions version pictures script json plain hints writes odd_names refusals && \
	sh build/prove.sh web lib proved && sh checks/all.sh bin/ira page web library; well=$$?; \
	wait $$edits || well=1; cat $$said; rm $$said; exit $$well
	@sh build/release.sh prove

install:
	@sh build/install.sh $(DESTDIR)$(PREFIX)

dist:
	@sh build/dist.sh

packages:
	@sh library/wheel.sh && sh library/npm.sh && sh library/deb.sh

# What holds the program from outside: all of it, or what CHECKS names.
checks:
	@ira=$$(sh build/program.sh) || ira=-; sh checks/all.sh $$ira $(CHECKS)

try:
	@$(needs_kit)
	@sh build/try.sh && sh build/first.sh bin/ira-unproved

# Whichever of them are asked for, by one call.
ira web lib: proved; @:

proved:
	@$(needs_kit)
	@sh build/prove.sh $(filter web lib,$(MAKECMDGOALS))

release:
	@$(needs_kit)
	@sh build/release.sh make

verify-release:
	@$(needs_kit)
	@sh build/release.sh verify

clean:
	rm -rf bin dist crates/*/out
