# The program, a run of it on a real circuit, and all that CI runs.
.PHONY: demo try test cases large edits mutants examples install dist

PREFIX ?= /usr/local
INTO = $(DESTDIR)$(PREFIX)
SHARE = $(INTO)/share/fmeda
TOOLS = chip faults flow golden manifest page patterns rates ungate vcd2workload waves
DATA = examples/lockstep
FILES = design.blif workload.csv rates.csv points.csv
WORDS = run $(FILES)
SETTINGS = --ftti 4 --flips 40,77,101,160

# All that the program is made of: when one of these changes, build/fmeda is made anew.
MADE_OF := crates.txt HANDLES $(shell find crates -path '*/out' -prune -o -type f ! -name '*.edit' ! -name README.md -print | LC_ALL=C sort)

# The proved program, by all processors. Nothing is built of a crate that isn't proved.
build/fmeda: $(MADE_OF)
	tools/dev/build
	mkdir -p build
	cp crates/fmeda_cli/out/fmeda_cli build/fmeda

# A campaign over two cores in lockstep with a comparator, 3,312 faults in two threads: its report, then the first and the last
# line of its result file.
demo: build/fmeda
	cd $(DATA) && ../../build/fmeda $(WORDS) ../../build/lockstep.result $(SETTINGS) --workers 2
	sed -n '1p;$$p' build/lockstep.result

# The same campaign, or that of the files in DATA with SETTINGS, on a build that nothing was proved of, for a first look. Nothing of it
# is kept but build/try.log.
try:
	@echo 'UNPROVED BUILD, for a first look only: nothing of what follows was made by a proved program, and nothing is installed.'
	@mkdir -p build
	@cd crates/fmeda_cli && rt try --steps 1 --seconds 900 $(foreach f,$(FILES),--data $(f)=$(abspath $(DATA))/$(f)) \
	    -- $(WORDS) lockstep.result $(SETTINGS) --workers 4 2> ../../build/try.log || { cat ../../build/try.log; false; }

# All that CI runs: each proof, the edits that must be refused, each test and the program's stored run; then the cases of the
# command line, on the program that the gate has just proved and built.
test:
	rt ci
	mkdir -p build
	cp crates/fmeda_cli/out/fmeda_cli build/fmeda
	$(MAKE) cases

# The cases of the command line, of the tools and of the pages, on the built program.
cases: build/fmeda
	tests/program/cases build/fmeda
	tests/program/command_lines build/fmeda
	tests/program/refusals build/fmeda
	tests/program/outcomes build/fmeda
	tests/program/prefixes build/fmeda
	tests/program/resumed build/fmeda
	tests/program/kept build/fmeda
	tests/program/coverage_agrees build/fmeda
	tests/program/cycles_agree build/fmeda
	tests/program/always_holds build/fmeda 1 1000
	tests/program/shards build/fmeda
	tests/program/hostile build/fmeda
	tests/program/memory build/fmeda
	tests/program/signals build/fmeda
	tests/program/threads build/fmeda
	tests/tools/run build/fmeda
	tests/docs/run build/fmeda

# Campaigns near the limits, each with the answer that thinking gives: minutes, so no part of `make cases`.
large: build/fmeda
	tests/program/large build/fmeda

# Every edit that the prover must refuse, those that the gate leaves out too, in a copy of the repository; a verdict a line.
edits:
	tools/dev/edits

# Wrong bodies that no clause can refuse: each is built without proof, and a test must catch it.
mutants:
	tests/mutants/run

# Each example's report, and its netlist where yosys is installed; the remedies that the pages tell; a campaign in parts, by each
# engine that is installed.
examples: build/fmeda
	examples/run build/fmeda
	tests/docs/remedies build/fmeda
	examples/shards/run build/fmeda

# The proved program, its manual page, completions for bash and zsh, and the tools that stand beside it: as fmeda-flow, fmeda-page and so on, with
# the second program that they read netlists by, the pages and the examples in share/fmeda.
install: build/fmeda
	install -D build/fmeda $(INTO)/bin/fmeda
	install -D -m 644 docs/fmeda.1 $(INTO)/share/man/man1/fmeda.1
	install -D -m 644 tools/completions/fmeda.bash $(INTO)/share/bash-completion/completions/fmeda
	install -D -m 644 tools/completions/_fmeda $(INTO)/share/zsh/site-functions/_fmeda
	mkdir -p $(foreach folder,build docs/pictures tools reference,$(SHARE)/$(folder))
	install $(TOOLS:%=tools/%) $(SHARE)/tools
	install -m 644 $(wildcard tools/*.py) tools/page.css tools/page.js $(SHARE)/tools
	install -m 644 $(wildcard reference/*.py) $(SHARE)/reference
	install -m 644 $(wildcard docs/*.md) $(SHARE)/docs
	install -m 644 $(wildcard docs/pictures/*.svg) $(SHARE)/docs/pictures
	install -m 644 README.md CHANGELOG.md $(SHARE)
	tar -cf - --exclude=flow --exclude=result --exclude=__pycache__ examples | tar -xf - -C $(SHARE)
	ln -sfn ../../../bin/fmeda $(SHARE)/build/fmeda
	$(foreach tool,$(TOOLS),ln -sfn ../share/fmeda/tools/$(tool) $(INTO)/bin/fmeda-$(tool);)

# An archive that needs neither kit nor make: what `install` installs, and RELEASE with the digest of the sources and the gate's last
# line. It runs the gate.
dist:
	tools/dev/dist
