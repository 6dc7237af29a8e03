# Tries, tests, proves, builds, packs and measures the program. `make help` lists the targets.

# the kit's command: the one on PATH, else where the kit is
RT := $(shell command -v rt 2>/dev/null || echo /opt/rattle/bin/rt)

PROGRAM := build/nettletide
BENCH := build/bench
MEMORY := build/memory_cli
SOURCES := crates.txt HANDLES $(shell find crates -name out -prune -o \( -name '*.rt' -o -name '*.antt' \) -print)

VERSION := $(shell cat VERSION)

# the tools that are installed, those of them that there are
TOOLS := $(notdir $(wildcard $(addprefix tools/, \
    readable stats report compare recast strips join draw view gds oas adapt density)))

# where `make install` puts the program, the tools, the man page and the documents
PREFIX := /usr/local

.PHONY: all help try test check gate example system tools readme pictures compare hostile fuzz slurm bench figures agree install put-in-place dist clean

all: $(PROGRAM)

help:
	@echo 'make                 proves and builds the program alone, build/nettletide; JOBS=N proves N crates at a time'
	@echo 'make try             runs it on the example with nothing proved'
	@echo 'make test            runs the tests of all crates, or of CRATE=NAME, with nothing proved'
	@echo 'make check CRATE=N   proves one crate, over what was proved before'
	@echo 'make gate CRATE=N    passes the gate with one crate: its proofs and those below it, its tests, its edits that must fail'
	@echo 'bash .ci/run         passes the gate with all, and the checks of the repository'
	@echo 'make example         runs the built program on example/'
	@echo 'make system          checks the built program: answers, statuses, files, and what the system refuses'
	@echo 'make tools           checks the tools beside it, and them installed'
	@echo 'make readme          runs the commands of README.md and compares what they print'
	@echo 'make compare         compares it with a plain program, and refuses each allocation and each call for a file'
	@echo 'make hostile         gives it layouts that are made to be hard'
	@echo 'make fuzz            gives it broken files'
	@echo 'make slurm           runs strips on the batch system Slurm, where it is installed'
	@echo 'make agree           sweeps 10,000 random cases in three ways, and compares'
	@echo 'make bench           measures whole runs beside peers, and single layers; WHAT=layers, kinds, peers, .. one of these'
	@echo 'make figures         measures whole runs, and puts the tables into docs/: ten minutes'
	@echo 'make pictures        draws the pictures of docs/'
	@echo 'make install         puts program, tools, man page and documents under PREFIX, /usr/local if not given'
	@echo 'make dist            packs them into build/nettletide-$(VERSION).tar.gz, with a checksum'
	@echo 'make clean           removes build/, and what the example wrote'

# how many crates are proved at a time: one a processor, if there are 5 GB of memory for each
JOBS := $(shell awk -v most=$$(nproc) '/^MemAvailable/ { fit = int($$2 / 5000000); \
    print fit < 1 ? 1 : fit < most ? fit : most }' /proc/meminfo)

# The kit proves the program's crate and those below it, side by side where none needs the other, and keeps their libraries;
# memory_cli, bench, and the crates of laws and of tests are left out. Then it builds the program over them, and runs it.
# Without words the program ends with status 1, so what tells of success is that a program is there.
$(PROGRAM): $(SOURCES)
	mkdir -p build
	rm -f crates/mdp_cli/out/mdp_cli crates/mdp_cli/out/mdp_cli.stamp
	cd crates/mdp_cli && $(RT) all check --jobs $(JOBS) || true
	cd crates/mdp_cli && { $(RT) run; test -x out/mdp_cli; }
	cp crates/mdp_cli/out/mdp_cli $(PROGRAM)

# The kit runs the program on the example without any proof.
try:
	mkdir -p build
	sed 's|square.oas|$(CURDIR)/build/try.oas|' example/square.deck >build/try.deck
	cd crates/mdp_cli && $(RT) try -- fracture $(CURDIR)/example/square.gds $(CURDIR)/build/try.deck
	@echo 'Nothing was proved here. make example proves and builds the program, and bash .ci/run proves and tests all.'

# The kit runs each crate's tests, or those of CRATE, without any proof.
test:
	@for crate in $$(grep -rl --include='*.rt' '#\[test\]' crates/$(or $(CRATE),*)/src | cut -d/ -f2 | sort -u); do \
	    echo "$$crate"; (cd crates/$$crate && $(RT) try --test) || exit 1; \
	done
	@echo 'Nothing was proved here. bash .ci/run proves and tests all.'

# One crate is proved.
check:
	@test -n '$(CRATE)' || { echo 'which crate? make check CRATE=NAME, a name of crates.txt'; exit 1; }
	cd crates/$(CRATE) && $(RT) check

# One crate passes the gate: it and those below it are proved from nothing, with its tests, and its edits are tried.
gate:
	@test -n '$(CRATE)' || { echo 'which crate? make gate CRATE=NAME, a name of crates.txt'; exit 1; }
	cd crates/$(CRATE) && $(RT) verdict
	$(RT) must-fail $(CRATE)

# A square, and a block of standard cells.
example: $(PROGRAM)
	cd example && ../$(PROGRAM) fracture square.gds square.deck
	wc -c example/square.oas
	tools/gds example/block.gds <example/block.txt
	cd example && ../$(PROGRAM) fracture block.gds block.deck

# The built program on small inputs, with files that the system refuses.
system: $(PROGRAM)
	tests/system.sh $(PROGRAM)

# The tools: their modules, what they make, what they refuse, and all of them installed.
tools: $(PROGRAM)
	tests/layout_bytes.py $(PROGRAM)
	tests/compare.py $(PROGRAM)
	tests/tools.sh $(PROGRAM)

# The commands of README.md and docs/FIELDS.md, each with what it prints.
readme: $(PROGRAM)
	tests/readme.sh $(PROGRAM)

# The pictures of docs/, drawn from what the program writes.
pictures: $(PROGRAM)
	tools/pictures $(PROGRAM)

# The program over a depot in memory, for the two last scripts of `make compare`, and the one that times single layers. They
# are proved and built only for the targets that run them.
$(MEMORY) $(BENCH): build/%: $(SOURCES)
	mkdir -p build
	rm -f crates/$*/out/$* crates/$*/out/$*.stamp
	cd crates/$* && { $(RT) run; test -x out/$*; }
	cp crates/$*/out/$* $@

# The program against a plain one on random small layouts, against KLayout where it is installed, with each allocation and
# each call for a file refused, and with one byte a call.
compare: $(PROGRAM) $(MEMORY)
	tests/plain.py $(PROGRAM) 200
	tests/klayout.sh $(PROGRAM)
	tests/readable.py $(PROGRAM)
	tests/refusals.sh $(PROGRAM) $(MEMORY)
	tests/short.sh $(PROGRAM) $(MEMORY)

# Layouts, decks and shot files made to take as much time and memory as they can, with limits of both.
hostile: $(PROGRAM)
	tests/cuts.py $(PROGRAM)
	tests/hostile/run.py $(PROGRAM)

# how long `make fuzz` runs, and from which seed on
SECONDS := 600
SEED :=

# Small files, changed at random.
fuzz: $(PROGRAM)
	cd build && ../tests/fuzz.py ../$(PROGRAM) $(SECONDS) $(SEED)

# Strips on the batch system Slurm, which is brought up for that where it is installed.
slurm: $(PROGRAM)
	tests/slurm.sh $(PROGRAM)

# Whole runs on layouts in build/bench, beside KLayout and Boost.Polygon where they are installed, and what the program alone
# takes; then single layers, timed on inputs that the program `bench` makes in memory. WHAT chooses one of these tables.
WHOLE_RUNS := kinds peers shots counts
ALONE := steps files densities strips
bench: $(PROGRAM) $(if $(filter-out layers,$(WHAT)),,$(BENCH))
	for what in $(filter $(WHOLE_RUNS),$(or $(WHAT),kinds peers shots)); do \
	    measure/bench $(PROGRAM) build/bench $$what || exit 1; \
	done
	for what in $(filter $(ALONE),$(or $(WHAT),$(ALONE))); do measure/measure $(PROGRAM) build/bench $$what || exit 1; done
ifeq ($(WHAT),)
	measure/reading $(PROGRAM) build/bench
	measure/check_bench $(PROGRAM) build/bench 400000
endif
ifeq ($(filter-out layers,$(WHAT)),)
	measure/measure $(BENCH) build/bench layers
	measure/sweeps $(BENCH) build/bench
endif

# Whole runs, measured and put into docs/.
figures: $(PROGRAM)
	measure/figures $(PROGRAM) build/bench

# Ten thousand random cases, swept as the program does it, slab by slab and by the plane sweep: all must give the same trapezoids.
agree: $(BENCH)
	$(BENCH) agree 10000 | tee build/agree.txt
	grep -q 'each way' build/agree.txt

# The program, the tools with their modules, the man page and the documents. A tool is PREFIX/bin/nettletide-NAME, a link to the
# script in PREFIX/share/nettletide, where it finds its modules.
install: $(PROGRAM)
	$(MAKE) --no-print-directory put-in-place

# The same with the program as it is, which PROGRAM may name.
put-in-place: BIN := $(DESTDIR)$(PREFIX)/bin
put-in-place: SHARE := $(DESTDIR)$(PREFIX)/share
put-in-place:
	install -d $(BIN) $(SHARE)/nettletide $(SHARE)/man/man1 $(SHARE)/doc/nettletide/pictures
	install -m 755 $(PROGRAM) $(BIN)/nettletide
	install -m 644 tools/*.py $(SHARE)/nettletide
	install -m 755 $(TOOLS:%=tools/%) $(SHARE)/nettletide
	for tool in $(TOOLS); do \
	    ln -sf ../share/nettletide/$$tool $(BIN)/nettletide-$$tool && \
	    echo '.so man1/nettletide.1' >$(SHARE)/man/man1/nettletide-$$tool.1 || exit 1; \
	done
	install -m 644 docs/nettletide.1 $(SHARE)/man/man1
	install -m 644 VERSION CHANGELOG.md docs/*.md $(SHARE)/doc/nettletide
	install -m 644 docs/pictures/*.svg $(SHARE)/doc/nettletide/pictures

# The same in an archive, with its checksum.
dist: PACKED := nettletide-$(VERSION)
dist: $(PROGRAM)
	rm -rf build/$(PACKED)
	$(MAKE) --no-print-directory put-in-place DESTDIR= PREFIX=build/$(PACKED)
	tar -C build --sort=name --owner=0 --group=0 --numeric-owner --mtime="@$$(git log -1 --format=%ct)" \
	    -czf build/$(PACKED).tar.gz $(PACKED)
	cd build && sha256sum $(PACKED).tar.gz >$(PACKED).tar.gz.sha256
	cat build/$(PACKED).tar.gz.sha256

# What the kit has proved stays in crates/*/out, since to prove it again takes minutes.
clean:
	rm -rf build example/*.oas example/block.gds
