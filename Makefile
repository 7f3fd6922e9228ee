# make run    builds the library and the bench tool, and checks samples/edition (STICK=folder: any other)
# make test   layout, proofs, must-fail edits, programs and all tests; what has passed on this machine is not proved again
# make gate   what a merge needs: the same, and no warning of the C compiler passes
# make prove  the proofs alone, in seconds where little has changed
# make fuzz   both readers over COUNT files grown from SEED (KIND=slips: of one kind); make real FOLDER=…  over figures from elsewhere
# make install, make release  the tool and the library for this machine; an archive and a .deb for others
# make sticks STICKS random sticks grown from SEED, checked by the bench tool and judged by a model of its manual page
# make bench  the speed, against the second reader
# make … V=1 shows the whole commands of the compiler
.DEFAULT_GOAL := run
SHELL := /bin/bash
.SHELLFLAGS := -o pipefail -c
.PHONY: prove test gate rust-test differ fuzz real real-lib3ds real-assimp turned bench bench-build c-check clean

prove:
	rt all check

test:
	bash tests/gate --with-warnings

gate:
	bash tests/gate

# rt is asked where anything in crates/, or rt itself, is newer than the library (a folder is, once a file has gone from it).
# `rt all check` proves crates side by side, where `rt lib` would prove one after the other. They say much, of which the crates that they come to are shown.
RT := $(shell command -v rt)
TDS_SOURCES := crates.txt $(shell find crates \( -name must-fail -o -name out \) -prune -o -print)
target/staticlib/libtds.a: $(TDS_SOURCES) $(RT)
	$(if $(RT),,$(error The library must be built, and the Rattle kit is not here: install it so that "rt version" answers, then make again))
	@mkdir -p build $(@D)
	@echo 'The library is proved and compiled: some 37 minutes of processor time at first, then only what has changed.'
	@{ rt all check --jobs $$(nproc) && cd crates/tds && rt lib; } 2>&1 | tee build/library.log | sed -un 's/^rt: chose .* for \([a-z0-9_]*\)$$/prove \1/p' || { cat build/library.log; exit 1; }
	@cp crates/tds/out/libtds.a $@

# ---- the second reader, over the library

export TDS_LIB_DIR = $(CURDIR)/target/staticlib
CARGO_FLAGS = -j1 --offline --release --quiet --features tds --manifest-path
COUNT ?= 10000000
SEED ?= 1

differ: target/staticlib/libtds.a
	cargo build $(CARGO_FLAGS) second/Cargo.toml

# The line of README, in a build with checks; then all that the library is part of, as it is used.
rust-test: differ
	CARGO_BUILD_JOBS=1 CARGO_TERM_QUIET=true cargo test --manifest-path second/Cargo.toml
	cargo test $(CARGO_FLAGS) second/Cargo.toml -- --skip named_cases_alone --skip every_seeded_error
	second/target/release/differ --count 200000 --seed 1

fuzz: differ
	second/target/release/differ --count $(COUNT) --seed $(SEED) $(if $(KIND),--only $(KIND))

real: export FOLDER_TO_READ = $(value FOLDER)
real: differ
	@test -n "$$FOLDER_TO_READ" || { echo 'make real FOLDER=folder-of-3ds-files (docs/REAL_FILES.md says where some are)'; exit 2; }
	second/target/release/differ --real "$$FOLDER_TO_READ"
	@$(MAKE) --no-print-directory -o target/staticlib/libtds.a real-lib3ds real-assimp

# against other readers, each where it is installed
real-lib3ds: OTHER = lib3ds/file.h
real-lib3ds: OTHER_LINK = -l3ds -lm
real-assimp: OTHER = assimp/cimport.h
real-assimp: OTHER_LINK = -lassimp
real-lib3ds real-assimp: export FOLDER_TO_READ = $(value FOLDER)
real-lib3ds real-assimp: real-%: target/staticlib/libtds.a
	@mkdir -p $(BUILD)
	@if ! echo '#include <$(OTHER)>' | $(CC) -E - > /dev/null 2>&1; then echo '$* is not here: the files were not compared with what it reads'; \
	else $(C_COMPILE) tests/real/$*.c $(C_LIBRARY) $(OTHER_LINK) -o $(BUILD)/$* && \
	    find "$$FOLDER_TO_READ" -iname '*.3ds' -exec $(BUILD)/$* {} +; fi

# what structure alone finds of turned bits, and that a slip finds all of them
turned: differ samples
	second/target/release/differ --turned samples/edition/*.3ds samples/old/*.3ds
	second/target/release/differ --guarded samples/edition/*.3ds samples/old/*.3ds samples/caligari/marking-gauge.cob \
	    samples/caligari/try-square.cob samples/c4d/bench.c4d

bench: target/staticlib/libtds.a
	cargo run $(CARGO_FLAGS) bench/Cargo.toml

# for the gate: it builds, and is not timed
bench-build: target/staticlib/libtds.a
	cargo build $(CARGO_FLAGS) bench/Cargo.toml

# ---- the C side: run, c-test, c-memcheck, samples; install, uninstall, release

include stick/Makefile.inc
include packaging/Makefile.inc

# under valgrind too, where it is on the machine
c-check: c-test
	@if command -v valgrind > /dev/null; then $(MAKE) --no-print-directory -o target/staticlib/libtds.a c-memcheck; \
	else echo 'valgrind is not here: memory was not checked'; fi

clean:
	rm -rf target build second/target bench/target
