# The commands that a person types. Each folder's own are in its rules.mk.
.PHONY: run program quick quick-over-the-stand-in check-standin test check-gate check-pages check-mutants check-mutants-alone
.SECONDARY:
.DELETE_ON_ERROR:

SHELL = /bin/bash
.SHELLFLAGS = -eu -o pipefail -c

# What is built outside the crates.
OUT = out
VERSION = $(shell cat VERSION)
PREFIX = /usr/local

# The levels of x86-64 that there are builds for, those that run here, and the one that is asked for. If none is, the library
# has both, and each name is bound to the best that the processor has when a program is loaded.
CPU =
LEVELS = x86-64-v2 x86-64-v3
FEATURES := $(shell sed -n 's/^ *FEATURE(.*, \([a-z0-9]*\)).*/\1/p' c/levels/level.h)
RUNNABLE := $(if $(filter-out $(shell grep -m1 ^flags /proc/cpuinfo),$(FEATURES)),x86-64-v2,$(LEVELS))

# How many checks run side by side: one on each processor, as far as each has 2.5 GiB of memory. A check that several
# processors share takes nearly half more of their time.
CHECKS = $(shell awk -v most=$$(nproc) '/^MemAvailable/ { n = int($$2 / 2621440); print n < 1 ? 1 : n < most ? n : most }' /proc/meminfo)

# What a crate and those below it are built from.
sources = $(shell python3 tools/proved.py sources $(1))

# $(call build,CRATE,FLAGS,COMMAND,FILE): proves a crate and builds it as the rule's target, by rt's command, which writes
# FILE. In the gate PROVED is set: the crate is then built over the libraries that `rt ci` has just proved.
PROVED =
HAS_KIT = command -v rt > /dev/null || { echo 'rt is not installed: it proves and builds the crates, and a release needs none' >&2; exit 1; }
build = $(if $(PROVED),python3 tools/proved.py build $(1) $@ $(2),$(HAS_KIT) && cd crates/$(1) && $(3) && cp $(4) "$(CURDIR)/$@")

# ---- The line program

# Runs the line program by a command, on what is connected to its standard input, or on its stored first lines if that is a
# terminal, /dev/null or nothing.
on_input = cd crates/aegis_vectors && \
	if [ ! -e /dev/stdin ] || [ -c /dev/stdin ]; then \
		echo 'the stored lines of crates/aegis_vectors/stdin:' >&2; $(1) < stdin; \
	else \
		$(1); \
	fi

# Runs the line program, if it was built from these sources, and otherwise the sources, before any proof.
run:
	@if [ -x crates/aegis_vectors/out/aegis_vectors ] && $(MAKE) --silent --question $(OUT)/line-program; then \
		$(call on_input,out/aegis_vectors); \
	else \
		echo 'running the sources, before any proof: make program proves and builds the program, make test all' >&2; \
		$(call on_input,rt try); \
	fi

# Proves and builds the line program.
program: $(OUT)/line-program

$(OUT)/line-program: $(call sources,aegis_vectors) crates.txt | $(OUT)
	cd crates/aegis_vectors && rt run --jobs $(CHECKS) < /dev/null > /dev/null
	touch $@

# ---- The gate

# The merge gate: the pages, every proof, the edits that must be refused, the tests and the programs; then what is built of
# them and shipped. With STRICT=1 it fails if a check is left out.
test:
	@RT_JOBS=$(CHECKS) .ci/checks

# Whether the gate fails if one of its checks fails or hangs, and whether it runs each check that there is a rule for.
check-gate:
	python3 tools/check_gate.py

# What a change most often breaks, in five minutes on two processors, with stock tools and no proof: the pages; the tests of C,
# Rust and Python over the stand-in for the proved library. With rt also the line program on the published vectors, and the
# tests of the round. It builds in a folder of its own, so that nothing else is ever linked with the stand-in.
quick: check-pages
	$(MAKE) OUT=out/quick quick-over-the-stand-in
	if command -v rt > /dev/null; then \
		diff <(cd crates/aegis_vectors && rt try < ../test_agreement/data/published.in) crates/test_agreement/data/published.out && \
		(cd crates/test_rounds && rt try --test 2>&1) | \
			awk '{ print } /^test result: ok\. [1-9]/ { passed = 1 } END { exit !passed }'; \
	else \
		echo 'left out: the line program and the tests of the round, since rt is not installed'; \
	fi

# The library is a goal, so what was made of an earlier stand-in is made again: make passes over a secondary file that is gone.
quick-over-the-stand-in: | $(OUT)
	standin/build.sh $(OUT)
	rm -f $(OUT)/*/libhunkravy.*
	$(MAKE) --jobs=2 --output-sync OUT=$(OUT) $(STANDIN:%=-o %) $(OUT)/both/libhunkravy.a $(OVER_STANDIN)

STANDIN = $(OUT)/x86-64-v2/aegis_c.a $(OUT)/x86-64-v3/aegis_c.a
OVER_STANDIN = check-header check-abi check-c-both check-c++ check-rust-both test-python check-types check-corpus check-disk fuzz

# Whether the stand-in passes the tests of each C header, with the stored answers, as the proved library does in check-c.
check-standin:
	$(MAKE) OUT=out/quick OVER_STANDIN=check-c-both quick-over-the-stand-in

# Tries the mutants of the gate that are not in must-fail/, each on one function alone.
check-mutants-alone:
	python3 tools/mutants.py try-alone

# Tries all mutants that are listed: the prover has to refuse each, and to prove each control.
check-mutants:
	python3 tools/mutants.py try

# Each sample and each quoted contract of the pages stands in a proved crate, no line is too long, each clause that
# docs/PROOFS.md names is there, each definition that a public contract reaches is listed, each mutant can be applied, and no
# link leads nowhere.
check-pages:
	python3 tools/check_pages.py
	python3 tools/check_promises.py
	python3 tools/check_definitions.py
	python3 tools/mutants.py check

$(OUT):
	mkdir -p $@

include c/rules.mk tools/rules.mk rust/rules.mk python/rules.mk bench/rules.mk dist/rules.mk testkit/rules.mk
