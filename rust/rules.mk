# The Cargo package over the C library, and its tests.
.PHONY: check-rust check-rust-both check-raf-c check-rust-tool check-raf fuzz

# Cargo on the package over a library. Debug information and what a second build would use take a third of the time.
CARGO = cd rust && CARGO_PROFILE_DEV_DEBUG=0 CARGO_INCREMENTAL=0 HUNKRAVY_LIB_DIR="$(CURDIR)/$(OUT)/$(1)" \
	CARGO_TARGET_DIR="$(CURDIR)/$(OUT)/$(1)/cargo" cargo

# All tests over the library with both levels: the stored lines, forgeries, damaged and torn files, the samples of the crate's
# pages, its examples; and the lints, one of which finds what its oldest compiler lacks. Over each level alone the tests that
# call all of the library. The programs that measure run.
check-rust: check-rust-both $(RUNNABLE:%=check-rust-%) check-bench

check-rust-both: $(OUT)/both/libhunkravy.a check-raf-c
	$(call CARGO,both) test --offline
	if cargo clippy --version > /dev/null 2>&1 && cargo fmt --version > /dev/null 2>&1; then \
		$(call CARGO,both) clippy --offline --all-targets -- -D warnings && \
		cargo fmt --check && cd ../bench/package && cargo fmt --check && \
		rustfmt --check --edition 2024 ../../standin/lib.rs ../../rust/fuzz.rs ../../testkit/disk/program.rs; \
	else \
		echo 'left out: the lints and the layout of the Cargo package, since cargo clippy or fmt is not installed'; \
	fi

# The tests of random-access files once more, with the engine of the C library in the place of that of the package.
check-raf-c: $(OUT)/both/libhunkravy.a
	export RUSTFLAGS='--cfg c_engine -A dead_code'; \
		$(call CARGO,both) test --offline --target-dir "$(CURDIR)/$(OUT)/both/cargo-c" --test raf --test forks --test system_calls

check-rust-%: $(OUT)/%/libhunkravy.a
	$(call CARGO,$*) test --offline --lib --test lines --test destinations
	$(call CARGO,$*) test --offline --test raf --test sealed -- formats records opened_in_memory

# Whether the package and the file tool open each other's files.
check-rust-tool: $(TOOL) $(LIBRARY)
	export HUNKRAVY_TOOL="$(CURDIR)/$<"; $(call CARGO,$(FOLDER)) test --offline --test tool

# The package as one library, with all of its features.
RUST_LIBRARY = --edition 2024 --crate-name hunkravy --crate-type rlib \
	$(foreach feature,std raf-core raf,--cfg 'feature="$(feature)"') rust/src/lib.rs

# Runs libFuzzer of clang for FUZZ_SECONDS on what reads files: rust/fuzz.rs, over the library with both levels. It keeps the
# inputs that it finds below OUT, and begins with them.
FUZZ_SECONDS = 10
FUZZ = $(OUT)/both/fuzz
COVERAGE = -O -C debug-assertions -C passes=sancov-module -C llvm-args=-sanitizer-coverage-level=4 \
	-C llvm-args=-sanitizer-coverage-inline-8bit-counters -C llvm-args=-sanitizer-coverage-pc-table

fuzz: $(OUT)/both/libhunkravy.a
	if ls "$$(clang -print-runtime-dir 2> /dev/null)"/libclang_rt.fuzzer*x86_64.a > /dev/null 2>&1; then \
		mkdir -p $(FUZZ) && rustc $(COVERAGE) $(RUST_LIBRARY) -o $(FUZZ)/libhunkravy.rlib && \
		rustc --edition 2024 $(COVERAGE) --crate-type staticlib --extern hunkravy=$(FUZZ)/libhunkravy.rlib rust/fuzz.rs \
			-o $(FUZZ)/libfuzz.a && \
		clang -fsanitize=fuzzer $(FUZZ)/libfuzz.a $< -lpthread -ldl -lm -o $(FUZZ)/fuzz && mkdir -p $(FUZZ)/inputs && \
		$(FUZZ)/fuzz $(FUZZ)/inputs -max_total_time=$(FUZZ_SECONDS) -max_len=200 -verbosity=0 -artifact_prefix=$(FUZZ)/; \
	else \
		echo 'left out: the fuzzer of files, since clang and its runtime are not installed'; \
	fi

# ---- Random-access files

# Whether the proved program and the example of the Cargo package recover what the other has left, after 200 kills.
RAF = $(OUT)/raf

check-raf: $(BATCHES) $(LIBRARY)
	cd rust && export HUNKRAVY_LIB_DIR="$(CURDIR)/$(dir $(LIBRARY))" CARGO_TARGET_DIR="$(CURDIR)/$(RAF)/cargo" && \
		cargo build --offline --example batches
	tools/check_batches.sh $(BATCHES) $(RAF)/cargo/debug/examples/batches
