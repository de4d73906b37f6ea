# The measurements, which write the tables of bench/.
.PHONY: bench bench-peers bench-buffers bench-tool bench-random-access bench-python check-bench

# One level is measured, x86-64-v2 unless CPU gives another.
BENCH_CPU = $(or $(CPU),x86-64-v2)
BENCH_FOLDER = $(if $(filter x86-64-v2,$(BENCH_CPU)),bench,bench/$(BENCH_CPU))

bench: bench-peers bench-buffers bench-tool bench-random-access bench-python

# $(call write,PAGE): a program's output becomes the table of a page, whose text stays.
write = python3 bench/table.py $(1)

# Encryption in place beside libsodium.
bench-peers: $(OUT)/$(BENCH_CPU)/libhunkravy.a
	$(CC) -std=c11 -O2 $(C_FLAGS) bench/peers.c $< $$(pkg-config --cflags --libs libsodium) -o $(OUT)/$(BENCH_CPU)/peers
	$(OUT)/$(BENCH_CPU)/peers | $(call write,$(BENCH_FOLDER)/PEERS.md)
	/usr/bin/python3 bench/chart.py bench/x86-64-v3/PEERS.md bench/x86-64-v3/peers.svg

# Encryption in place and to another buffer, at each level that this machine has.
bench-buffers: $(RUNNABLE:%=$(OUT)/%/buffers)
	for program in $^; do $$program || exit 1; done | $(call write,bench/BUFFERS.md)

# Random-access files of the Cargo package, beside a plain file and encryption in memory.
RANDOM_ACCESS = $(OUT)/$(1)/cargo/release/random-access

$(call RANDOM_ACCESS,%): $(wildcard bench/package/* rust/src/*.rs rust/src/*/*.rs) $(OUT)/%/libhunkravy.a
	cd bench/package && HUNKRAVY_LIB_DIR="$(CURDIR)/$(OUT)/$*" \
		cargo build --release --offline --target-dir "$(CURDIR)/$(OUT)/$*/cargo"

bench-random-access: $(call RANDOM_ACCESS,$(BENCH_CPU))
	$< /dev/shm/hunkravy-bench | $(call write,$(BENCH_FOLDER)/RANDOM-ACCESS.md)

# Whether that program runs, on little.
check-bench: $(call RANDOM_ACCESS,both)
	$< $(OUT)/bench-file check | grep -c Reading

# The file tool, at each level that this machine has, beside other programs.
bench-tool: $(RUNNABLE:%=$(OUT)/%/pieces) $(RUNNABLE:%=$(OUT)/%/hunkravy)
	for level in $(RUNNABLE); do \
		bench/tool.sh $$level $(OUT)/$$level/hunkravy $(OUT)/$$level/pieces || exit 1; \
	done | $(call write,bench/TOOL.md)

$(OUT)/%/buffers: bench/buffers.c $(OUT)/%/libhunkravy.a
	$(CC) -std=c11 -O2 $(C_FLAGS) $^ -o $@

$(OUT)/%/pieces: bench/pieces.c $(OUT)/%/libhunkravy.a
	$(CC) -std=c11 -O2 $(C_FLAGS) $^ -o $@

# The Python package beside the C library and other packages.
bench-python: python-package $(OUT)/both/$(SONAME)
	PYTHONPATH=$(OUT)/python python3 bench/python.py "$(CURDIR)/$(OUT)/both/$(SONAME)" | $(call write,bench/PYTHON.md)
