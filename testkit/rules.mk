# A disk that loses power, and a corpus of files in each format: README.md.
.PHONY: check-disk check-corpus check-corpus-rattle

DISK = $(OUT)/disk
DISK_SOURCES = $(wildcard testkit/disk/*.[ch])
DISK_PROGRAMS = $(addprefix $(DISK)/programs/,table c rust python)
DISK_SECONDS = 60

# Random histories of random-access files in C, Rust and Python over the disk. All of them open what is left.
check-disk: $(DISK)/libdisk.so $(DISK_PROGRAMS)
	rm -f $(DISK)/images.*
	testkit/disk/run --lying $(DISK)
	testkit/disk/run --seconds $(DISK_SECONDS) --keep $(DISK)/kept --images $(DISK)/images $(DISK)

$(DISK)/libdisk.so: $(DISK_SOURCES)
	mkdir -p $(@D)
	$(CC) -std=c11 $(C_FLAGS) -O2 -fPIC -shared testkit/disk/disk.c testkit/disk/system_calls.c -o $@

$(DISK)/programs/c: $(DISK_SOURCES) $(OUT)/both/libhunkravy.a
	mkdir -p $(@D)
	$(CC) -std=c11 $(C_FLAGS) -O2 testkit/disk/program.c $(OUT)/both/libhunkravy.a -o $@

$(DISK)/programs/table: $(DISK_SOURCES) $(OUT)/both/libhunkravy.a
	mkdir -p $(@D)
	$(CC) -std=c11 $(C_FLAGS) -O2 -DTABLE testkit/disk/program.c testkit/disk/storage.c testkit/disk/disk.c \
		$(OUT)/both/libhunkravy.a -o $@

$(DISK)/programs/rust: testkit/disk/program.rs $(shell find rust/src -name '*.rs') $(OUT)/both/libhunkravy.a
	mkdir -p $(@D)
	rustc -O $(RUST_LIBRARY) -o $(DISK)/libhunkravy.rlib
	rustc --edition 2024 -O --extern hunkravy=$(DISK)/libhunkravy.rlib -C link-arg=$(OUT)/both/libhunkravy.a $< -o $@

$(DISK)/programs/python: testkit/disk/program.py python-package
	mkdir -p $(@D)
	printf '#!/bin/sh\nPYTHONPATH="%s" exec python3 -B "%s" "$$@"\n' "$(CURDIR)/$(OUT)/python" "$(CURDIR)/$<" > $@
	chmod +x $@

# The corpus is made again, byte for byte, by ciphers that agree with the published lines.
check-corpus: | $(OUT)
	python3 -B testkit/corpus/make.py --check
	rm -rf $(OUT)/corpus && mkdir $(OUT)/corpus
	python3 -B testkit/corpus/make.py $(OUT)/corpus
	for name in records sealed random-access; do cmp testkit/corpus/$$name.txt $(OUT)/corpus/$$name.txt || exit 1; done

# The proved programs read record streams and random-access files, and what check-disk has left. The file tool reads sealed
# files in check-tool.
CORPUS_PROGRAM = crates/aegis_corpus/out/aegis_corpus

check-corpus-rattle: $(CORPUS_PROGRAM) $(OUT)/line-program
	python3 -B testkit/corpus/check_rattle.py $(CORPUS_PROGRAM) crates/aegis_vectors/out/aegis_vectors
	if [ -s $(DISK)/images.in ]; then \
		test -s $(DISK)/images.out && \
		$(CORPUS_PROGRAM) < $(DISK)/images.in | grep '^ok' | cut -d' ' -f1,2 | cmp - $(DISK)/images.out && wc -l < $(DISK)/images.out; \
	else \
		echo 'left out: what a loss of power has left, since check-disk has not run'; \
	fi

$(CORPUS_PROGRAM): $(call sources,aegis_corpus) crates.txt
	cd crates/aegis_corpus && rt run < stdin > /dev/null
