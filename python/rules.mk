# The Python package: its sources with the library inside, a wheel for each processor, and its tests.
.PHONY: check-python check-types python-package test-python

SDIST = $(OUT)/hunkravy-$(VERSION).tar.gz
WHEEL_NAME = $(OUT)/hunkravy-$(VERSION)-cp311-abi3-manylinux_2_17
WHEEL = $(WHEEL_NAME)_x86_64.whl
WHEEL_aarch64 = $(WHEEL_NAME)_aarch64.whl
WHEEL_musl = $(OUT)/hunkravy-$(VERSION)-cp311-abi3-musllinux_1_2_x86_64.whl
PACKAGE = python/setup.py python/pyproject.toml python/MANIFEST.in LICENSE $(wildcard python/native/*) \
	$(wildcard python/hunkravy/*.py python/hunkravy/*.pyi python/hunkravy/py.typed)
MODULE_HEADERS = c/include/hunkravy.h c/include/hunkravy_file.h c/include/hunkravy_records.h

# The Python that builds them, which has pip, setuptools and wheel: that of the system, with its package python3-pip. The time
# of each file is the beginning of 1980, which zip begins with.
export BUILD_PYTHON = /usr/bin/python3
BUILD_WHEEL = SOURCE_DATE_EPOCH=315532800 CFLAGS=-Werror $(BUILD_PYTHON) -m pip --quiet wheel --no-index --no-deps --no-build-isolation -w $(OUT) $(SDIST)

# With the kit the sources have the notices of Rattle's libraries.
$(OUT)/NOTICES: tools/parts.py crates.txt VERSION
	python3 tools/parts.py $(OUT) aegis_c

NOTICES = $(if $(shell command -v rt),$(OUT)/NOTICES)

$(SDIST): $(OUT)/both/libhunkravy.a $(PACKAGE) $(MODULE_HEADERS) python/README.md tools/ship_pages.py $(NOTICES)
	rm -rf $(OUT)/sources
	for file in $(PACKAGE); do install -D -m 644 $$file $(OUT)/sources/python/$${file#python/} || exit 1; done
	install -D -m 644 -t $(OUT)/sources/python/include $(MODULE_HEADERS)
	install -D -m 644 -t $(OUT)/sources/python/lib/x86_64 $<
	$(if $(NOTICES),install -m 644 -t $(OUT)/sources/python $(OUT)/NOTICES $(OUT)/parts.spdx.json)
	python3 tools/ship_pages.py $(OUT)/sources python/README.md
	cd $(OUT)/sources/python && $(BUILD_PYTHON) setup.py --quiet sdist --dist-dir "$(abspath $(OUT))"

$(WHEEL): $(SDIST)
	CC="$(CC)" _PYTHON_HOST_PLATFORM=manylinux_2_17-x86_64 $(BUILD_WHEEL)

# Debian's Python.h looks for pyconfig.h below the name of the processor. That of x86-64 has the same sizes.
$(WHEEL_aarch64): $(SDIST) $(OUT)/aarch64/libhunkravy.a
	mkdir -p $(OUT)/aarch64/include && ln -sfn /usr/include/x86_64-linux-gnu $(OUT)/aarch64/include/aarch64-linux-gnu
	CC=$(TOOLS_aarch64)gcc CPATH="$(abspath $(OUT)/aarch64/include)" HUNKRAVY_LIB_DIR="$(abspath $(OUT)/aarch64)" \
		_PYTHON_HOST_PLATFORM=manylinux_2_17-aarch64 $(BUILD_WHEEL)

# musl-gcc has no folder of headers but that of musl. Setuptools names that of Debian's libraries, where the linker would find
# glibc, so that of musl comes first.
$(WHEEL_musl): $(SDIST)
	mkdir -p $(OUT)/musl/include && ln -sfn /usr/include/x86_64-linux-gnu $(OUT)/musl/include/x86_64-linux-gnu
	CC=musl-gcc CPATH="$(abspath $(OUT)/musl/include)" LDFLAGS=-L/usr/lib/x86_64-linux-musl \
		_PYTHON_HOST_PLATFORM=musllinux_1_2-x86_64 $(BUILD_WHEEL)

# The package, unpacked from its wheel.
python-package: $(WHEEL)
	rm -rf $(OUT)/python && mkdir $(OUT)/python && python3 -m zipfile -e $(WHEEL) $(OUT)/python

# Its tests.
test-python: export HUNKRAVY_SDIST = $(abspath $(SDIST))
test-python: python-package
	cd python/tests && PYTHONPATH="$(abspath $(OUT)/python)" python3 -B -m unittest

check-types: python-package
	tools/check_types.sh "$(CURDIR)/$(OUT)/python"

# The tests of the package as the wheel has it, with files of the tool: see tools/check_python.sh.
check-python: export HUNKRAVY_TOOL = $(CURDIR)/$(TOOL)
check-python: check-types $(TOOL)
	tools/check_python.sh "$(abspath $(OUT)/python)" "$(abspath $(SDIST))"
