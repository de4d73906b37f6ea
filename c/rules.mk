# The C library, for Linux, and its tests. What follows builds with stock gcc, and proves nothing but that library.
.PHONY: c-library c-libraries install check-c check-header check-c++ check-sanitized check-rebuilt check-shared check-manual \
	check-level check-sodium check-musl check-abi abi check-time check-install gcc-aarch64-linux-gnu qemu-user

# Finds files, but not what was built.
FILES = find . -name .git -prune -o -name out -prune -o -name target -prune -o -type f

CC = gcc
C_FLAGS = -Wall -Wextra -Wpedantic -Werror -Ic/include
SANITIZERS = -O1 -g -fsanitize=address,undefined -fno-sanitize-recover

# The platform. If TARGET is that of ARM, there is one build, and its programs run here under an emulator.
TARGET = x86_64-unknown-linux-gnu
ARM = aarch64-unknown-linux-gnu
TOOLS_aarch64 = aarch64-linux-gnu-
RUN_aarch64 = qemu-aarch64 -L /usr/aarch64-linux-gnu

# The folder of the library below OUT.
FOLDER_x86_64-unknown-linux-gnu = $(or $(CPU),both)
FOLDER_$(ARM) = aarch64
FOLDER = $(or $(FOLDER_$(TARGET)),$(error TARGET is x86_64-unknown-linux-gnu or $(ARM)))
LIBRARY = $(OUT)/$(FOLDER)/libhunkravy.a

STORED_LINES = crates/test_agreement/data
OWN_HEADERS = hunkravy.h hunkravy_records.h hunkravy_pages.h hunkravy_file.h
HEADERS = $(OWN_HEADERS) hunkravy_sodium.h
C_EXAMPLES = $(basename $(notdir $(sort $(wildcard c/examples/*.c))))

# The names that headers declare. The library exports those of its headers, and those of journal.h for the Rust package, which
# the shared library has under a version of their own.
NAMES = sed -nE 's/^(HUNKRAVY_MUST_USE )?(int|size_t|uint32_t|uint64_t|void|const char) \*?(hunkravy_[a-z0-9_]*)\(.*/\3/p'
EXPORTS = $(NAMES) $(OWN_HEADERS:%=c/include/%)
PRIVATE = $(NAMES) c/library/journal.h

# ---- The library

# What join.sh adds to a build.
CALLS = $(wildcard c/library/* c/file/* c/levels/*) $(OWN_HEADERS:%=c/include/%)

c-library: $(LIBRARY)

# Each library that is checked. With them there, checks can run beside each other.
c-libraries: $(LIBRARY) $(RUNNABLE:%=$(OUT)/%/libhunkravy.a)

$(OUT)/both/libhunkravy.a: $(LEVELS:%=$(OUT)/%/aegis_c.a) $(CALLS)
	mkdir -p $(@D)
	c/levels/join.sh $@ $(LEVELS:%=$(OUT)/%/aegis_c.a)

$(OUT)/%/libhunkravy.a: $(OUT)/%/aegis_c.a $(CALLS)
	LEVEL=$(patsubst x86-64-v%,%,$(filter x86-64-v%,$*)) CC=$(TOOLS_$*)gcc AR=$(TOOLS_$*)ar \
		OBJCOPY=$(TOOLS_$*)objcopy c/levels/join.sh $@ $<

# The shared library, which exports these alone.
SONAME = libhunkravy.so.0

$(OUT)/%/$(SONAME): $(OUT)/%/libhunkravy.a $(OWN_HEADERS:%=c/include/%) c/library/journal.h c/rules.mk
	(echo 'HUNKRAVY_0 { global:'; $(EXPORTS) | sed 's/$$/;/'; echo 'local: *; };'; \
		echo 'HUNKRAVY_PRIVATE { global:'; $(PRIVATE) | sed 's/$$/;/'; echo '};') > $(@D)/exports.map
	$(TOOLS_$*)$(CC) -shared -Wl,-soname,$(SONAME),--version-script=$(@D)/exports.map,-z,defs,-z,relro,-z,now \
		-Wl,--whole-archive $(@D)/shared.a -Wl,--no-whole-archive -o $@

# The levels are built in one folder, so one after the other.
$(OUT)/x86-64-v3/aegis_c.a: | $(if $(CPU),,$(OUT)/x86-64-v2/aegis_c.a)

$(OUT)/%/aegis_c.a: FLAGS = $(if $(filter aarch64,$*),--target=$(ARM),--cpu=$*)
$(OUT)/%/aegis_c.a: $(call sources,aegis_c) crates.txt
	mkdir -p $(@D)
	$(call build,aegis_c,$(FLAGS),rt lib $(FLAGS),out/libaegis_c.a)

# The packages that have the tools for ARM.
$(OUT)/aarch64/aegis_c.a: | gcc-aarch64-linux-gnu
check-c-aarch64: | qemu-user

gcc-aarch64-linux-gnu: PROGRAM = aarch64-linux-gnu-gcc
qemu-user: PROGRAM = qemu-aarch64
gcc-aarch64-linux-gnu qemu-user:
	@command -v $(PROGRAM) > /dev/null || \
		{ echo '$(PROGRAM) is not installed: TARGET=$(ARM) needs the package $@' >&2; exit 1; }

# Its manual page, with the date of the tool's.
$(OUT)/hunkravy.3: c/manual.awk $(OWN_HEADERS:%=c/include/%) crates/hunkravy/manual/man VERSION | $(OUT)
	awk -v version=$(VERSION) -v date="$$(awk '/^\.TH/ { print $$4 }' crates/hunkravy/manual/man)" \
		-f $< $(OWN_HEADERS:%=c/include/%) > $@

# ---- Its tests

# Its headers, and over the library with both levels and over each level alone the examples, every call of each header,
# against the stored lines where these have its result, and forgeries, and what hunkravy_wipe leaves in memory; then what does
# not depend on the level.
# A level that this processor lacks is left out. For ARM the programs run under an emulator, without the sanitizers: the C is
# the same, and they take a minute and a half there.
check-c: $(if $(filter aarch64,$(FOLDER)),check-c-aarch64,check-header $(addprefix check-c-,both $(RUNNABLE)) \
	check-sanitized check-shared check-level check-c++ check-sodium check-rebuilt)

# Each header compiles alone, by each standard of C and C++, and without a warning; and so does what is compiled here. The oldest
# standards are without -Wpedantic, which libsodium's headers do not pass either.
CLANG = $(shell command -v clang)
# New clangs warn of each pointer that is moved.
EVERYTHING = -Weverything -Wno-unknown-warning-option -Wno-unsafe-buffer-usage
STANDARDS = c99 c11 c17 c2x $(if $(shell command -v g++),c++11 c++14 c++17 c++20)

check-header: check-manual
	$(if $(findstring c++,$(STANDARDS)),,echo 'left out: the headers as C++, since g++ is not installed')
	for header in $(HEADERS); do for compiler in $(CC) $(CLANG); do \
		for standard in $(STANDARDS); do \
			case $$standard in c++*) language=c++ ;; *) language=c ;; esac; \
			echo "#include \"$$header\"" | \
				$$compiler -std=$$standard $(C_FLAGS) -fsyntax-only -x $$language - || exit 1; \
		done; \
	done; done
	for compiler in $(CC) $(CLANG); do for language in c $(if $(findstring c++,$(STANDARDS)),c++); do \
		{ printf '#include "%s"\n' $(HEADERS); echo 'void f(void); void f(void) { sodium_init(); }'; } | \
			$$compiler -std=$$(case $$language in c) echo c89 ;; *) echo c++98 ;; esac) -Wall -Wextra -Werror -Ic/include \
				-fsyntax-only -x $$language - || exit 1; \
	done; done
	uses() { \
		printf '#include "hunkravy_sodium.h"\nvoid f(void);\nvoid f(void) { %s; }\n' "$$1" | \
			$$compiler $(C_FLAGS) -c -o /dev/null -x c -; \
	} && for compiler in $(CC) $(CLANG); do \
		for call in 'hunkravy_stream(0, 0, 0, 0, 0, 0, 0)' \
			'crypto_aead_aegis256_decrypt(0, 0, 0, 0, 0, 0, 0, 0, 0)'; do \
			uses "int code = $$call; (void)code" && ! uses "$$call" 2> /dev/null || exit 1; \
		done; \
		! uses 'int code = hunkravy_mac_final(0, 0, 0); (void)code' 2> /dev/null || exit 1; \
	done
	for name in sodium_H crypto_aead_aegis128l_H crypto_aead_aegis256_H; do \
		! echo '#include "hunkravy_sodium.h"' | $(CC) -D$$name $(C_FLAGS) -fsyntax-only -x c - 2> /dev/null || exit 1; \
	done
	! grep -n '^int hunkravy_' $(OWN_HEADERS:%=c/include/%) | grep -v 'hunkravy_level(void)'
	if [ -n "$(CLANG)" ]; then \
		for header in $(HEADERS); do \
			echo "#include \"$$header\"" | $(CLANG) -std=c99 $(C_FLAGS) $(EVERYTHING) -fsyntax-only -x c - || exit 1; \
		done; \
		for file in c/library/*.c c/file/*.c; do \
			$(CLANG) -std=c99 $(C_FLAGS) -Ic/library $(EVERYTHING) -Wno-declaration-after-statement -fsyntax-only $$file || exit 1; \
		done; \
	else \
		echo 'left out: the headers by clang, which is not installed'; \
	fi
	if clang-format --version 2> /dev/null | grep -q 'version 14'; then \
		clang-format --dry-run -Werror $$($(FILES) -name '*.c' -print); \
	else \
		echo 'left out: the layout of C, since clang-format 14 is not installed'; \
	fi
	if command -v shellcheck > /dev/null; then \
		shellcheck -S warning $$($(FILES) -name '*.sh' -print) dist/debian/tests/{library,tool}; \
	else \
		echo 'left out: the shell programs by shellcheck, which is not installed'; \
	fi

# The manual page has each function of the headers as a line of its own, and mandoc reads it.
check-manual: $(OUT)/hunkravy.3
	diff <($(EXPORTS) | sort) <($(NAMES) $< | sort)
	if command -v mandoc > /dev/null; then \
		mandoc -T lint -W warning $<; \
	else \
		echo 'left out: the manual page by mandoc, which is not installed'; \
	fi

# The C programs: the examples, and the tests but those with a rule of their own. The tests read the stored lines.
C_TESTS = $(filter-out check_time check_wipe,$(basename $(notdir $(sort $(wildcard c/tests/*.c)))))
C_PROGRAMS = $(C_EXAMPLES) $(C_TESTS)
ITS_LINES = $$(case $$program in check_*) echo $(STORED_LINES) ;; esac)
# The tests of files let allocations and calls of the system fail.
WRAPS = $$(case $$program in \
	check_file) printf ' -Wl,--wrap=%s' malloc calloc ;; \
	check_posix) printf ' -Wl,--wrap=%s' flock fsync pwrite ftruncate fallocate posix_fadvise rename syscall realpath ;; esac)

# The archive has the calls of the headers and of journal.h, and no other name that is not local.
check-c-%: $(OUT)/%/libhunkravy.a
	diff <(($(EXPORTS); $(PRIVATE)) | sort) <($(TOOLS_$*)nm --defined-only -g $< | awk 'NF == 3 && $$3 !~ /_chk$$/ { print $$3 }' | sort)
	for program in $(C_PROGRAMS); do \
		$(TOOLS_$*)$(CC) -std=c99 $(C_FLAGS) -O2 c/[et]*/$$program.c $< $(WRAPS) -o $(OUT)/$*/$$program && \
		LEVEL=$(if $(filter both,$*),,$(or $(patsubst x86-64-v%,%,$(filter x86%,$*)),1)) \
			$(RUN_$*) $(OUT)/$*/$$program $(ITS_LINES) || exit 1; \
	done
	c/tests/check_records.sh $(RUN_$*) $(OUT)/$*/records
	for compiler in $(TOOLS_$*)$(CC) $(if $(TOOLS_$*),,$(CLANG)); do \
		$$compiler -std=c99 $(C_FLAGS) -O3 c/tests/check_wipe.c $< -o $(OUT)/$*/check_wipe && \
		$(RUN_$*) $(OUT)/$*/check_wipe || exit 1; \
	done

# The programs with the calls of c/library under gcc's sanitizers, over the proved exports of one level. These get no null
# pointer.
SANITIZED = $(OUT)/sanitized

check-sanitized: $(OUT)/$(firstword $(LEVELS))/aegis_c.a
	mkdir -p $(SANITIZED)
	cp c/library/* c/file/* c/levels/choose.c $(SANITIZED)
	sed -i 's/^int hunkravy_proved_/__attribute__((nonnull)) &/' $(SANITIZED)/proved.h
	for program in $(C_PROGRAMS); do \
		$(CC) -std=c99 $(C_FLAGS) $(SANITIZERS) -DHUNKRAVY_LEVEL=1 c/[et]*/$$program.c $(SANITIZED)/*.c $< \
			$(WRAPS) -o $(SANITIZED)/$$program && \
		$(SANITIZED)/$$program $(ITS_LINES) || exit 1; \
	done
	c/tests/check_records.sh $(SANITIZED)/records

# Each library is built again once a file of each folder that it is made of is newer, and the shared one once its rule is.
check-rebuilt: $(OUT)/both/libhunkravy.a $(OUT)/both/$(SONAME)
	$(MAKE) -q $^
	for file in c/levels/join.sh c/levels/level.h c/library/messages.c c/include/hunkravy.h; do \
		for library in $^; do ! $(MAKE) -q -W $$file $$library || exit 1; done; \
	done
	! $(MAKE) -q -W c/rules.mk $(lastword $^)

# The tests over the shared library, which exports the calls of the headers, and those of journal.h under their own version.
check-shared: $(OUT)/both/$(SONAME)
	diff <(($(EXPORTS) | sed 's/$$/@@HUNKRAVY_0/'; $(PRIVATE) | sed 's/$$/@@HUNKRAVY_PRIVATE/') | sort) <(nm -D --defined-only $< | awk '$$2 == "T" { print $$3 }' | sort)
	for program in $(C_TESTS); do \
		$(CC) -std=c99 $(C_FLAGS) -O2 c/tests/$$program.c $< -Wl,-rpath,"$(CURDIR)/$(<D)" -o $(<D)/$$program-shared && \
		$(<D)/$$program-shared $(STORED_LINES) || exit 1; \
	done

# The tests with another C library than glibc, over the library with both levels and over each level alone.
check-musl: $(addprefix check-musl-,both $(RUNNABLE))
	for example in $(C_EXAMPLES); do \
		musl-gcc -Werror=implicit-function-declaration -Ic/include -fsyntax-only c/examples/$$example.c || exit 1; \
	done

check-musl-%: $(OUT)/%/libhunkravy.a
	for program in $(C_TESTS); do \
		musl-gcc -static -std=c99 -D_DEFAULT_SOURCE $(C_FLAGS) -O2 c/tests/$$program.c $< -o $(OUT)/$*/$$program-musl && \
		LEVEL=$(patsubst x86-64-v%,%,$(filter x86%,$*)) $(OUT)/$*/$$program-musl $(STORED_LINES) || exit 1; \
	done

# The structs and the functions of the headers are those of c/abi.txt, so no type changes without a new one of these.
INTERFACE = include() { printf '\#include "%s"\n' $(OWN_HEADERS) | $(CC) -std=c99 -Ic/include "$$@" -x c -; } && \
	{ include -E -P | sed -nE '/^(typedef )?struct hunkravy\w* \{/,/^}/p; /^enum hunkravy.*\}/p'; \
	include -fsyntax-only -aux-info /dev/stdout | sed -n 's/.* extern \(.*hunkravy_.*\)/\1/p' | LC_ALL=C sort; }

check-abi:
	$(INTERFACE) | diff c/abi.txt -
	grep -c hunkravy c/abi.txt

abi:
	$(INTERFACE) > c/abi.txt

# That each name is bound to the build for this processor's level, and that no build has instructions of another level.
check-level: $(OUT)/both/libhunkravy.a $(OUT)/both/$(SONAME)
	tools/check_level.sh $^ $(STORED_LINES)

# The tests as C++, which call what the headers have. Exceptions: those of files, and of journal.h, which is for C.
check-c++: $(OUT)/both/libhunkravy.a
	for program in $(filter-out check_file check_journals check_posix check_owners,$(C_TESTS)); do \
		$(CC) -std=c++11 $(C_FLAGS) -O2 -x c++ c/tests/$$program.c -x none $< -o $(OUT)/both/$$program++ && \
		$(OUT)/both/$$program++ $(STORED_LINES) || exit 1; \
	done

# Whether a branch or an address depends on a secret: valgrind's memcheck reports each, at each level.
check-time: $(addprefix check-time-,$(RUNNABLE))

check-time-%: $(OUT)/%/libhunkravy.a
	$(CC) -std=c99 $(C_FLAGS) -O2 c/tests/check_time.c $< -o $(OUT)/$*/check_time
	tools/check_time.sh $(OUT)/$*/check_time

# Runs the test of libsodium's calls with libsodium itself, if its release has AEGIS, to see that both behave the same.
check-sodium: $(OUT)/both/libhunkravy.a
	if pkg-config --exists 'libsodium >= 1.0.19'; then \
		$(CC) -std=c99 $(C_FLAGS) -DWITH_LIBSODIUM c/tests/check_libsodium.c $< \
			$$(pkg-config --cflags --libs libsodium) -o $(OUT)/check-sodium && \
		$(OUT)/check-sodium $(STORED_LINES); \
	else \
		echo 'left out: hunkravy_sodium.h beside libsodium 1.0.19 or newer, which is not installed'; \
	fi

# ---- Installing

# Installs the headers, the libraries, the examples, the manual page, and the files that pkg-config and CMake read, which
# find the others from where they lie themselves. In /usr pkg-config's file names the folders, so that no option is
# printed for those of the system.
EXAMPLES_FOLDER = $(PREFIX)/share/doc/hunkravy/examples
LIBRARIES = $(PREFIX)/lib
CMAKE_FOLDER = $(LIBRARIES)/cmake/hunkravy
SHARED = $(OUT)/$(FOLDER)/$(SONAME)
PC_PREFIX = $(if $(filter /usr,$(PREFIX)),/usr,$${pcfiledir}/@RELATIVE@)
PC_LIBRARIES = $(if $(filter /usr,$(PREFIX)),$(LIBRARIES),$${pcfiledir}/..)

install: $(LIBRARY) $(SHARED) $(OUT)/hunkravy.3
	install -d "$(DESTDIR)$(PREFIX)/include" "$(DESTDIR)$(LIBRARIES)/pkgconfig" "$(DESTDIR)$(EXAMPLES_FOLDER)"
	install -m 644 $(HEADERS:%=c/include/%) "$(DESTDIR)$(PREFIX)/include"
	install -m 644 $(LIBRARY) "$(DESTDIR)$(LIBRARIES)"
	install -m 644 $(SHARED) "$(DESTDIR)$(LIBRARIES)/libhunkravy.so.$(VERSION)"
	ln -sf libhunkravy.so.$(VERSION) "$(DESTDIR)$(LIBRARIES)/$(SONAME)"
	ln -sf $(SONAME) "$(DESTDIR)$(LIBRARIES)/libhunkravy.so"
	install -m 644 $(C_EXAMPLES:%=c/examples/%.c) "$(DESTDIR)$(EXAMPLES_FOLDER)"
	install -D -m 644 $(OUT)/hunkravy.3 "$(DESTDIR)$(PREFIX)/share/man/man3/hunkravy.3"
	prefix=$$(realpath -m --relative-to="$(DESTDIR)$(LIBRARIES)/pkgconfig" "$(DESTDIR)$(PREFIX)/") && \
		sed -e 's|@PREFIX@|$(PC_PREFIX)|' -e 's|@LIBRARIES@|$(PC_LIBRARIES)|' -e 's|@VERSION@|$(VERSION)|' \
			-e "s|@RELATIVE@|$$prefix|" c/include/hunkravy.pc.in | \
		install -m 644 /dev/stdin "$(DESTDIR)$(LIBRARIES)/pkgconfig/hunkravy.pc" && \
		install -D -m 644 c/include/hunkravy-config.cmake "$(DESTDIR)$(CMAKE_FOLDER)/hunkravy-config.cmake" && \
		echo "get_filename_component(_hunkravy_include \"\$${CMAKE_CURRENT_LIST_DIR}/../../pkgconfig/$$prefix/include\" ABSOLUTE)" | \
		install -m 644 /dev/stdin "$(DESTDIR)$(CMAKE_FOLDER)/hunkravy-include.cmake"
	sed 's|@VERSION@|$(VERSION)|' c/include/hunkravy-config-version.cmake.in | \
		install -m 644 /dev/stdin "$(DESTDIR)$(CMAKE_FOLDER)/hunkravy-config-version.cmake"

# Builds and runs the examples that are installed at PREFIX, with what pkg-config returns: over the shared library, and over
# the static one. With CMake a project asks for no version, or for one. Which version serves which is tested with other numbers.
check-install: | $(OUT) $(if $(filter aarch64,$(FOLDER)),gcc-aarch64-linux-gnu qemu-user)
	export PKG_CONFIG_PATH="$(LIBRARIES)/pkgconfig" LD_LIBRARY_PATH="$(LIBRARIES)" && \
	[ "$$(realpath "$$(pkg-config --variable=prefix hunkravy)")" = "$$(realpath "$(PREFIX)/")" ] && \
	[ "$$(pkg-config --modversion hunkravy)" = $(VERSION) ] && \
	shared=$$(pkg-config --cflags --libs hunkravy) && \
	static="$$(pkg-config --cflags --libs-only-L hunkravy) -l:libhunkravy.a -Wl,--gc-sections" && \
	for example in $(C_EXAMPLES); do for flags in "$$shared" "$$static"; do \
		eval "$(TOOLS_$(FOLDER))$(CC) -std=c99 '$(EXAMPLES_FOLDER)/$$example.c' $$flags -o $(OUT)/$$example-installed" && \
		$(RUN_$(FOLDER)) $(OUT)/$$example-installed || exit 1; \
	done; done
	if [ -n '$(TOOLS_$(FOLDER))' ]; then \
		echo 'left out: the example by CMake, which has no tools for ARM here'; \
	elif command -v cmake > /dev/null; then \
		rm -rf $(OUT)/cmake && mkdir $(OUT)/cmake && \
		printf '%s\n' 'cmake_minimum_required(VERSION 3.10)' 'project(installed C)' 'find_package(hunkravy $${ASKED} REQUIRED)' \
			'foreach(kind hunkravy static)' 'add_executable(seal-$${kind} "$(EXAMPLES_FOLDER)/seal.c")' \
			'target_link_libraries(seal-$${kind} hunkravy::$${kind})' 'endforeach()' \
			'get_target_property(soname hunkravy::hunkravy IMPORTED_SONAME)' \
			'if(NOT soname STREQUAL $(SONAME))' 'message(FATAL_ERROR "$${soname}")' 'endif()' > $(OUT)/cmake/CMakeLists.txt && \
		finds() { \
			cmake -S $(OUT)/cmake -B $(OUT)/cmake/build "-DASKED=$$1" \
				-DCMAKE_PREFIX_PATH="$(PREFIX)" > /dev/null 2> $(OUT)/cmake/said; \
		} && \
		for asked in 1.0 0.0.1 $(VERSION).1 '0.0.1;EXACT'; do ! finds $$asked || exit 1; done && \
		for asked in '' '$(VERSION);EXACT' $(VERSION) '0.0...<1'; do finds "$$asked" || { cat $(OUT)/cmake/said; exit 1; }; done && \
		serves() { \
			{ sed "s|@VERSION@|$$1|" c/include/hunkravy-config-version.cmake.in && \
				echo 'message("compatible: $${PACKAGE_VERSION_COMPATIBLE}")'; } > $(OUT)/cmake/version.cmake && \
			cmake -DPACKAGE_FIND_VERSION=$$2 "$${@:3}" -P $(OUT)/cmake/version.cmake 2>&1 | grep -q 'compatible: TRUE'; \
		} && \
		in_range() { \
			serves $$1 $$2 -DPACKAGE_FIND_VERSION_RANGE=$$2...$$3 -DPACKAGE_FIND_VERSION_MIN=$$2 \
				-DPACKAGE_FIND_VERSION_MAX=$${3#<} -DPACKAGE_FIND_VERSION_RANGE_MAX=$$(case $$3 in '<'*) echo EXCLUDE ;; *) echo INCLUDE ;; esac); \
		} && \
		serves 0.2.5 0.2.1 && serves 1.4.2 1.3 && ! serves 0.2.5 0.1.9 && ! serves 0.2.5 0.2.6 && ! serves 2.0.0 1.9 && \
		in_range 0.2.5 0.1 '<1' && in_range 0.2.5 0.2.5 0.2.5 && ! in_range 0.2.5 0.2.6 1 && ! in_range 0.2.5 0.1 '<0.2.5' && \
		cmake --build $(OUT)/cmake/build > /dev/null && \
		$(OUT)/cmake/build/seal-hunkravy && $(OUT)/cmake/build/seal-static; \
	else \
		echo 'left out: the example by CMake, which is not installed'; \
	fi
