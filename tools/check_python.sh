#!/bin/bash
# check_python.sh FOLDER SDIST: the tests of the Python package that lies unpacked in a folder, which run the samples of its
# pages and its example too; the same tests of a native module with gcc's sanitizers; and what the module exports and
# needs.
set -euo pipefail
folder=$1
export HUNKRAVY_SDIST=$2
cd "$(dirname "$0")/../python"
work=$(mktemp -d)
trap 'rm -rf "$work"' EXIT
export PYTHONDONTWRITEBYTECODE=1

fail() {
    echo "check_python.sh: $*" >&2
    exit 1
}

# run_tests FOLDER: runs the tests with the package of a folder. Some versions of unittest pass with no tests.
run_tests() {
    (cd tests && PYTHONPATH=$1 python3 -bb -W error -m unittest -v) > "$work/log" 2>&1 || { cat "$work/log"; fail 'a test failed'; }
    grep '^Ran [1-9]' "$work/log" || fail 'there was no test'
}

run_tests "$folder"
sed -n 's/.* \.\.\. skipped /left out: a Python test: /p' "$work/log" | sort -u

# The module has its own library, and exports nothing of it.
module=$folder/hunkravy/_native.abi3.so
names=$(nm -D --defined-only "$module" | awk '{ print $3 }')
[ "$names" = PyInit__native ] || fail "the native module exports $names"
if nm -D --undefined-only "$module" | grep hunkravy; then fail 'the native module needs a library'; fi

# Its level is that of the processor that runs it.
if command -v qemu-x86_64 > /dev/null && [ "$(uname -m)" = x86_64 ]; then
    python=$(python3 -c 'import sys; print(sys.executable)')
    [ "$(PYTHONPATH=$folder qemu-x86_64 -cpu Nehalem "$python" -P -c 'import hunkravy; print(hunkravy.level())')" = 2 ] ||
        fail 'the module has another level than that of its processor'
else
    echo 'left out: the Python package on a processor of level x86-64-v2, by qemu-x86_64, which is not installed'
fi

# build NAME: builds the wheel from the sources, and unpacks it.
build() {
    SOURCE_DATE_EPOCH=315532800 _PYTHON_HOST_PLATFORM=manylinux_2_17-$(uname -m) CC=gcc \
        "$BUILD_PYTHON" -m pip --quiet wheel --no-index --no-deps --no-build-isolation -w "$work/$1-wheel" "$HUNKRAVY_SDIST"
    python3 -m zipfile -e "$work/$1"-wheel/*.whl "$work/$1"
}

# On a processor that no build runs on, the import says so: the library of this module finds none.
echo 'int __wrap_hunkravy_level(void); int __wrap_hunkravy_level(void) { return 0; }' | gcc -fPIC -c -o "$work/older.o" -x c -
LDFLAGS="-Wl,--wrap=hunkravy_level $work/older.o" build older
(PYTHONPATH=$work/older python3 -P -c 'import hunkravy' 2>&1 || true) | grep -q '^ImportError: .* x86-64-v2 ' ||
    fail 'the import does not say that the processor is too old'

# Another build gives the same bytes as that of `make`.
CFLAGS=-Werror build again
cmp "$work"/again-wheel/*.whl "$folder"/../*manylinux*"$(uname -m)".whl || fail 'two builds of the wheel differ'

# With the sanitizers. Python itself leaks.
sanitizer=$(gcc -print-file-name=libasan.so)
if [ -e "$sanitizer" ]; then
    CFLAGS='-O1 -g -fsanitize=address,undefined -fno-sanitize-recover' build sanitized
    export ASAN_OPTIONS=detect_leaks=0:allocator_may_return_null=1
    HUNKRAVY_SANITIZED=1 LD_PRELOAD=$sanitizer PYTHONMALLOC=malloc run_tests "$work/sanitized"
else
    echo 'left out: the native module with sanitizers, which gcc does not have'
fi

headers=$(python3 -c 'import sysconfig; print(sysconfig.get_path("include"))')
if command -v clang > /dev/null; then
    clang --analyze --analyzer-output text -Xclang -analyzer-werror -std=c11 -I../c/include "-I$headers" native/*.c
else
    echo 'left out: the native module by the analyzer of clang, which is not installed'
fi
