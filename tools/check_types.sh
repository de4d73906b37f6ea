#!/bin/bash
# check_types.sh FOLDER: the types of the Python package that lies unpacked in a folder, and of its tests; and that its
# native module is compiled for the stable interface of the version that the wheel names.
set -euo pipefail
folder=$1
cd "$(dirname "$0")/../python"

headers=$(python3 -c 'import sysconfig; print(sysconfig.get_path("include"))')
gcc -E -dM -I../c/include "-I$headers" native/native.c | grep '^#define Py_LIMITED_API 0x030B0000$' > /dev/null ||
    { echo 'the native module is compiled for another interface than that of Python 3.11' >&2; exit 1; }

# Of the package as sources: as an installed one, which PYTHONPATH would make of it, it is not checked.
if command -v mypy > /dev/null; then
    (cd "$folder" && env -u PYTHONPATH mypy --strict --cache-dir=/dev/null -p hunkravy)
    (cd tests && env -u PYTHONPATH MYPYPATH="$folder" mypy --strict --cache-dir=/dev/null ./*.py ../examples/*.py)
    # A name of the standard library that mypy's own description of it gets wrong.
    (cd "$folder" && PYTHONPATH=. stubtest --concise hunkravy --ignore-unused-allowlist \
        --allowlist <(echo 'hunkravy\._files\.BinaryIO\.write'))
else
    echo 'left out: the types of the Python package by mypy, which is not installed'
fi
