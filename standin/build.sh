#!/bin/bash
# build.sh OUT: builds the stand-in in the place of the proved library, as OUT/LEVEL/aegis_c.a for each level of x86-64.
set -eu
out=$(realpath -m "$1")
cd "$(dirname "$0")"
work=$(mktemp -d)
trap 'rm -r "$work"' EXIT

rustc --edition 2024 --crate-type=staticlib -C panic=abort -C embed-bitcode=no -C opt-level=3 -C codegen-units=1 \
    -C relocation-model=pic lib.rs -o "$work/standin.a"
names=$(grep -ohE 'hunkravy_proved_[a-z_]+' ./*.rs | sort -u | sed 's/^/-u /')
# shellcheck disable=SC2086
ld -r --gc-sections $names "$work/standin.a" -o "$work/aegis_c.o"
objcopy --wildcard --keep-global-symbol='hunkravy_proved_*' -R .llvmbc -R .llvmcmd -g "$work/aegis_c.o"
for level in x86-64-v2 x86-64-v3; do
    mkdir -p "$out/$level"
    rm -f "$out/$level/aegis_c.a"
    ar rcs "$out/$level/aegis_c.a" "$work/aegis_c.o"
done
