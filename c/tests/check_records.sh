#!/bin/bash
# check_records.sh RECORDS..: whether the example c/examples/records.c, by this command, opens what it seals through a pipe, and
# rejects a changed byte of the last tag or of an earlier record, one byte more, and one less.
set -euo pipefail
work=$(mktemp -d)
trap 'rm -r "$work"' EXIT
head -c 32 /dev/urandom > "$work/key"
for length in 0 65536 200000; do
    head -c $length /dev/urandom > "$work/plain"
    "$@" seal "$work/key" < "$work/plain" | tee "$work/sealed" | "$@" open "$work/key" | cmp - "$work/plain"
done
sealed=$(stat -c %s "$work/sealed")
flipped() {
    cp "$work/sealed" "$work/changed"
    byte=$(od -An -tu1 -j"$1" -N1 "$work/sealed")
    printf '%b' "\\x$(printf %02x $((byte ^ 1)))" | dd of="$work/changed" bs=1 seek="$1" conv=notrunc status=none
}
for change in "flipped $((sealed - 1))" "flipped 134000" "resized $((sealed + 1))" "resized $((sealed - 1))"; do
    case $change in
        flipped*) flipped "${change#* }" ;;
        *) cp "$work/sealed" "$work/changed" && truncate -s "${change#* }" "$work/changed" ;;
    esac
    if "$@" open "$work/key" < "$work/changed" > "$work/opened" 2> "$work/said"; then
        echo "check_records.sh: a stream that is $change opens" >&2
        exit 1
    fi
done
