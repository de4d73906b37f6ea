#!/bin/sh
# check_time.sh PROGRAM: runs c/tests/check_time.c under valgrind's memcheck, which must report both controls, and
# otherwise nothing but what c/tests/check_time.supp names: at most one branch for each opening, of which there are for a
# message three at once, three on a state, three of records, three of pages and two of headers, and those few of a page and
# of a header that are named there; one more for each opening of a message into another buffer; and one for each result, of
# an opening or of a MAC, that an export turns into a code.
set -eu
program=$1
suppressions=c/tests/check_time.supp
log=$(mktemp)
trap 'rm -f "$log"' EXIT

# Ends with status 99 if something is reported.
memcheck() {
    valgrind -s --error-limit=no --error-exitcode=99 --suppressions="$suppressions" "$program" "$@" 2> "$log"
}

for control in branch address; do
    status=0
    memcheck "$control" || status=$?
    [ "$status" = 99 ] || { echo "memcheck does not report the control '$control'" >&2; exit 1; }
done

said=$(memcheck) || { cat "$log" >&2; exit 1; }
echo "$said"
openings=${said##* }
awk -v messages="$((openings / 3))" '
    BEGIN { most["at-once"] = most["on-a-state"] = most["all-of-a-page"] = 3; most["in-place"] = 11; most["what-a-header-has"] = 1
        most["into-another-buffer"] = 2; most["as-a-code"] = 10 }
    / used_suppression: / && sub(/^accepted-or-refused-/, "", $4) { count[$4] += $3 }
    END {
        for (kind in count) {
            print kind ": " count[kind] " branches"
            many += count[kind] > messages * most[kind]
        }
        # One function opens a message at once, and a record, a page or a header in place. It is inlined into some callers.
        many += count["at-once"] + count["in-place"] > messages * 11
        exit many || !count["at-once"] || !count["on-a-state"] || !count["in-place"]
    }' "$log"
