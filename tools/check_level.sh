#!/bin/bash
# check_level.sh ARCHIVE SHARED LINES: whether each call of the library with both builds leads to the one for this processor's
# level, as /proc/cpuinfo gives it, also on a processor of the lower level, where qemu is installed; that the lower build has
# no instruction of the higher level; where functions begin; and that a program has only the functions that it calls. LINES is
# the folder of the stored lines.
set -euo pipefail
archive=$(realpath "$1") shared=$(realpath "$2") lines=$(realpath "$3")
tests=$PWD/c/tests include=$PWD/c/include levels=$PWD/c/levels examples=$PWD/c/examples
work=$(mktemp -d)
trap 'rm -rf "$work"' EXIT
cd "$work"

fail() {
    echo "$1" >&2
    exit 1
}

# The builds are one object. The sections of each build's functions have its level in their names, and begin at a multiple of
# 64 bytes. The names of AVX's instructions begin with v; verr and verw are older.
ar x "$archive"
for level in v2 v3; do
    found=$(objdump -d --no-show-raw-insn hunkravy.o | awk -F '\t' -v level=".text.$level." '
        /^Disassembly/ { inside = index($0, level) }
        inside && $2 ~ /^v/ && $2 !~ /^ver[rw]/ { has_avx = 1 }
        END { print has_avx ? "v3" : "v2" }')
    [ "$found" = "$level" ] || fail "the build for x86-64-$level has the instructions of x86-64-$found"
    objdump -h hunkravy.o | awk -v level=".text.$level." 'index($2, level) == 1 {
            sections++; if ($NF != "2**6" || $3 == "00000000") bad = $2 }
        END { if (sections < 40 || bad) { print "a function begins at no multiple of 64 bytes: " bad; exit 1 } }'
done

# Each name branches to the build for x86-64-v3 if the flag is set, and else to the other one.
nm hunkravy.o | awk 'sub(/^hunkravy_v3_/, "", $3) { print $3 }' > names
[ "$(wc -l < names)" -ge 30 ] || fail 'the build for x86-64-v3 has no calls'
while read -r name; do
    objdump -dr --no-show-raw-insn -j ".text.hunkravy_$name" hunkravy.o |
        awk '$2 ~ /^(cmpb|jne|jmp)$/ { printf " %s", $2 } $2 ~ /^R_/ { printf " %s", $3 }' |
        diff - <(printf " %s" cmpb .bss.hunkravy_has_level_3-0x5 jne "hunkravy_v3_$name-0x4" jmp "hunkravy_v2_$name-0x4") ||
        fail "hunkravy_$name does not lead to both builds"
done < names

# The program prints the level, and the flag, which the symbol table has.
cat > level.c << 'END'
#include <stdio.h>
#include <stdlib.h>
extern char __executable_start;
extern int hunkravy_level(void);
int main(int count, char **arguments)
{
    return count != 2 || printf("%d %d\n", hunkravy_level(), (&__executable_start)[strtoul(arguments[1], 0, 16)]) < 0;
}
END
gcc -O1 -fPIC -pie level.c "$archive" -o level
flag=$(nm level | awk '$3 == "hunkravy_has_level_3" { print $1 }')
# is_bound LEVEL FLAG COMMAND..: whether the program finds this level and this flag when it is run so.
is_bound() {
    found=$("${@:3}" ./level "$flag" 2> said) || fail "the program fails: $(cat said)"
    [ "$found" = "$1 $2" ] || fail "the library finds the level and the flag $found, not $1 $2"
}

# A program has the functions that it calls, and no others, if the linker may drop some.
gcc -O2 "-I$include" "$examples/first.c" "$archive" -Wl,--gc-sections -o first
if nm first | grep ' hunkravy_v[23]_' | grep -vE '_(en|de)crypt(_combined|_in_place)?$'; then fail 'a program has functions that it does not call'; fi

features=$(sed -n 's/^ *FEATURE(.*, \([a-z0-9]*\)).*/\1/p' "$levels/level.h")
[ "$(wc -w <<< "$features")" = 9 ] || fail "level.h lists other features: $features"
[ "$(grep -c '^ *OLDER_FEATURE(' "$levels/level.h")" = 7 ] || fail 'level.h lists other features of x86-64-v2'
level=3
for feature in $features; do
    grep -m 1 -q -w "$feature" /proc/cpuinfo || level=2
done
is_bound $level $((level == 3))

# Each feature is needed for its level, and so is a system that saves all registers of AVX: without one the level is lower.
cat > levels.c << 'END'
#include <cpuid.h>
#include <stdint.h>
#include <stdio.h>
static unsigned lost_leaf, lost_bit;
static uint32_t saved = 6;
/* A processor that has all but one feature. */
static int processor(unsigned leaf, unsigned *b, unsigned *c)
{
    *b = *c = leaf == lost_leaf ? ~lost_bit : ~0U;
    return 1;
}
#define __get_cpuid_count(leaf, subleaf, a, b, c, d) ((void)(a), (void)(d), processor(leaf, b, c))
#define __asm__(...) (low = saved, high = 0)
#include "level.h"
#define CHECK(LEAF, BIT, NAME) lost_leaf = LEAF, lost_bit = BIT, wrong += level_here() != level;
int main(void)
{
    int wrong = level_here() != 3, level = 0;
    LEVEL_2(CHECK)
    level = 2;
    LEVEL_3(CHECK)
    lost_bit = 0;
    for (saved = 0; saved < 256; saved++) {
        wrong += level_here() != ((saved & 6) == 6 ? 3 : 2);
    }
    return wrong;
}
END
gcc -O1 -Wno-unused-but-set-variable "-I$levels" levels.c -o levels
./levels || fail 'a level does not need each of its features'

# On a processor of the lower level: the calls' bindings, and the tests over both libraries.
if command -v qemu-x86_64 > /dev/null; then
    old='qemu-x86_64 -cpu Nehalem'
    is_bound 2 0 $old
    # Each feature is asked for: without it the lower build runs.
    is_bound 3 1 qemu-x86_64 -cpu Haswell
    for feature in $features; do
        is_bound 2 0 qemu-x86_64 -cpu Haswell,-$feature
    done
    is_bound 0 0 qemu-x86_64 -cpu Conroe
    for library in "$archive" "$shared"; do
        gcc -std=c99 -O2 "-I$include" "$tests/check_states.c" "$library" -Wl,-rpath,"$(dirname "$shared")" -o states
        $old ./states "$lines"
    done
else
    echo 'left out: the library on a processor of level x86-64-v2, by qemu-x86_64, which is not installed'
fi
