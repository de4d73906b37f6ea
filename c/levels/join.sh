#!/bin/sh
# join.sh OUT.a V2.a V3.a: one static library of the builds for x86-64-v2 and x86-64-v3.
# join.sh OUT.a ONE.a: one of a single build, whose level is LEVEL (1, as for ARM, if it is no level of x86-64).
#
# A build is one object, whose only global names are its proved exports. The calls of c/library are joined with it, and
# then its exports are local, so that only the calls have names. For two builds each call hunkravy_NAME becomes
# hunkravy_v2_NAME or hunkravy_v3_NAME, and choose.c has the calls' own names. At last all is joined, and those of the two
# builds are local too.
#
# Beside OUT.a it leaves what a shared library is linked from, as shared.a, with debug information. Paths in it begin at the
# repository.
#
# Each function begins at a multiple of 64 bytes, so that where its loops begin does not depend on the program: a loop of
# a thousand instructions fits the processor's store of decoded instructions or not by that.
set -eu
here=$(cd "$(dirname "$0")" && pwd)
out=$1
work=$(mktemp -d)
trap 'rm -r "$work"' EXIT

# Compiles a file, with landing pads for indirect branches.
case $("${CC:-gcc}" -dumpmachine) in
x86_64*) branches=-fcf-protection ;;
*) branches=-mbranch-protection=standard ;;
esac
compile() {
    "${CC:-gcc}" -std=gnu99 -g "-ffile-prefix-map=$(realpath "$here/../..")=." "-ffile-prefix-map=$work=work" -O2 -fPIC -fno-semantic-interposition -ffunction-sections -fdata-sections -fstack-protector-strong \
        -U_FORTIFY_SOURCE -D_FORTIFY_SOURCE=3 $branches -Wall -Wextra -Wpedantic -Werror -Wno-error=cpp "-I$here/../include" "-I$here/../library" "$@"
}

# The names of the functions that an object exports.
exports() {
    "${NM:-nm}" --defined-only -g "$1" | awk '$2 == "T" { print $3 }'
}

# Takes the object of a build out of its archive, and joins the calls with it.
object() {
    archive=$(cd "$(dirname "$1")" && pwd)/$(basename "$1")
    (cd "$work" && "${AR:-ar}" x "$archive" aegis_c.o)
    "${CC:-gcc}" -r -nostdlib "$work/aegis_c.o" "$work"/calls/*.o -o "$work/$2.o"
    rm "$work/aegis_c.o"
    "${OBJCOPY:-objcopy}" --wildcard --localize-symbol='hunkravy_proved_*' --set-section-alignment '.text.*=64' \
        "$work/$2.o"
}

# The options that put the level into the name of each section of a build's functions: .text.v2.NAME for .text.NAME. A comma
# would end the name.
sections() {
    "${OBJDUMP:-objdump}" -h "$work/$1.o" | awk -v level="$1" '$2 ~ /^\.text\./ {
        renamed = ".text." level substr($2, 6)
        gsub(/,/, "_", renamed)
        print "--rename-section=" $2 "=" renamed
    }'
}

mkdir "$work/calls"
for file in messages records pages; do
    compile -c "$here/../library/$file.c" -o "$work/calls/$file.o"
done
compile -c "$here/../library/common.c" -o "$work/common.o"
if [ $# = 2 ]; then
    object "$2" library
    set -- "-DHUNKRAVY_LEVEL=${LEVEL:-1}"
else
    object "$2" v2
    object "$3" v3
    exports "$work/v2.o" | sed 's/^hunkravy_\(.*\)/EXPORT(\1)/' > "$work/exports.h"
    for level in v2 v3; do
        exports "$work/$level.o" | sed "s/^hunkravy_\(.*\)/& hunkravy_${level}_\1/" > "$work/names"
        # shellcheck disable=SC2046
        "${OBJCOPY:-objcopy}" --redefine-syms="$work/names" $(sections $level) "$work/$level.o"
    done
    set -- "-I$work"
fi
compile "$@" -c "$here/choose.c" -o "$work/choose.o"
"${CC:-gcc}" -r -nostdlib "$work"/*.o -o "$work/hunkravy.o"
"${OBJCOPY:-objcopy}" --wildcard --localize-symbol='hunkravy_v[23]_*' "$work/hunkravy.o"

# The engine of files is an object of its own, so that a program without files needs no calls of the system. It calls the
# others by their names in the headers.
mkdir "$work/file"
for file in contents commit posix; do
    compile -c "$here/../file/$file.c" -o "$work/file/$file.o"
done
"${CC:-gcc}" -r -nostdlib "$work"/file/*.o -o "$work/file.o"
"${OBJCOPY:-objcopy}" --localize-hidden "$work/file.o"
compile -fno-builtin -U_FORTIFY_SOURCE -c "$here/checked.c" -o "$work/checked.o"
rm -f "$out"
"${AR:-ar}" rcs "$(dirname "$out")/shared.a" "$work/hunkravy.o" "$work/file.o"
"${OBJCOPY:-objcopy}" -g "$work/hunkravy.o"
"${OBJCOPY:-objcopy}" -g "$work/file.o"
"${OBJCOPY:-objcopy}" -g "$work/checked.o"
"${AR:-ar}" rcs "$out" "$work/hunkravy.o" "$work/file.o" "$work/checked.o"
