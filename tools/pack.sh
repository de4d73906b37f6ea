#!/bin/bash
# pack.sh VERSION OUT: writes to OUT/dist the archives, the Debian packages, the wheels and the Python sources of what was built
# in OUT, and their sums. Equal builds give equal bytes: files are sorted, and their times are that of the commit.
set -euo pipefail
version=$1 out=$2
. tools/revision.sh
SOURCE_DATE_EPOCH=${SOURCE_DATE_EPOCH:-$(revision_time)}
COMMIT=${COMMIT:-$(revision)}
export SOURCE_DATE_EPOCH
export LC_ALL=C TZ=UTC
umask 022
work=$PWD/$out/dist/work
rm -rf "$out/dist"
mkdir -p "$work"

# What was proved, by what: the run of the gate that made these builds, if the sources are still those that it proved.
proved() {
    cat dist/PROVED.md
    echo
    echo "- Commit: $COMMIT"
    echo "- Prover: $(rt version 2> /dev/null || echo 'not by this machine')"
    if [ -z "${GATE_LINE-}" ] && python3 tools/proved.py check 2> /dev/null; then
        GATE_LINE=$(cat out/proved-line)
    fi
    echo "- Proofs, mutants, tests and programs in Rattle, of this revision: ${GATE_LINE:-not run here}"
}

# pack NAME: the archive of a folder of work.
pack() {
    find "$work/$1" -exec touch -h -d "@$SOURCE_DATE_EPOCH" {} +
    tar -C "$work" --sort=name --owner=0 --group=0 --numeric-owner --format=gnu -cf - "$1" | gzip -9n > "$out/dist/$1.tar.gz"
}

# The sources for Python, with the library for each processor.
sources() {
    tar -C "$work" -xf "$out/hunkravy-$version.tar.gz"
    if [ -f "$out/aarch64/libhunkravy.a" ]; then
        install -D -m 644 -t "$work/hunkravy-$version/lib/aarch64" "$out/aarch64/libhunkravy.a"
    fi
    pack "hunkravy-$version"
}

# archive MACHINE STRIP: the archive for a processor, and its wheels.
archive() {
    local name=hunkravy-$version-$1-linux pages
    local folder=$work/$name wheels=("$out/hunkravy-$version"-cp311-abi3-*_"$1.whl")
    local install=("${MAKE:-make}" --no-print-directory -s PREFIX= "DESTDIR=$folder" "OUT=$out")
    "${install[@]}" install "TARGET=$1-unknown-linux-gnu" > /dev/null
    "$2" "$folder"/lib/libhunkravy.so.*.*
    mkdir -p "$folder/rust/lib" "$folder/python"
    cp -R rust/Cargo.toml rust/Cargo.lock rust/build.rs rust/src rust/examples "$folder/rust"
    cp "$folder/lib/libhunkravy.a" "$folder/rust/lib"
    cp -R python/examples "${wheels[@]}" "$out/dist/hunkravy-$version.tar.gz" "$folder/python"
    pages=(SECURITY.md CHANGELOG.md docs/{RANDOM-ACCESS,FORMATS,DIFFERENCES}.md {c,rust,python}/README.md)
    for part in "$folder" "$folder/rust"; do
        cp LICENSE "$part"
        python3 tools/parts.py "$part" aegis_c
    done
    if [ "$1" = x86_64 ]; then
        "${install[@]}" install-tool CPU=both > /dev/null
        python3 tools/parts.py "$folder" hunkravy aegis_c
        pages+=(docs/SEALED-FILES.md)
    fi
    proved > "$folder/PROVED.md"
    python3 tools/ship_pages.py "$folder" "${pages[@]}"
    # The lines for this processor, and the names of its files.
    sed "s/^@$1@//; /^@[a-z0-9_]*@/d" dist/archive.md.in > "$folder/README.md"
    find "$folder" -name '*.md' -exec sed -i "s/\(hunkravy-[^ ]*\)x86_64/\1$1/g" {} +
    cp dist/VERIFY.md "$folder"
    cp bench/x86-64-v3/peers.svg "$folder/speed.svg"
    pack "$name"
    cp "${wheels[@]}" "$out/dist"
}

# ship PACKAGE PAGE..: pages of a Debian package, all in one folder. Only those of one call link to each other.
ship() {
    python3 tools/ship_pages.py "$work/pages" "${@:2}"
    find "$work/pages" -name '*.md' -exec install -D -m 644 -t "$docs/$1" {} +
    rm -r "$work/pages"
}

# packages ARCHITECTURE: the Debian packages for a processor, by debhelper.
packages() {
    local folder=$work/$1/hunkravy docs=$work/$1/hunkravy/doc
    mkdir -p "$folder"
    cp -R dist/debian CHANGELOG.md "$folder"
    printf 'hunkravy (%s-1) unstable; urgency=medium\n\n  * See changelog.gz.\n\n -- %s  %s\n' "$version" \
        "$(sed -n 's/^Maintainer: //p' dist/debian/control)" "$(date -R -d "@$SOURCE_DATE_EPOCH")" > "$folder/debian/changelog"
    ship hunkravy SECURITY.md
    ship hunkravy docs/{SEALED-FILES,RANDOM-ACCESS,FORMATS}.md
    ship libhunkravy-dev SECURITY.md
    ship libhunkravy-dev c/README.md
    ship libhunkravy-dev docs/{RANDOM-ACCESS,FORMATS}.md
    python3 tools/parts.py "$docs/hunkravy" hunkravy
    for package in libhunkravy0 libhunkravy-dev; do python3 tools/parts.py "$docs/$package" aegis_c; done
    (cd "$folder" && ROOT=$root OUT=$out dpkg-buildpackage --host-arch "$1" -b -nc -us -uc -d > ../log 2>&1) ||
        { cat "$work/$1/log" >&2; exit 1; }
    mv "$work/$1"/*.deb "$out/dist"
}

root=$PWD
# The sources of the commit. An archive of them has no history, from which they could be taken again.
if [ -e .git ]; then git archive "--prefix=hunkravy-$version-source/" HEAD | gzip -9n > "$out/source.tar.gz"; fi
if [ -e "$out/source.tar.gz" ]; then cp "$out/source.tar.gz" "$out/dist/hunkravy-$version-source.tar.gz"; fi
sources
archive x86_64 strip
if [ -f "$out/aarch64/libhunkravy.a" ]; then archive aarch64 aarch64-linux-gnu-strip; fi
if command -v dh > /dev/null; then
    packages amd64
    if [ -f "$out/aarch64/libhunkravy.a" ]; then packages arm64; fi
fi

cp dist/VERIFY.md "$out/dist"
rm -r "$work"
cd "$out/dist"
sha256sum -- * > SHA256SUMS
cat SHA256SUMS
