#!/bin/bash
# check_dist.sh VERSION OUT: whether what `make dist` wrote can be written again with the same bytes, has what dist/contents.txt
# lists, has one version, licence and holder, and can be used with no kit.
set -euo pipefail
version=$1 out=$2
. tools/revision.sh
root=$PWD dist=$PWD/$out/dist
work=$(mktemp -d)
trap 'rm -rf "$work"' EXIT

fail() {
    echo "check_dist.sh: $*" >&2
    exit 1
}

# The same bytes, from a copy in a folder of another name. There each file is newer than those that it was built from.
copy=$work/another-name
mkdir "$copy"
tar --exclude=./.git --exclude="./$out/dist" --exclude='./crates/*/out' -cf - . | tar -C "$copy" -xf -
epoch=$(revision_time)
commit=$(revision)
line=$(if python3 tools/proved.py check 2> /dev/null; then cat out/proved-line; fi)
(cd "$copy" && touch -c "$out"/x86*/* && touch -c "$out"/[ab]*/* && SOURCE_DATE_EPOCH=$epoch COMMIT=$commit GATE_LINE=$line tools/pack.sh "$version" "$out") |
    diff "$dist/SHA256SUMS" -

# The name of each file that tar lists, with a star if it is a program, or with the target of a link. All belong to root, and
# others may read them.
entries() {
    awk '$1 !~ /^(.rwxr-xr-x|-rw-r--r--|lrwxrwxrwx)$/ || $2 !~ /^(0\/0|root\/root)$/ { print "wrong:", $0 }
        !/^d/ { print $6 ($1 ~ /^-rwx/ ? "*" : "") ($7 ? " " $7 " " $8 : "") }'
}
# contents MACHINE: those of the archive and of the wheel of glibc for a processor. dist/debian lists those of the Debian packages.
contents() {
    for archive in *"$1"*.tar.gz; do
        echo "== $archive"
        tar --numeric-owner -tvzf "$archive" | entries | sed "s|^${archive%.tar.gz}/||"
    done
    for wheel in *manylinux*"$1".whl; do
        echo "== $wheel"
        python3 -c 'import sys, zipfile
for entry in zipfile.ZipFile(sys.argv[1]).infolist():
    print(entry.filename + {0o644: "", 0o664: "", 0o755: "*"}[entry.external_attr >> 16 & 0o777])' "$wheel"
    done
}
# files [FOLDER]: those of the repository in a folder of it.
files() {
    if [ -e .git ]; then git ls-files "$@"; else find "${1:-.}" -type f ! -name '*.pyc'; fi
}
# What dist/contents.txt lists, for x86-64 and for ARM: the same without the tool. A line with two folders stands for the files
# of the repository that are in the second one, in the first one.
musl=$(find "$dist" -name '*musllinux*')
[ "$musl" ] || echo 'left out: the wheel for musl, since musl-gcc is not installed'
listed() {
    while read -r line; do
        case $line in
        *'/ '*) files "${line#* }" | sed "s|^${line#* }|${line% *}|" ;;
        *) echo "$line" ;;
        esac
    done < <(if [ "$musl" ]; then cat; else grep -v musllinux; fi < dist/contents.txt)
}
for_arm() {
    listed | grep -vE 'musllinux|^bin/|share/(bash|fish|man/man1|zsh)|backup\.sh|^docs/SEALED' | sed 's/x86_64/aarch64/g'
}
# Each line after the name of its package, in order.
in_order() {
    awk '/^== / { package = $0; next } { print package, $0 }' | LC_ALL=C sort
}
# lists COMMAND MACHINE: whether the list, as a command gives it, has what is packed for a processor.
lists() {
    (cd "$dist" && contents "$2") | sed "s/$version/VERSION/g" | in_order > "$out/contents-$2.txt"
    "$1" | in_order | diff - "$out/contents-$2.txt" || fail "dist/contents.txt does not list what is packed, as $out/contents-$2.txt does"
}
lists listed x86_64
if ls "$dist"/*aarch64* > /dev/null 2>&1; then
    lists for_arm aarch64
else
    echo 'left out: the archive for ARM, since aarch64-linux-gnu-gcc is not installed'
fi

# The sources are those of the commit, and name it.
if [ -e .git ]; then
    mkdir "$work/source"
    tar -C "$work/source" --strip-components=1 -xf "$dist/hunkravy-$version-source.tar.gz"
    (cd "$work/source" && find . ! -type d | sed 's|^\./||') | LC_ALL=C sort | diff <(files | LC_ALL=C sort) - || fail 'the sources lack files'
    [ "$(cd "$work/source" && . tools/revision.sh && revision)" = "$commit" ] || fail 'the sources name another commit'
fi

# The packages of the library for two processors can be installed side by side: what both have is the same.
if ls "$dist"/*_arm64.deb > /dev/null 2>&1; then
    for name in libhunkravy0 libhunkravy-dev; do
        for architecture in amd64 arm64; do
            mkdir -p "$work/both/$architecture"
            dpkg-deb -x "$dist/${name}_$version-1_$architecture.deb" "$work/both/$architecture"
        done
    done
    diff -r "$work"/both/{amd64,arm64}/usr/share || fail 'the packages for two processors have other files of one name'
fi

# Everything: the archives and the wheel unpacked, and the packages installed into a system of their own.
install_to=(python3 -m pip install --quiet --no-index --no-deps --disable-pip-version-check --root-user-action=ignore --target)
mkdir "$work/empty" "$work/site"
for archive in "$dist"/*-linux.tar.gz; do
    tar -C "$work/empty" -xf "$archive"
done
mkdir -p "$work/system/var/lib/dpkg"
dpkg=(dpkg --root="$work/system" --force-depends --force-not-root --force-script-chrootless --log=/dev/null)
"${dpkg[@]}" -i "$dist"/*_amd64.deb > "$work/said" 2>&1 || { cat "$work/said"; fail 'the packages cannot be installed'; }
"${install_to[@]}" "$work/site" "$dist"/*manylinux*_x86_64.whl
folder=$work/empty/hunkravy-$version-x86_64-linux system=$work/system/usr

# The wheel for musl has the files of the one for glibc, with a module of its own.
if [ "$musl" ]; then
    for libc in many musl; do python3 -m zipfile -e "$dist"/*"$libc"linux*_x86_64.whl "$work/wheels/$libc"; done
    diff -rq -x _native.abi3.so -x RECORD -x WHEEL -x '*.spdx.json' "$work"/wheels/* || fail 'the wheel for musl has other files'
    [ "$(grep -hoE '"name": "(glibc|musl)"' "$work"/wheels/m*/*/sboms/* | uniq)" = $'"name": "glibc"\n"name": "musl"' ] || fail 'a wheel lists another libc'
fi

# Nothing is linked with the stand-in for the proved library.
if grep -rFl 'a stand-in for hunkravy' "$work/empty" "$work/site" ${musl:+"$work/wheels"} "$work/system"; then fail 'these files have the stand-in'; fi

# has FILE EXPRESSION: whether a line of a file is matched.
has() {
    grep -q "$2" "$1" || fail "$1 does not have $2"
}

# One version, licence and holder. What is proved is of this revision, or of none. No link of a page leads nowhere.
for unpacked in "$work"/empty/*; do
    has "$unpacked/lib/pkgconfig/hunkravy.pc" "^Version: $version\$"
    has "$unpacked/rust/Cargo.toml" "^version = \"$version\""
    has "$unpacked/include/hunkravy.h" "^#define HUNKRAVY_VERSION \"$version\""
    has "$unpacked/PROVED.md" "^- Commit: $commit\$"
    has "$unpacked/PROVED.md" "^- Proofs, mutants, tests and programs in Rattle, of this revision: ${line:-not run here}\$"
    (cd "$unpacked" && python3 "$root/tools/check_pages.py" links) || fail 'a page has a dead link'
    # No page names a file for another processor, or the tool where there is none.
    machine=${unpacked#*-"$version"-} machine=${machine%-linux}
    if [ "$machine" = x86_64 ]; then others='hunkravy-[^ ]*aarch64'; else others='hunkravy-[^ ]*x86_64|bin/hunkravy|hunkravy \(1\)'; fi
    if grep -rnE --include='*.md' --include='*.[13]' "$others|^@" "$unpacked"; then fail "a page of $machine names other files"; fi
done
has "$work"/site/hunkravy-*.dist-info/METADATA "^Version: $version\$"
has <("$folder/bin/hunkravy" --version) "^hunkravy $version\$"
has "$folder/share/man/man1/hunkravy.1" "\"hunkravy $version\""
for licence in "$work"/empty/*/{,rust/}LICENSE "$work"/system/usr/share/doc/*/copyright "$work"/site/hunkravy-*/LICENSE; do
    has "$licence" 'Permission is hereby granted'
    [ "$(grep -ihoE 'copyright:? (\(c\) )?2026 .*' "$licence" | sed 's/.*2026 //')" = 'The Hunkravy authors' ] || fail "$licence has another holder"
done

# What is linked into each file: the notices have the licence of each of the kit's libraries that the list of parts names, and
# the list has those that crates.txt names.
python3 - "$work"/empty/* "$work"/empty/*/rust "$system"/share/doc/{hunkravy,libhunkravy0,libhunkravy-dev} "$work"/site/hunkravy-*.dist-info << 'END' ||
import json, pathlib, sys
sys.path.insert(0, "tools")
import proved
rows, kit = proved.listed()[0], pathlib.Path(proved.KIT, "rattle")
for folder in map(pathlib.Path, sys.argv[1:]):
    wheel = folder.name.endswith(".dist-info")
    notices = (folder / "NOTICES").read_text()
    parts = json.loads((folder / ("sboms/hunkravy.spdx.json" if wheel else "parts.spdx.json")).read_text())
    names = {part["name"] for part in parts["packages"]} - {"hunkravy", "glibc", "gcc"}
    crate = "hunkravy" if folder.name == "hunkravy" or (folder / "bin").exists() else "aegis_c"
    needed = {name for own in proved.below(rows, crate) | {crate} for name in rows[own]} - set(rows)
    assert needed <= names and "std" in names, (folder, needed - names)
    declared = " ".join(part["licenseDeclared"] for part in parts["packages"])
    assert "NOASSERTION" not in declared and ("Unicode-3.0" in declared) == ("UNICODE LICENSE V3" in notices), (folder, declared)
    for path in (path for name in names for path in kit.glob(f"{name}/LICENSE*") if path.name != "LICENSE-APACHE"):
        assert path.read_text() in notices, (folder, path)
END
    fail 'a file of the release has not the notices of what is linked into it'

# glibc VERSION FILE..: whether files need no newer version of glibc.
glibc() {
    for file in "${@:2}"; do
        newest=$( (echo "GLIBC_$1" && objdump -T "$file" | grep -o 'GLIBC_[0-9.]*') | sort -V | tail -n 1)
        [ "$newest" = "GLIBC_$1" ] || fail "$file needs $newest"
    done
}
glibc 2.17 "$folder/lib/libhunkravy.so.0" "$work/site/hunkravy/_native.abi3.so"
glibc 2.34 "$folder/bin/hunkravy"

# What is compiled from C checks its stack and its copies, is bound before it runs, and begins each function with a landing pad.
# hardened FILE [NAME]: NAME checks copies, and is empty for musl, which has no such function.
hardened() {
    local symbols functions
    symbols=$(readelf -W --dyn-syms "$1")
    for name in __stack_chk_fail ${2-__memcpy_chk}; do
        [[ $symbols == *" UND $name"* ]] || fail "$1 does not call $name"
    done
    [[ $(readelf -Wld "$1") =~ GNU_STACK.*' RW  '.*GNU_RELRO.*NOW ]] || fail "$1 has an executable stack, or can be bound later"
    functions=$(awk '$4 == "FUNC" && $7 != "UND" { found++ } END { print found }' <<< "$symbols")
    [[ $1 == *aarch64* ]] || [ "$(objdump -d "$1" | grep -cw endbr64)" -ge "$functions" ] || fail "$1 has functions with no landing pad"
}
for file in "$work"/empty/*/lib/libhunkravy.so.0 "$system"/lib/*/libhunkravy.so.0 "$work/site/hunkravy/_native.abi3.so"; do
    hardened "$file"
done

# What musl's loader misses that the modules need: only what is of Python, and for the one for glibc more.
missed() {
    grep -vE 'ld-musl|: _?Py\w+: symbol not found$' <(/lib/ld-musl-x86_64.so.1 --list "$work/wheels/$1/hunkravy/_native.abi3.so" 2>&1)
}
if [ "$musl" ]; then
    hardened "$work/wheels/musl/hunkravy/_native.abi3.so" ''
    if missed musl || ! missed many > /dev/null; then fail 'the wheel for musl needs more than musl and Python'; fi
fi

# The sums of the release are right, by the command of its page.
command=$(sed -n 's/^2\. .*`\(sha256sum [^`]*\)`.*/\1/p' dist/VERIFY.md)
(cd "$dist" && $command --strict --quiet && diff <(ls | sort) <((echo SHA256SUMS; cut -c 67- SHA256SUMS) | sort)) ||
    fail 'the sums are not those of the files'

# `make sign` signs them, and the commands of the page find each change: of a file, of a sum, of the key, and no signature.
verify=$(sed -n 's/^ *\(ssh-keygen -Y verify .*\)$/\1/p' dist/VERIFY.md)
signed() {
    rm -rf "$work/signed"
    mkdir "$work/signed"
    cp -r "$dist" "$work/signed"
    "${MAKE:-make}" --no-print-directory -s sign "OUT=$work/signed" "KEY=$work/$1"
    (cd "$work/signed/dist" && eval "$2" && eval "$verify" && $command --strict --quiet) > "$work/said" 2>&1
}
if command -v ssh-keygen > /dev/null; then
    for key in key other; do ssh-keygen -q -t ed25519 -N '' -f "$work/$key"; done
    signed key '' || fail "a right signature is rejected: $(cat "$work/said")"
    for change in 'echo >> VERIFY.md' "sed -i '1s/^./x/' SHA256SUMS" 'rm SHA256SUMS.sig' 'rm VERIFY.md SHA256SUMS' \
        "sed 's/^/hunkravy /' '$work/other.pub' > signers"; do
        if signed key "$change"; then fail "after this change the signature is accepted: $change"; fi
    done
else
    echo 'left out: the signature of a release, since ssh-keygen is not installed'
fi

# Programs that are built over the shared library depend on this version of it.
[ "$(dpkg-deb -I "$dist/libhunkravy0_$version-1_amd64.deb" shlibs)" = "libhunkravy 0 libhunkravy0 (>= $version)" ] ||
    fail 'programs depend on another version of the library'
dpkg-deb -I "$dist/libhunkravy0_$version-1_amd64.deb" symbols | grep -x ' hunkravy_encrypt@HUNKRAVY_0 0\.1\.0' > /dev/null ||
    fail 'the package of the library has no file of symbols'

# The debug symbols are those of the shared library, and name sources as the repository has them.
debug=("$system"/lib/debug/.build-id/*/*.debug)
readelf -n "$system"/lib/*/libhunkravy.so.0 | grep -q "Build ID: $(echo "${debug[0]#*build-id/}" | sed 's|/||; s|\.debug||')$" ||
    fail 'the debug symbols are those of another library'
names=$(readelf --debug-dump=info "${debug[0]}" | grep -E 'DW_AT_(name|comp_dir)' | sed 's/.*: //')
[[ $names == *library/messages.c* && $names != *$'\n/'* ]] || fail 'the debug symbols name no sources, or a folder of this machine'

# The tool is one program, which is bound before it runs, and needs no file beside it. make check-tool tests its start.
for program in "$folder/bin/hunkravy" "$system/bin/hunkravy"; do
    [[ $(readelf -Whld "$program") =~ Type:\ +DYN.*GNU_RELRO.*' NOW' ]] || fail "$program can be bound later, or lies at a fixed address"
    if readelf -lW "$program" | grep -E 'LOAD.* RWE |GNU_STACK.*E '; then fail "$program has a segment that is writable and executable"; fi
    cp "$program" "$work/alone"
    has <(env -i "$work/alone" --version) '^built for x86-64-v[23]$'
done

# Each shell has its own completions.
for pair in man:man/man1/hunkravy.1 bash:bash-completion/completions/hunkravy zsh:zsh/site-functions/_hunkravy fish:fish/vendor_completions.d/hunkravy.fish; do
    cmp "crates/hunkravy/manual/${pair%%:*}" "$folder/share/${pair#*:}" || fail "${pair#*:} is not the page for ${pair%%:*}"
done

# Used with no kit and nothing of the repository in PATH: from C over the shared library and over the static one, from Rust and
# Python over what is in the archive, and the tool.
programs=$(for program in cargo python3; do dirname "$(command -v "$program" || echo "/usr/bin/$program")"; done | paste -sd :)
use() {
    (cd "$work" && env -i HOME="$HOME" PATH="$programs:/usr/bin:/bin" "$@")
}
use make --no-print-directory -C "$root" check-install "OUT=$out" "PREFIX=$folder"
libraries=$system/lib/x86_64-linux-gnu
use PKG_CONFIG_SYSROOT_DIR="$work/system" make --no-print-directory -C "$root" check-install "OUT=$out" "PREFIX=$system" "LIBRARIES=$libraries" \
    "EXAMPLES_FOLDER=$system/share/doc/libhunkravy-dev/examples"
options=$(use PKG_CONFIG_PATH="$libraries/pkgconfig" pkg-config --static --cflags --libs hunkravy)
[ "${options% }" = '-lhunkravy -Wl,--gc-sections' ] || fail "pkg-config prints $options for the installed package"
if command -v cargo > /dev/null; then
    use CARGO_TARGET_DIR=target cargo run -q --offline --manifest-path "$folder/rust/Cargo.toml" --example first
fi
# Python: the wheel, and its sources, with the system's setuptools and with one that pip takes from a folder of wheels.
for words in "$folder/python/*manylinux*.whl" "$folder/python/*.tar.gz --no-build-isolation" "$folder/python/*.tar.gz --find-links=/usr/share/python-wheels"; do
    if [[ $words == *find-links* ]] && ! ls /usr/share/python-wheels/wheel-*.whl > /dev/null 2>&1; then
        echo 'left out: a build in isolation, since python3-setuptools-whl and python3-wheel-whl are not installed'
        continue
    fi
    rm -rf "$work/packages"
    # shellcheck disable=SC2086
    use PATH=/usr/bin:/bin "${install_to[@]}" packages $words
    use PYTHONPATH=packages /usr/bin/python3 "$folder/python/examples/session_token.py"
done
# Without a compiler, or without the header of Python, the last line that the build prints names a package.
says() {
    use PATH=/usr/bin:/bin "${@:2}" "${install_to[@]}" packages --no-build-isolation "$folder"/python/*.tar.gz > "$work/said" 2>&1 || true
    grep -B 1 'end of output' "$work/said" | has - "$1"
}
says 'no C compiler no-compiler: install gcc' CC=no-compiler
echo 'import os; exists = os.stat; os.stat = lambda path, **words: exists("/none" if str(path).endswith("Python.h") else path, **words)' > "$work/sitecustomize.py"
says 'no Python.h: install python3-dev' PYTHONPATH="$work"

# The commands of the page of the archive, on a copy. They install it in a folder of their own.
cp -r "$folder" "$work/page"
touch "$work/page/FILE"
mkdir "$work/local"
sed -n '/^```sh$/,/^```$/{ /^```/d; s|/usr/local|../local|; /^ldconfig$/d; p }' "$folder/README.md" > "$work/commands"
[ "$(wc -l < "$work/commands")" = 6 ] || fail 'the page of the archive has no commands'
use PIP_TARGET="$work/of-page" PIP_NO_INDEX=1 PIP_DISABLE_PIP_VERSION_CHECK=1 PIP_ROOT_USER_ACTION=ignore CARGO_NET_OFFLINE=true \
    bash -c 'umask 077; cd page && while read -r command; do eval "$command" || exit 1; done < ../commands' > "$work/said" 2>&1 < /dev/null || { cat "$work/said"; fail 'a command of the page of the archive fails'; }
if find "$work/local" ! -perm -go=r | grep .; then fail 'what was copied with umask 077 can be read by its owner alone'; fi
use make --no-print-directory -C "$root" check-install "OUT=$out" "PREFIX=$work/local"

# The tests of the Debian packages, in their system, as autopkgtest runs them. That of the tool serves for the archive too.
# debian_test NAME PREFIX [SETTING..]
debian_test() {
    use AUTOPKGTEST_TMP="$(mktemp -d -p "$work")" PATH="$2/bin:/usr/bin:/bin" "${@:3}" "$root/dist/debian/tests/$1"
}
for test in $(sed -n 's/^Tests: //p' dist/debian/tests/control); do
    debian_test "$test" "$system" ROOT="$work/system" LD_LIBRARY_PATH="$libraries" PKG_CONFIG_PATH="$libraries/pkgconfig" \
        PKG_CONFIG_SYSROOT_DIR="$work/system"
done
for prefix in "$folder" "$work/local"; do debian_test tool "$prefix"; done

# Nothing stays of a package that is removed.
"${dpkg[@]}" -P hunkravy libhunkravy-dev libhunkravy0 libhunkravy0-dbgsym > "$work/said" 2>&1 || { cat "$work/said"; fail 'the packages cannot be removed'; }
if [ -e "$system" ] && find "$system" ! -type d | grep .; then fail 'these files stay when the packages are removed'; fi

# What Debian wants of packages, where its program is installed. No bug of Debian asks for these.
if command -v lintian > /dev/null; then
    lintian --allow-root --fail-on error,warning --suppress-tags initial-upload-closes-no-bugs "$dist"/*.deb
else
    echo 'left out: the packages by lintian, which is not installed'
fi
