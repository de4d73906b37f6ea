#!/bin/bash
# Whether tools/proved.py builds only what `rt ci` has proved in the same run: over a stand-in for the kit, whose `rt ci`
# writes a library for each crate, and whose rattle writes a program. Each of the other states has to stop the build.
set -euo pipefail
tool=$PWD/tools/proved.py
work=$(mktemp -d)
trap 'rm -rf "$work"' EXIT
mkdir -p "$work/kit/bin" "$work/repository"
cat > "$work/kit/bin/rt" << 'END'
#!/bin/bash
# The stand-in: FAILS is a status, CHANGES a command that is run meanwhile, and WAITS is how long it takes.
for crate in crates/*/; do mkdir -p "${crate}out/rlib/$(basename "$crate").rlib" && cat "$crate"src/* > "${crate}out/rlib/$(basename "$crate").rlib/format"; done
sleep "${WAITS:-0}"
eval "${CHANGES:-}"
echo "2 passed, ${FAILS:-0} failed"
exit "${FAILS:-0}"
END
cat > "$work/kit/bin/rattle" << 'END'
#!/bin/bash
while [ "$1" != -o ]; do shift; done
echo built > "$2"
END
cp "$work/kit/bin/rattle" "$work/kit/bin/rattle-link"
chmod +x "$work"/kit/bin/*
export PATH=$work/kit/bin:$PATH
cd "$work/repository"

# Two crates, as they are before a run.
fresh() {
    rm -rf crates out .git
    mkdir -p crates/below/src crates/above/src
    echo below > crates/below/src/lib.rt
    echo above > crates/above/src/main.rt
    printf 'below:\nabove: below\n' > crates.txt
    echo 'Handles allowed: none.' > HANDLES
}
run() {
    python3 "$tool" run > log 2>&1
}
build() {
    rm -f built
    python3 "$tool" build above built >> log 2>&1 && [ -f built ]
}
# state NAME: the build has to stop.
stops() {
    if build; then
        echo "it builds: $1" >&2
        exit 1
    fi
}

fresh && run && build || { cat log >&2; echo 'it does not build what was proved' >&2; exit 1; }
echo other >> crates/below/src/lib.rt && stops 'a source that was changed since'
fresh && run && echo other > crates/below/out/rlib/below.rlib/format && stops 'a library that was changed since'
fresh && run && mkdir -p crates/below/specs && touch crates/below/specs/New.antt && stops 'a source that was added since'
fresh && run && rm crates/above/src/main.rt && stops 'a source that is gone'
fresh && mkdir -p crates/below/out/rlib/below.rlib && run && stops 'a library that stood there before'
fresh && mkdir -p .git/rt-aside/1/rlib && run && stops 'a library that rt puts back'
fresh && CHANGES='echo other >> crates/above/src/main.rt' run && stops 'a source that was changed meanwhile'
fresh && { FAILS=1 run || true; } && stops 'proofs that failed'
fresh && run && rm -r crates/*/out && { WAITS=5 timeout 1 python3 "$tool" run > log 2>&1 || true; } && stops 'a run that was killed'
fresh && stops 'no run'
echo 'nothing is built but what the same run has proved'
