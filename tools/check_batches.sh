#!/bin/bash
# check_batches.sh PROVED [RUST]: kills programs that write to several rows of one encrypted file at once, by turns, at 200
# moments. After each kill another one recovers the file, and a copy of it: all rows must hold one number, the same in both,
# and none that is older than the last one seen.
#
# PROVED is the program of crates/example_batches, and RUST the example batches of the Cargo package.
set -euo pipefail

proved=$(realpath "$1")
rust=${2:+$(realpath "$2")}
programs=(proved ${rust:+rust})
folder=$(mktemp -d)
trap 'rm -rf "$folder"' EXIT
cd "$folder"

fail() {
    echo "check_batches.sh: $*" >&2
    exit 1
}

# run PROGRAM FILE [write]: becomes the program.
run() {
    case $1 in
        proved) exec "$proved" "$2" "$2.journal" "${@:3}" ;;
        rust) exec "$rust" "${@:2}" ;;
    esac
}

# number PROGRAM FILE: the number that all rows hold.
number() {
    run "$@" | sed 's/^all rows hold //'
}

last=$(number "${programs[-1]}" file)
[ "$last" = 0 ] || fail "a new file holds $last"
recovered=0
for turn in $(seq 200); do
    run "${programs[turn % ${#programs[@]}]}" file write > /dev/null &
    sleep "0.0$((RANDOM % 10))$((RANDOM % 10))"
    kill -9 $!
    wait $! 2> /dev/null || true
    [ ! -s file.journal ] || recovered=$((recovered + 1))
    rm -f copy copy.journal
    for name in file*; do cp "$name" "copy${name#file}"; done
    of_copy=$(number "${programs[(turn / 3) % ${#programs[@]}]}" copy)
    found=$(number "${programs[(turn / 5) % ${#programs[@]}]}" file)
    [ "$found" -ge "$last" ] || fail "$found after $last"
    [ "$found" = "$of_copy" ] || fail "$found, and $of_copy of a copy"
    last=$found
done
[ "$last" -gt 0 ] || fail 'nothing was written'
[ "$recovered" -gt 0 ] || fail 'no kill left a journal'
echo "killed 200 times, $recovered times with a journal: $last batches, each whole or not there, by: ${programs[*]}"
