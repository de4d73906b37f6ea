#!/bin/bash
# tool.sh LEVEL TOOL PIECES: measures the file tool beside encryption in memory, and beside other programs where they are
# installed. Prints the times of each turn for table.py.
set -euo pipefail
level=$1 tool=$(realpath "$2") pieces=$(realpath "$3")
folder=$(mktemp -d -p /dev/shm)
trap 'rm -rf "$folder"' EXIT
cd "$folder"
"$tool" keygen key
head -c $((1 << 30)) /dev/zero > text
"$tool" seal -q -k key text sealed

names=('in memory' 'hunkravy seal' 'hunkravy open' 'cp')
commands=("$pieces" "$tool seal -q -k key text new" "$tool open -q -k key sealed new" 'cp text new')
if command -v openssl > /dev/null; then
    for cipher in chacha20 aes-256-ctr; do
        names+=("openssl enc -$cipher")
        commands+=("openssl enc -$cipher -K $(printf '%064d' 1) -iv $(printf '%032d' 1) -in text -out new")
    done
fi
if command -v age > /dev/null; then
    names+=('age')
    commands+=("age -r $(age-keygen -o age-key 2>&1 | sed -n 's/.*ublic key: //p') -o new text")
fi

# Each turn runs every command once.
for _ in 1 2 3 4 5; do
    for index in "${!commands[@]}"; do
        row="$level | ${names[index]}"
        TIMEFORMAT="$row	User	%U	0
$row	System	%S	0
$row	Elapsed	%R	0"
        rm -f new
        # shellcheck disable=SC2086
        { time taskset -c 1 ${commands[index]} > /dev/null 2>&1; } 2>&1
    done
done
