#!/bin/bash
# Makes today's sealed backup of files and folders: backup.sh KEY STORE PATH..
#
# KEY is a key file, STORE the folder of the backups, which exists, and each PATH an absolute path that does not contain it
# and is no link. A later run of a day replaces the backup, so each set of paths needs a STORE of its own. The newest 30
# backups are kept, or as many as KEEP says, or all with KEEP=0. The first run of a month verifies all of them. The status
# is 0 if all went well.
set -euo pipefail
keep=${KEEP:-30}
[ $# -ge 3 ] || { echo 'usage: backup.sh KEY STORE PATH..' >&2; exit 2; }
[[ $keep =~ ^(0|[1-9][0-9]{0,8})$ ]] || { echo "backup.sh: KEEP must be a number such as 30, not $keep" >&2; exit 2; }
key=$1
store=$(realpath -e -- "$2")
shift 2
unset TAPE TAR_OPTIONS
shopt -s nullglob
dated='backup-[0-9][0-9][0-9][0-9]-[0-9][0-9]-[0-9][0-9].sealed'
for path in "$@"; do
    [[ $path == /* ]] || { echo "backup.sh: not an absolute path: $path" >&2; exit 2; }
    [ ! -L "$(realpath -ms "$path")" ] || { echo "backup.sh: $path is a link: give its target" >&2; exit 2; }
    folder=$(realpath -m "$path")
    [[ $store/ != "${folder%/}"/* ]] || { echo "backup.sh: $path contains $store" >&2; exit 2; }
done
today=$(date +%F) part=$store/backup.part

# One run at a time. The files that a killed run has left are removed.
exec 9> "$store/backup.lock"
flock -n 9 || { echo "backup.sh: another run uses $store" >&2; exit 1; }
rm -f "$part" "$store"/.backup.part.hunkravy-*

# A clock that is behind would make today's backup the oldest one, which is removed.
for backup in "$store"/$dated; do
    if [[ $backup > $store/backup-$today.sealed ]]; then
        echo "backup.sh: no backup today: the clock is behind $backup (remove it if its date is wrong)" >&2
        exit 1
    fi
done

# tar ends with status 1 if a file changed while it was read: the backup is kept. After any other failure there is none.
archive() {
    tar -C / -cf - -- "${@#/}" || [ $? = 1 ]
}
archive "$@" | hunkravy seal -q -k "$key" - "$part" || { rm -f "$part"; echo 'backup.sh: no backup today' >&2; exit 1; }
mv "$part" "$store/backup-$today.sealed"
sync "$store"

set -- "$store"/$dated
if [ "$keep" -gt 0 ] && [ $# -gt "$keep" ]; then rm "${@:1:$# - keep}"; fi

# Once a month all of them are verified, by the first run that gets here, and by later ones until none is damaged.
month=${today%-*} result=0
if [ "$(cat "$store/backup.checked" 2> /dev/null)" != "$month" ]; then
    for backup in "$store"/$dated; do hunkravy check -q -k "$key" "$backup" || result=1; done
    if [ "$result" = 0 ]; then echo "$month" > "$store/backup.checked"; fi
fi
exit "$result"
