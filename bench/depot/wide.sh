#!/usr/bin/env bash
# Merges of a library of many files in which little differs, and much: see wide.py.
#   bench/depot/wide.sh SERVER [FILES [KIND..]]      980,000 files, near far each names; CONTENTS=1000 different files.
#                                                    Some 500 MB of WORK for `each`, which is /dev/shm if left out
set -eu
here=$(cd "$(dirname "$0")" && pwd)
server=$(realpath "$1")
files=${2:-980000}
shift; [ "$#" = 0 ] || shift
[ "$#" -gt 0 ] || set -- near far each names
work=$(mktemp -d "${WORK:-/dev/shm}/wide.XXXXXX")
trap 'rm -rf "$work"' EXIT
for kind in "$@"; do
    mkdir "$work/F"
    echo "# $(date -u +%FT%TZ) load $(cut -d' ' -f1-3 /proc/loadavg)"
    python3 "$here/wide.py" "$server" "$work/F" "$files" "$kind"
    rm -rf "$work/F"
done
