#!/usr/bin/env bash
# Updates of libraries of growing sizes with one file changed, and starts over many kept commits: see flat.py.
#   bench/depot/flat.sh SERVER [FILES..]      10,000 and 100,000 files if left out; 980,000 (of 1,000,000 paths at most) take some
#                                             200 MB of WORK, which is /dev/shm if left out. ROUNDS=5 of each update, 0 for none;
#                                             CONTENTS=1000 different files; COMMITS=1000, or 0 for no starts
# The starts are over 10,000 files: in directories of 100 entries, with 1,000 contents and with 10,000, in directories of ten (four
# levels) with both, and once where no commit changes a file.
set -eu
here=$(cd "$(dirname "$0")" && pwd)
server=$(realpath "$1")
shift
[ "$#" -gt 0 ] || set -- 10000 100000
work=$(mktemp -d "${WORK:-/dev/shm}/flat.XXXXXX")
trap 'rm -rf "$work"' EXIT
stamp() { echo "# $(date -u +%FT%TZ) load $(cut -d' ' -f1-3 /proc/loadavg)"; }
if [ "${ROUNDS:-5}" != 0 ]; then
    for files in "$@"; do
        mkdir "$work/F"
        stamp
        python3 "$here/flat.py" "$server" "$work/F" updates "$files" "${ROUNDS:-5}"
        rm -rf "$work/F"
    done
fi
starts() { # WIDE CONTENTS [same]
    mkdir "$work/F"
    WIDE=$1 CONTENTS=$2 python3 "$here/flat.py" "$server" "$work/F" starts 10000 "${COMMITS:-1000}" ${3-}
    rm -rf "$work/F"
}
if [ "${COMMITS:-1000}" != 0 ]; then
    stamp
    starts 100 1000
    starts 100 10000
    starts 10 1000
    starts 10 10000
    starts 100 10000 same
fi
