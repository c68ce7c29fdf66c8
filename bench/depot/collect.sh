#!/usr/bin/env bash
# Collections beside the removal of the same files and the hashing of what must be read: see collect.py.
#   bench/depot/collect.sh SERVER [ALL GARBAGE]..     30,000 objects of which 20,000 are garbage if left out; ROUNDS=5 of each, in WORK,
#                                                     which is /dev/shm if left out
#   ENTRIES=750000 bench/depot/collect.sh SERVER 3000 2000                   with a directory object of 66 MB among what is needed
#   WORK=/tmp ROUNDS=1 bench/depot/collect.sh SERVER 300000 0 1000000 900000  what a collection holds, by the objects it needs
set -eu
here=$(cd "$(dirname "$0")" && pwd)
server=$(realpath "$1")
shift
[ "$#" -gt 0 ] || set -- 30000 20000
while [ "$#" -gt 0 ]; do
    work=$(mktemp -d "${WORK:-/dev/shm}/collect.XXXXXX")
    echo "# $(date -u +%FT%TZ) load $(cut -d' ' -f1-3 /proc/loadavg)"
    python3 "$here/collect.py" "$server" "$work" "$1" "$2" "${ENTRIES:-0}" "${ROUNDS:-5}" || true
    rm -rf "$work"
    shift 2
done
