#!/usr/bin/env bash
# What trees cost that few bytes make large: see hostile.py.
#   bench/depot/hostile.sh SERVER [CASE..]      all of doubled, names, parents, flat if left out; some 400 MB of WORK, which is
#                                               /dev/shm if left out
set -eu
here=$(cd "$(dirname "$0")" && pwd)
server=$(realpath "$1")
shift
work=$(mktemp -d "${WORK:-/dev/shm}/hostile.XXXXXX")
trap 'rm -rf "$work"' EXIT
echo "# $(date -u +%FT%TZ) load $(cut -d' ' -f1-3 /proc/loadavg)"
python3 "$here/hostile.py" "$server" "$work" "$@"
