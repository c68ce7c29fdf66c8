#!/usr/bin/env bash
# Times the update after NEW objects were put, and the opening after a kill of a library of STORED objects and LATER more,
# over a stand-in for a disk whose flush takes FLUSH_MS milliseconds (5). Needs a C compiler. Each run of the server tells how
# many syncs it asked for and how many flushes served them.
#   bench/flush/run.sh SERVER [NEW [STORED [LATER]]]      SERVER is the built seaf-server
set -eu
here=$(cd "$(dirname "$0")" && pwd)
server=$(realpath "$1")
work=$(mktemp -d)
trap 'rm -rf "$work"' EXIT
"${CC:-cc}" -shared -fPIC -O2 -o "$work/flush.so" "$here/flush.c" -lpthread
printf '#!/bin/sh\nexec env LD_PRELOAD="%s" "%s" "$@"\n' "$work/flush.so" "$server" > "$work/server"
chmod 700 "$work/server"
mkdir "$work/place"
timeout 900 python3 "$here/measure.py" "$work/server" "$work/place" "${2:-10000}" "${3:-100000}" "${4:-100}"
