#!/usr/bin/env bash
# A trial, no measure: each allocation of the connections of some rows is refused in turn.
#   bench/refused/run.sh SERVER [ROW..]      TMPDIR says where: in memory (/dev/shm) if left out, as each run would wait for the disk
#   bench/refused/run.sh SERVER history_of_no_days_leaves_the_last_commit_alone an_upload_from_before_a_served_collection_is_put_again
#                                               two rows with collections
set -eu
here=$(cd "$(dirname "$0")" && pwd)
server=$(realpath "$1")
shift
[ "$#" -gt 0 ] || set -- a_block_that_was_put_is_given_back two_saves_at_once_are_both_kept
export TMPDIR=${TMPDIR:-/dev/shm}
work=$(mktemp -d)
trap 'rm -rf "$work"' EXIT
cc -O1 -shared -fPIC -o "$work/refuse.so" "$here/refuse.c" -ldl
printf '#!/bin/sh\nexec python3 "%s" "%s" "%s" "$@"\n' "$here/asked.py" "$server" "$work/refuse.so" > "$work/program"
chmod +x "$work/program"
export REFUSED_TOLD=$work/told
: > "$REFUSED_TOLD"
status=0
SECONDS_EACH=36000 PROGRAMS=$work/program "$here/../../tests/run" "$@" || status=1
cat "$REFUSED_TOLD"
[ "$status" = 0 ] && ! grep -q '^WRONG' "$REFUSED_TOLD"
