#!/usr/bin/env bash
# No measure but a trial: random histories of three folders over one library in memory. Each history saves, moves and removes files and
# directories of its folders, puts files in the place of directories and the reverse, syncs and collects; in the end all three must hold
# the tree of the last head, and no version that was saved may be lost.
#   bench/histories/run.sh [SEEDS [FIRST]]      so many histories (1,000), from this seed on (1)
# PROGRAM, if set, is the program as it was built before; else it is proved and built in a temporary folder. REFERENCE and SHOW are
# histories.py's.
set -eu
here=$(cd "$(dirname "$0")" && pwd)
program=${PROGRAM-}
if [ -z "$program" ]; then
    work=$(mktemp -d)
    trap 'rm -rf "$work"' EXIT
    program=$("$here/../above.sh" "$work" history_bench "$here/program.txt" depot folder_side http_client http_front ids library_state local_index \
        object_store remote_calls sync_daemon sync_rules tree_model)
fi
python3 "$here/histories.py" "$program" "${1:-1000}" "${2:-1}"
