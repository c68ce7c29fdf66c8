#!/usr/bin/env bash
# Records the system calls of the client in RUNS syncs of a folder that follows a library which another one changes too, and cuts
# the power after COUNT random ones of them, in the model of storage.py. The next sync of what is left ends well and comes to just
# the files of the sync without a cut. Needs strace. It starts and ends only its own processes.
#   bench/power/client.sh SERVER CLIENT [COUNT [RUNS [SEED]]]      the built seaf-server and seaf-cli
# W says where to work (/tmp): in memory it takes a fraction of the time, and what is durable the model alone decides.
set -eu
here=$(cd "$(dirname "$0")" && pwd)
work=$(mktemp -d "${W:-/tmp}/power.XXXXXX")
trap 'rm -rf "$work"' EXIT
timeout 3600 python3 "$here/client.py" "$(realpath "$1")" "$(realpath "$2")" "$work" "${3:-300}" "${4:-6}" "${5:-$RANDOM}"
