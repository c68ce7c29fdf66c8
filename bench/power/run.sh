#!/usr/bin/env bash
# Records the system calls of the server in a load of updates (some merged) and collections, and cuts the power after COUNT
# random ones of them, in a model: what was not made durable is kept, dropped, torn or reordered at random. What is left is
# laid out as a folder, and the server opens it: every update that was answered 200 has to be there, with all that the
# commits that are kept need, and the next update goes through. Needs strace. It starts and ends only its own processes.
#   bench/power/run.sh SERVER [COUNT [UPDATES [SEED]]]      SERVER is the built seaf-server
# Each load has so many updates (10) and is cut at most 200 times, then comes the next one, of the next seed. W says where to work
# (/tmp): in memory it takes a fraction of the time, and what is durable the model alone decides.
set -eu
here=$(cd "$(dirname "$0")" && pwd)
server=$(realpath "$1")
left=${2:-1000} updates=${3:-10} seed=${4:-$RANDOM} status=0
work=$(mktemp -d "${W:-/tmp}/power.XXXXXX")
trap 'rm -rf "$work"' EXIT
while [ "$left" -gt 0 ]; do
    cuts=$((left < 200 ? left : 200))
    mkdir "$work/$seed"
    timeout 3600 python3 "$here/power.py" "$server" "$work/$seed" "$cuts" "$updates" "$seed" || status=1
    rm -rf "${work:?}/$seed"
    left=$((left - cuts)) seed=$((seed + 1))
done
exit "$status"
