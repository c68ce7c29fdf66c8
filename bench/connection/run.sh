#!/usr/bin/env bash
# CPU per request of one connection: the server as `inetd :memory:`, beside a bare C blob server (FLOOR, the program
# `floor` built from a folder of baselines) that is fed the same bytes, in one run.
#   bench/connection/run.sh SERVER [FLOOR]
set -eu
here=$(cd "$(dirname "$0")" && pwd)
server=$1
floor=${2:-}
library=11111111-2222-4333-8444-555555555555
work=$(mktemp -d)
trap 'rm -rf "$work"' EXIT

ticks_of() { sed 's/.*) //' "/proc/$1/stat" | awk '{print $12 + $13}'; }

for kind in many large; do
  python3 "$here/requests.py" $kind "$work/$kind"
  requests=$([ $kind = many ] && echo 10000 || echo 2)
  for round in 1 2 3; do
    /usr/bin/time -f '%U %S %M' -o "$work/time" "$server" inetd :memory: $library < "$work/$kind" > "$work/out"
    awk -v k=$kind -v n=$requests -v b="$(stat -c %s "$work/out")" \
      '{printf "ours  %-5s %8.1f us of CPU a request, peak %.1f MiB, %d bytes of replies\n", k, ($1 + $2) * 1e6 / n, $3 / 1024, b}' "$work/time"
    if [ -n "$floor" ]; then
      "$floor" 18151 mem "$work/floor" & peer=$!
      sleep 0.4
      before=$(ticks_of $peer)
      got=$(python3 "$here/feed.py" 18151 "$work/$kind")
      after=$(ticks_of $peer)
      kill $peer; wait $peer 2>/dev/null || true
      awk -v a="$before" -v c="$after" -v k=$kind -v n=$requests -v b="$got" \
        'BEGIN {printf "floor %-5s %8.1f us of CPU a request, %d bytes of replies\n", k, (c - a) * 1e4 / n, b}'
    fi
  done
done
