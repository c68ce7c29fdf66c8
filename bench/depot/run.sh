#!/usr/bin/env bash
# One library on a folder, through one connection over standard input and output: puts and gets of 3 bytes, 4 KiB and
# 1 MiB; an update of a library of 10,000 files with one file changed; the start over 100,000 objects. Beside each, in
# the same run, a bare C blob server that is fed the same bytes (floor.c), what fsync costs on this disk (e_fsync.c), and
# the system's own programs over the same files.
#   bench/depot/run.sh SERVER [BASELINES]      BASELINES: a folder with floor.c and e_fsync.c; without it no C floors
# DIVISOR=10 makes everything ten times smaller, PARTS="updates starts" does these parts alone (objects, durability,
# updates, starts). WORK=DIR says where the libraries are made.
set -eu
here=$(cd "$(dirname "$0")" && pwd)
server=$(realpath "$1")
baselines=${2:-}
divisor=${DIVISOR:-1}
work=$(mktemp -d "${WORK:-${TMPDIR:-/tmp}}/depot-bench.XXXXXX")
floor=
trap '[ -z "$floor" ] || kill $floor; rm -rf "$work"' EXIT
library=11111111-2222-4333-8444-555555555555
secret=$(printf 'a%.0s' $(seq 40))
port=18151
export LC_ALL=C

stamp() { echo "# $(date -u +%FT%TZ) load $(cut -d' ' -f1-3 /proc/loadavg), $(stat -f -c %T "$work") :: $*"; }
timed() { /usr/bin/time -q -o "$work/time" -f '%e %U %S %M' "$@"; }

build() {
  [ -n "$baselines" ] || return 0
  gcc -O2 -D_GNU_SOURCE -o "$work/floor" "$baselines/floor.c" -lcrypto -lpthread
  gcc -O2 -D_GNU_SOURCE -o "$work/e_fsync" "$baselines/e_fsync.c"
}

# puts_and_gets SIZE COUNT FIRST
puts_and_gets() {
  for call in put get; do
    python3 "$here/requests.py" $call "$1" "$2" "$3" "$work/requests"
    label=$(printf '%s size=%-7d' $call "$1")
    python3 "$here/feed.py" "ours  $label" "$2" "$work/requests" run "$server" "$work/F" $library
    [ -z "$baselines" ] || python3 "$here/feed.py" "floor $label" "$2" "$work/requests" port $port $floor
  done
}

objects() {
  stamp "puts and gets through one connection, write beside and rename, no sync"
  "$server" create "$work/F" $library docs me "$secret"
  if [ -n "$baselines" ]; then
    "$work/floor" $port file "$work/floor.d" & floor=$!
    sleep 0.5
  fi
  for round in 1 2; do
    for row in "3 9000" "4096 9000" "1048576 150"; do
      set -- $row
      puts_and_gets "$1" $(($2 / divisor)) $((round * 100000))
    done
  done
  [ -z "$floor" ] || { kill $floor; wait $floor 2> /dev/null || true; floor=; }
}

durability() {
  [ -n "$baselines" ] || return 0
  stamp "what fsync costs for one object on this disk"
  for row in "3 500" "1048576 30"; do
    set -- $row
    "$work/e_fsync" "$work/e.$1" "$2" "$1"
  done
}

updates() {
  stamp "updates"
  python3 "$here/update.py" "$server" "$work/F" $((10000 / divisor)) 6
  timed find "$work/F/22222222-2222-4333-8444-555555555555/fs" -type f -exec sha1sum {} + > "$work/sums"
  awk -v n="$(wc -l < "$work/sums")" '{printf "floor: sha1sum of the %d fs objects once: %.0f ms, %.2f s of CPU\n", n, $1*1e3, $2+$3}' "$work/time"
}

starts() {
  stamp "start over many objects"
  count=$((100000 / divisor))
  many=33333333-2222-4333-8444-555555555555
  "$server" create "$work/F" $many docs me "$secret"
  timed "$server" inetd "$work/F" $many < /dev/null
  empty=$(awk '{print $4}' "$work/time")
  python3 "$here/objects.py" "$work/F/$many" $count
  for round in 1 2 3; do
    timed "$server" inetd "$work/F" $many < /dev/null
    awk -v n=$count -v e="$empty" '{printf "ours  start over %d objects: %.2f s, %.2f s of CPU, %.0f bytes an object above an empty library (peak %.1f MiB)\n", n, $1, $2+$3, ($4-e)*1024/n, $4/1024}' "$work/time"
    timed sh -c "find '$work/F/$many/blocks' -type f -printf '%f %s\n' | sort > /dev/null"
    awk '{printf "floor find with sizes, sorted: %.2f s, %.2f s of CPU\n", $1, $2+$3}' "$work/time"
  done
}

mkdir -p "$work/F"
build
for part in ${PARTS:-objects durability updates starts}; do
  $part
done
stamp end
