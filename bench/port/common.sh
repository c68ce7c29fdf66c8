# Shared by the scripts of this folder: a server at a port of 127.0.0.1, its processor time, and what is stopped at the end.
set -eu
export LC_ALL=C
work=$(mktemp -d "${W:-/tmp}/port.XXXXXX")
running=
# (each by its number, and only what was begun here)
stop_all() {
    for one in $running; do kill "$one" 2> /dev/null || true; done
    for one in $running; do wait "$one" 2> /dev/null || true; done
    [ -n "${KEEP:-}" ] || rm -rf "$work"
}
trap stop_all EXIT

# ticks PID..: hundredths of a second of processor time of these processes so far.
ticks() {
    sum=0
    for one in "$@"; do sum=$((sum + $(sed 's/.*) //' "/proc/$one/stat" | awk '{ print $12 + $13 }'))); done
    echo "$sum"
}
most_memory() { awk '/VmHWM/ { printf "%.1f", $2 / 1024 }' "/proc/$1/status"; }
free_port() { python3 -c 'import socket; s = socket.socket(); s.bind(("127.0.0.1", 0)); print(s.getsockname()[1])'; }

# serve SERVER FOLDER WORKERS LIBRARY..: sets `server_pid` and `port`, once it listens.
serve() {
    port=$(free_port)
    program=$1 folder=$2 workers=$3
    shift 3
    "$program" serve "$folder" "$port" "$workers" 4294967295 "$@" < /dev/null > "$work/out" 2> "$work/err" &
    server_pid=$!
    running="$running $server_pid"
    until grep -q listening "$work/err"; do
        kill -0 "$server_pid" || { cat "$work/out" "$work/err"; exit 1; }
        sleep 0.1
    done
}
