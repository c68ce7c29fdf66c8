#!/usr/bin/env bash
# PUT and GET of objects of 4 KiB and 1 MiB over 8 links, and GET of a head that is as it was (304) with a writer beside it, at `seaf-server
# serve` with 8 workers, nginx (dav, 2 workers) where it is installed, and a bare C server of blobs: processor time of the server a request
# and how long each waits. BASELINES is a folder with the C programs `floor.c` and `objload.c`.
#   bench/port/objects.sh SERVER BASELINES [ROUNDS [COUNT [LARGE]]]
here=$(cd "$(dirname "$0")" && pwd)
. "$here/common.sh"
server=$(realpath "$1") baselines=$(realpath "$2") rounds=${3:-3} count=${4:-8000} large=${5:-200}
library=11111111-2222-4333-8444-555555555555
token=aaaaaaaaaaaaaaaaaaaaaaaaaaaaaaaaaaaaaaaa
for one in floor objload; do gcc -O2 -w -D_GNU_SOURCE -o "$work/$one" "$baselines/$one.c" -lcrypto -lpthread; done
gcc -O2 -o "$work/look" "$here/look.c" -lpthread

mkdir "$work/place"
"$server" create "$work/place" $library docs me $token > /dev/null
serve "$server" "$work/place" 8 $library
"$work/floor" 18101 file "$work/blobs" & floor_pid=$!
running="$running $floor_pid"
nginx_pids=
if command -v nginx > /dev/null; then
    mkdir -p "$work/nginx/data/o" "$work/nginx/tmp"
    for i in $(seq 0 255); do mkdir "$work/nginx/data/o/$(printf %02x "$i")"; done
    echo '{"head_commit_id":"0000000000000000000000000000000000000000","is_corrupted":0}' > "$work/nginx/data/head"
    # (as root its workers are another user's, unless told)
    owner=$([ "$(id -u)" != 0 ] || echo "user root;")
    cat > "$work/nginx/conf" << C
worker_processes 2; error_log $work/nginx/log crit; pid $work/nginx/pid; daemon off; $owner
events { worker_connections 1024; }
http { access_log off; keepalive_requests 100000000; client_body_buffer_size 2m; client_max_body_size 64m; client_body_temp_path $work/nginx/tmp;
 tcp_nodelay on; sendfile on; open_file_cache off; etag on;
 server { listen 127.0.0.1:18102; root $work/nginx/data; location /o/ { dav_methods PUT; create_full_put_path on; dav_access user:rw; } } }
C
    nginx -p "$work/nginx" -c "$work/nginx/conf" 2> /dev/null & nginx_pid=$!
    running="$running $nginx_pid"
    sleep 1
    nginx_pids=$(cat "/proc/$nginx_pid/task/$nginx_pid/children")
fi
sleep 0.5

# one NAME PIDS COMMAND..: a line of the load, with the server's processor time a request.
one() {
    name=$1 pids=$2
    shift 2
    before=$(ticks $pids)
    line=$("$@")
    after=$(ticks $pids)
    echo "$name $line" | awk -v t=$((after - before)) '{ for (i = 1; i <= NF; i++) if ($i ~ /^n=/) n = substr($i, 3); printf "%s cpu_us=%.1f\n", $0, t * 1e4 / n }'
}
load() { # NAME PIDS STYLE PORT BASE OP SIZE COUNT SEED [TOKEN]
    one "$1" "$2" "$work/objload" "$3" 127.0.0.1 "$4" "$5" "$6" "$7" "$8" 8 "$9" ${10:-}
}
# A writer beside: one link puts objects of 1 MiB that are there already, one after another, so that nothing changes.
beside() { # STYLE PORT BASE SEED [TOKEN]
    while :; do "$work/objload" "$1" 127.0.0.1 "$2" "$3" put 1048576 "$large" 1 "$4" ${5:-} > /dev/null; done & writer=$!
    running="$running $writer"
    sleep 1
}
ended() {
    kill $writer
    wait $writer 2> /dev/null || true
}
for round in $(seq "$rounds"); do
    for size in 4096 1048576; do
        n=$count
        [ $size = 4096 ] || n=$large
        for op in put get; do
            load ours "$server_pid" seaf "$port" /repo/$library $op $size "$n" "$round$size" $token
            [ -z "$nginx_pids" ] || load nginx "$nginx_pids" dav 18102 /o $op $size "$n" "$round$size"
            load floor "$floor_pid" dav 18101 /o $op $size "$n" "$round$size"
        done
    done
    one ours "$server_pid" "$work/look" "$port" /repo/$library/commit/HEAD "$count" 7 $token
    beside seaf "$port" /repo/$library "${round}1048576" $token
    one ours_beside "$server_pid" "$work/look" "$port" /repo/$library/commit/HEAD "$count" 7 $token
    ended
    [ -n "$nginx_pids" ] || continue
    one nginx "$nginx_pids" "$work/look" 18102 /head "$count" 7
    beside dav 18102 /o "${round}1048576"
    one nginx_beside "$nginx_pids" "$work/look" 18102 /head "$count" 7
    ended
done | tee "$work/lines"
echo "the least of $rounds rounds: processor time of the server a request (beside a writer: of both), p50 and p99 of the load"
awk '{ size = $3; sub(/.*=/, "", size); what = $1 " " $2 " " ($2 == "look" ? "head" : size); for (i = 1; i <= NF; i++) { split($i, part, "="); value[part[1]] = part[2] }
       for (name in value) if (name == "cpu_us" || name == "p50us" || name == "p99us") { key = what SUBSEP name; if (!(key in least) || value[name] + 0 < least[key]) least[key] = value[name] + 0 }
       if (!(what in seen)) { seen[what] = 1; order[++lines] = what } }
     END { for (i = 1; i <= lines; i++) printf "%-22s cpu %8.1f us  p50 %6d us  p99 %6d us\n", order[i], least[order[i], "cpu_us"], least[order[i], "p50us"], least[order[i], "p99us"] }' "$work/lines" | sort -k2,3
echo "most memory of the server: $(most_memory "$server_pid") MiB; of the C server: $(most_memory "$floor_pid") MiB"
for one in $nginx_pids; do echo "most memory of a worker of nginx: $(most_memory "$one") MiB"; done
