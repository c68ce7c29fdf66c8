#!/usr/bin/env bash
# A folder of 10,000 files (82 MB) brought from one client to another through `seaf-server serve`: first push, first clone, one file changed
# and taken over, and no change at each client; beside rsync with a daemon on loopback where it is installed. By the clock and by processor
# time of the client and of the server, and the most memory of each. BASELINES, where it is told, is a folder with `b_syncthing.py`, which is
# run where syncthing is installed, over as many files made by the same rule from another number. W names a folder to work in.
#   bench/port/folders.sh SERVER CLIENT [FILES [BASELINES]]
here=$(cd "$(dirname "$0")" && pwd)
. "$here/common.sh"
server=$(realpath "$1") client=$(realpath "$2") files=${3:-10000} baselines=${4:-}
library=11111111-2222-4333-8444-555555555555
token=aaaaaaaaaaaaaaaaaaaaaaaaaaaaaaaaaaaaaaaa
# (the tree of bench/sync)
sed -n "/^cat > tree.c/,/^C$/p" "$here/../sync/run.sh" | sed '1d;$d' > "$work/tree.c"
cc -O2 -o "$work/tree" "$work/tree.c"
cd "$work"
./tree folder "$files"
cp -r folder peer_source
mkdir other peer_target place

# cost LABEL PID COMMAND..: by the clock, by the processor of the command and of the process PID, and the command's most memory.
cost() {
    label=$1 beside=$2
    shift 2
    before=$([ -z "$beside" ] || ticks $beside)
    /usr/bin/time -o spent -f '%e %U %S %M' "$@" > said 2>&1 || { echo "$label: status $?"; cat said; }
    after=$([ -z "$beside" ] || ticks $beside)
    tail -n 1 spent | awk -v label="$label" -v t="$((${after:-0} - ${before:-0}))" \
        '{ printf "%-28s %6.2f s by the clock, %5.2f s of the client, %5.2f s of the server, %6.1f MiB\n", label, $1, $2 + $3, t / 100, $4 / 1024 }'
}
server_of() { # the most memory of the server, its own and its children's
    echo "most memory of the server: $(most_memory "$1") MiB"
}
"$server" create place $library docs me $token > /dev/null
serve "$server" place 8 $library
for one in a b; do "$client" init -c conf_$one > /dev/null; done
there="http://127.0.0.1:$port"
cost 'ours: push' $server_pid "$client" sync -c conf_a -l $library -s "$there" -d "$work/folder" -u a -k $token
cost 'ours: clone' $server_pid "$client" download -c conf_b -l $library -s "$there" -w "$work/other" -u b -k $token
for round in 1 2 3; do
    cost 'ours: no change' $server_pid "$client" start -c conf_a -n 1
    printf '!' >> folder/d10/f00010
    cost 'ours: one changed, pushed' $server_pid "$client" start -c conf_a -n 1
    cost 'ours: one changed, taken' $server_pid "$client" start -c conf_b -n 1
done
diff -r folder other > differs || echo "the folders differ: $(head -n 1 differs)"
server_of $server_pid
if command -v rsync > /dev/null; then
    port=$(free_port)
    printf 'use chroot = no\nuid = %s\ngid = %s\n[m]\npath = %s\nread only = no\n' "$(id -u)" "$(id -g)" "$work/peer_target" > rsyncd.conf
    rsync --daemon --no-detach --address=127.0.0.1 --port="$port" --config=rsyncd.conf & daemon=$!
    running="$running $daemon"
    sleep 1
    # The daemon's children do the work: their time is counted once they are waited for.
    children() { sed 's/.*) //' "/proc/$daemon/stat" | awk '{ print $14 + $15 }'; }
    for kind in '' -c; do
        rm -rf peer_target && mkdir peer_target
        for what in push 'no change' 'no change' 'no change' 'one changed'; do
            [ "$what" != 'one changed' ] || printf '!' >> peer_source/d10/f00010
            began=$(children)
            cost "rsyncd $kind: $what" '' rsync -a $kind peer_source/ "rsync://127.0.0.1:$port/m/"
            sleep 0.5
            echo "$began $(children)" | awk '{ printf "    the daemon %.2f s\n", ($2 - $1) / 100 }'
        done
    done
fi
if [ -n "$baselines" ] && command -v syncthing > /dev/null; then
    mkdir -p "$work/bin"
    gcc -O2 -w -o "$work/bin/gen" "$baselines/gen.c"
    W=$work timeout 280 python3 "$baselines/b_syncthing.py" t10k
fi
