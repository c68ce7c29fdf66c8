#!/usr/bin/env bash
# Runs each recipe of docs/NETWORK.md between two hosts, which are network namespaces of this machine: a library is made, served at
# 127.0.0.1 of the one host, and two folders of the other follow it, over ssh, WireGuard (by wireguard-go), and TLS by nginx and stunnel
# with two servers behind it. A certificate of another name is refused. Needs root, iproute2, nginx, stunnel4, wireguard-go, openssh.
#   bench/network/run.sh SERVER CLIENT        the built seaf-server and seaf-cli
set -eu
server=$(realpath "$1") client=$(realpath "$2")
room=$(mktemp -d)
chmod 711 "$room"
near=seaf-near-$$ far=seaf-far-$$
ends() {
    for space in $near $far; do
        ip netns pids "$space" 2> /dev/null | xargs -r kill 2> /dev/null || :
    done
    sleep 0.3
    ip netns del $near 2> /dev/null || :
    ip netns del $far 2> /dev/null || :
    rm -rf "$room"
}
trap ends EXIT
cd "$room"
at_near() { ip netns exec $near "$@"; }
at_far() { ip netns exec $far "$@"; }
waits_for() { # HOST PORT, as seen from $1
    for _ in $(seq 100); do
        ip netns exec "$1" bash -c "exec 3<> /dev/tcp/$2/$3" 2> /dev/null && return
        sleep 0.05
    done
    echo "nothing listens at $2:$3" >&2
    return 1
}

# two hosts, one link between them
ip netns add $near
ip netns add $far
ip link add "n$$" netns $near type veth peer name "f$$" netns $far
at_near ip addr add 192.0.2.1/24 dev "n$$"
at_far ip addr add 192.0.2.2/24 dev "f$$"
for space in $near $far; do
    ip netns exec $space ip link set lo up
done
at_near ip link set "n$$" up
at_far ip link set "f$$" up

# a library of Ann and Bob on the far host, and another one behind a server of its own
one=11111111-2222-4333-8444-555555555555 two=11111111-2222-4333-8444-666666666666
ann=$(printf 'a%.0s' $(seq 40)) bob=$(printf 'b%.0s' $(seq 40))
mkdir first second
"$server" create first $one docs ann "$ann" > /dev/null
"$server" token first $one bob "$bob" rw > /dev/null
"$server" create second $two more ann "$ann" > /dev/null
at_far "$server" serve first 8082 4 4294967295 $one 2> first.log &
at_far "$server" serve second 8083 4 4294967295 $two 2> second.log &
waits_for $far 127.0.0.1 8082
waits_for $far 127.0.0.1 8083

# tries NAME HOST PORT LIB: two folders follow the library there, and come to the same files.
tries() {
    name=$1
    for person in ann bob; do
        [ "$person$4" != "bob$two" ] || continue
        mkdir -p "$name/$person"
        at_near "$client" init -c "$name/$person.own" > /dev/null
        token=$ann
        [ $person = ann ] || token=$bob
        at_near "$client" download -c "$name/$person.own" -l "$4" -s "http://$2:$3" -w "$room/$name/$person" -u $person -k "$token"
    done
    head -c 9000000 /dev/urandom > "$name/ann/$name.large"
    for number in $(seq 60); do echo "$name $number" > "$name/ann/$name.$number"; done
    at_near "$client" start -c "$name/ann.own" -n 1
    [ "$4" = $two ] || { at_near "$client" start -c "$name/bob.own" -n 1 && diff -r "$name/ann" "$name/bob"; }
    echo "$name: done"
}

# ssh
ssh-keygen -q -t ed25519 -N '' -f host
ssh-keygen -q -t ed25519 -N '' -f key
mkdir -p /run/sshd
at_far "$(command -v sshd)" -f /dev/null -p 2222 -h "$room/host" -o "AuthorizedKeysFile=$room/key.pub" -o StrictModes=no -o UsePAM=no -o "PidFile=$room/sshd.pid"
waits_for $near 192.0.2.2 2222
at_near ssh -q -fNL 8090:127.0.0.1:8082 -p 2222 -i key -o StrictHostKeyChecking=no -o UserKnownHostsFile=known root@192.0.2.2
waits_for $near 127.0.0.1 8090
tries ssh 127.0.0.1 8090 $one

# WireGuard, and the port handed on at its address
wg genkey | tee near.key | wg pubkey > near.pub
wg genkey | tee far.key | wg pubkey > far.pub
for side in near far; do
    space=$near other=far address=10.9.0.2 peer=10.9.0.1 end=192.0.2.2
    [ $side = near ] || { space=$far other=near address=10.9.0.1 peer=10.9.0.2 end=192.0.2.1; }
    ip netns exec $space env WG_PROCESS_FOREGROUND=1 LOG_LEVEL=error wireguard-go "wg$$$side" > "$side.log" 2>&1 &
    for _ in $(seq 100); do ip netns exec $space ip link show "wg$$$side" > /dev/null 2>&1 && break || sleep 0.05; done
    ip netns exec $space wg set "wg$$$side" listen-port 51820 private-key $side.key peer "$(cat $other.pub)" allowed-ips $peer/32 endpoint $end:51820
    ip netns exec $space ip addr add $address/24 dev "wg$$$side"
    ip netns exec $space ip link set "wg$$$side" up
done
at_far socat TCP-LISTEN:8082,bind=10.9.0.1,fork,reuseaddr TCP:127.0.0.1:8082 &
waits_for $near 10.9.0.1 8082
tries wireguard 10.9.0.1 8082 $one

# TLS: nginx before two servers, stunnel before the client
openssl req -x509 -newkey rsa:2048 -nodes -keyout key.pem -out cert.pem -days 2 -subj /CN=files.example.org -addext subjectAltName=DNS:files.example.org 2> /dev/null
cat > nginx.conf <<END
daemon off; pid $room/nginx.pid; error_log $room/nginx.log;
events { }
http {
  access_log off; client_body_temp_path $room/body; proxy_temp_path $room/proxy; fastcgi_temp_path $room/fast; uwsgi_temp_path $room/uwsgi; scgi_temp_path $room/scgi;
  client_max_body_size 80m;
  map \$uri \$at {
    ~^/repo/$one/ 127.0.0.1:8082;
    ~^/repo/$two/ 127.0.0.1:8083;
  }
  server {
    listen 443 ssl; ssl_certificate $room/cert.pem; ssl_certificate_key $room/key.pem;
    keepalive_timeout 300s; keepalive_requests 100000;
    location / {
      proxy_pass http://\$at; proxy_http_version 1.1; proxy_set_header Connection "";
      proxy_request_buffering on; proxy_read_timeout 600s;
    }
  }
}
END
at_far nginx -c "$room/nginx.conf" > nginx.out 2>&1 &
waits_for $near 192.0.2.2 443
for host in files.example.org other.example.org; do
    port=8091
    [ $host = files.example.org ] || port=8092
    cat > stunnel.$port <<END
foreground = yes
pid =
[seaf]
client = yes
accept = 127.0.0.1:$port
connect = 192.0.2.2:443
CAfile = $room/cert.pem
checkHost = $host
verifyChain = yes
END
    at_near stunnel4 stunnel.$port > stunnel.$port.log 2>&1 &
    waits_for $near 127.0.0.1 $port
done
tries tls 127.0.0.1 8091 $one
tries moved 127.0.0.1 8091 $two
mkdir refused
at_near "$client" init -c refused.own > /dev/null
if at_near "$client" download -c refused.own -l $one -s http://127.0.0.1:8092 -w refused -u ann -k "$ann" > said; then
    echo 'a server of another name was believed' >&2
    exit 1
fi
echo "another name: $(cat said)"
