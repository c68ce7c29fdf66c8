#!/usr/bin/env bash
# Runs the commands of README.md, docs/CLIENT.md and docs/SERVER.md, word for word as they stand there, in a clean Debian with a systemd
# of its own and no network but its own: the package is installed, a library shared, two people join and change one file, a person
# comes and goes, a backup is made, tried and put back, a folder and a server's port move. Needs root, systemd-nspawn and, where ROOT is not
# there yet, debootstrap and the network, for some minutes; without that a minute.
#   bench/pages/run.sh DEB ROOT        the package that packaging/deb made; a folder for that Debian, which stays
set -eu
deb=$(realpath "$1") root=$(realpath -m "$2")
cd "$(dirname "$0")"
if [ ! -e "$root/usr/bin/rsync" ]; then
    debootstrap --variant=minbase \
        --include=systemd,systemd-sysv,dbus,dbus-user-session,libpam-systemd,util-linux,procps,psmisc,curl,rsync bookworm "$root"
fi
room=$(mktemp -d)
# (the Debian itself stays as it was)
mkdir "$room/changed" "$room/work" "$room/root"
mount -t overlay overlay -o "lowerdir=$root,upperdir=$room/changed,workdir=$room/work" "$room/root" 2> /dev/null ||
    { rmdir "$room/root"; cp -a "$root" "$room/root"; }
machine=
ends() {
    [ -z "$machine" ] || { kill -KILL "$machine" && wait "$machine"; } 2> /dev/null || :
    sleep 1
    umount "$room/root" 2> /dev/null || :
    rm -rf "$room"
}
trap ends EXIT
mkdir "$room/root/root/pages"
cp ../../README.md ../../docs/CLIENT.md ../../docs/SERVER.md inside.sh "$room/root/root/pages/"
cp "$deb" "$room/root/root/zebuapril_0.1_amd64.deb"

setsid unshare -m sh -c 'mount -t tmpfs tmpfs /run && mkdir /run/systemd && exec systemd-nspawn --register=no --keep-unit --private-network -q -D "$0" -b' \
    "$room/root" < /dev/null > "$room/booted" 2>&1 &
machine=$!
first=
for _ in $(seq 120); do
    first=$(pgrep -P "$machine" || :)
    [ -n "$first" ] && nsenter -t "$first" -a systemctl is-system-running 2> /dev/null | grep -q 'running\|degraded' && break
    sleep 0.5
done
[ -n "$first" ] || { cat "$room/booted"; exit 1; }
nsenter -t "$first" -a /usr/bin/env -i PATH=/usr/local/sbin:/usr/local/bin:/usr/sbin:/usr/bin:/sbin:/bin HOME=/root LANG=C bash /root/pages/inside.sh
