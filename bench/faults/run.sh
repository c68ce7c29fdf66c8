#!/usr/bin/env bash
# What the server on a folder says to bad storage, and whether the library is as it was once that is mended.
#   bench/faults/run.sh SERVER      as root also: no permission (as nobody), a full disk (a file system of 8 MiB)
set -eu
here=$(cd "$(dirname "$0")" && pwd)
work=$(mktemp -d)
trap 'umount "$work/small" 2> /dev/null || true; rm -rf "$work"' EXIT
timeout 900 python3 "$here/faults.py" "$(realpath "$1")" "$work"
