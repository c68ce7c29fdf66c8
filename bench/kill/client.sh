#!/usr/bin/env bash
# Kills the client by SIGKILL at COUNT random moments of pushes and checkouts of two folders that follow one library, and looks
# after each whether anything is lost, and whether the next sync ends well. It kills only what it has started itself.
#   bench/kill/client.sh SERVER CLIENT [COUNT [SECONDS [SEED]]]      the built seaf-server and seaf-cli; at most SECONDS (600)
# W says where to work (/tmp): in memory it takes a fraction of the time, and a kill shows no less there.
set -eu
here=$(cd "$(dirname "$0")" && pwd)
server=$(realpath "$1")
client=$(realpath "$2")
work=$(mktemp -d "${W:-/tmp}/kill.XXXXXX")
trap 'rm -rf "$work"' EXIT
timeout "$((${4:-600} + 120))" python3 "$here/client.py" "$server" "$client" "$work" "${3:-200}" "${4:-600}" "${5:-$RANDOM}"
