#!/usr/bin/env bash
# Kills the server on a folder by SIGKILL at COUNT random moments of a load of updates (some merged) and collections,
# opens it again after each, and looks whether every update that was answered 200 is there, with all that the commits
# that are kept need. It talks over pipes, or to its own port, and kills only what it has started itself.
#   bench/kill/run.sh SERVER [COUNT [SECONDS [SEED]]]      SERVER is the built seaf-server; at most SECONDS (600)
# With SERVE=1 what is killed serves a port of four workers, at which as many links push beside each other; else one connection.
# W says where to work (/tmp): in memory it takes a fraction of the time, and a kill shows no less there.
set -eu
here=$(cd "$(dirname "$0")" && pwd)
server=$(realpath "$1")
work=$(mktemp -d "${W:-/tmp}/kill.XXXXXX")
trap 'rm -rf "$work"' EXIT
trial=kill.py
[ -z "${SERVE:-}" ] || trial=serve.py
timeout "$((${3:-600} + 120))" python3 "$here/$trial" "$server" "$work" "${2:-200}" "${3:-600}" "${4:-$RANDOM}"
