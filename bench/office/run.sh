#!/bin/bash
# No measure but a trial: an office. One server on a folder serves a port by eight workers; three clients change files of their own and
# files that they share, sync all the while, and the library is collected every few seconds. In the end all three folders are alike, and
# no version that was the last one of its writer is lost. Usage: bench/office/run.sh SERVER CLIENT [SECONDS [SEED]]    (W=DIR says where to work)
set -eu
server=$(readlink -f "$1")
client=$(readlink -f "$2")
top=$(cd "$(dirname "${BASH_SOURCE[0]}")" && pwd)
work=${W:-$(mktemp -d)}
mkdir -p "$work"
exec python3 "$top/office.py" "$server" "$client" "$work" "${3:-600}" "${4:-1}"
