# Runs one row, tests/rows/NAME/row, in an empty folder: `begin.sh WORDS ROW`, with the server's path in PROGRAM, and
# the client's in CLIENT.
set -eu
LC_ALL=C
export LC_ALL
# The seconds that one run of the program may take.
SECONDS_EACH=${SECONDS_EACH-60}
tab=$(printf '\t')
. "$1/objects.sh"
. "$1/requests.sh"
. "$1/runs.sh"
. "$1/client.sh"
. "$1/port.sh"
ROW=$2
mkdir kept openings sent kept/block kept/fs kept/commit kept/size
. "$ROW/row"
