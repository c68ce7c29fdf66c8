#!/usr/bin/env bash
# Proves and builds a program above a copy of the crates, without their tests and edits, and prints its path.
#   bench/above.sh ROOM NAME MAIN CRATE..     ROOM: a folder to work in; NAME: the program's; MAIN: the text of its main.rt, with
#                                             the answers of a function F in `answers/F.txt` beside it; CRATE..: the crates, of
#                                             this repository and of the kit, that it names
set -eu
top=$(cd "$(dirname "$0")/.." && pwd)
room=$1 name=$2 main=$3
shift 3
mkdir -p "$room/crates/$name/src"
cp "$top/HANDLES" "$room/"
for crate in $(sed -n 's/^\([a-z_0-9]*\):.*/\1/p' "$top/crates.txt" | grep -v '_tests$'); do
    mkdir -p "$room/crates/$crate"
    for part in src specs proofs; do
        [ ! -d "$top/crates/$crate/$part" ] || cp -r "$top/crates/$crate/$part" "$room/crates/$crate/"
    done
    grep "^$crate:" "$top/crates.txt" >> "$room/crates.txt"
done
cp "$main" "$room/crates/$name/src/main.rt"
for answers in "$(dirname "$main")"/answers/*.txt; do
    [ -e "$answers" ] || continue
    function=$(basename "$answers" .txt)
    mkdir -p "$room/crates/$name/proofs/$function"
    cp "$answers" "$room/crates/$name/proofs/$function/Answers.antt"
done
echo "$name: $*" >> "$room/crates.txt"
(cd "$room/crates/$name" && rt run < /dev/null > "$room/run.log" 2>&1) || { tail -20 "$room/run.log" >&2; exit 1; }
echo "$room/crates/$name/out/$name"
