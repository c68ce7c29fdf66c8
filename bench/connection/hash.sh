#!/usr/bin/env bash
# One PUT and one GET of 16 MiB by the server as `inetd :memory:`, beside what cannot be left out: the SHA-1 of those bytes by the
# kit's own `sha1`, once as they are put and once as they are given, and one copy each way. Milliseconds of processor time, the
# least of nine, in turn.
#   bench/connection/hash.sh SERVER [HASH]    HASH: a program `HASH FILE ROUNDS` that reads the file, and copies and hashes its bytes
#                                             so many times, built as the server was; if left out it is proved and built here
set -eu
here=$(cd "$(dirname "$0")" && pwd)
server=$(realpath "$1")
hash=${2:+$(realpath "$2")}
library=11111111-2222-4333-8444-555555555555
work=$(mktemp -d)
trap 'rm -rf "$work"' EXIT
cd "$work"

# The program, in a repository of its own.
build() {
    mkdir -p repository/crates/hash_bench/src
    echo 'hash_bench: anyhow sha1' > repository/crates.txt
    cat > repository/crates/hash_bench/src/main.rt <<'RT'
//! The SHA-1 of a file's bytes, and a copy of them, some rounds long.
#![tactic(auto)]

use sha1::Sha1;
use std::{env, fs};

fn main(rt: HostRuntime) -> Result<(), anyhow::Error> {
    let words: Vec<String> = env::args(&rt)?.collect(rt.alloc())?;
    let [_, path, rounds] = words.as_slice() else {
        return Ok(());
    };
    let rounds = rounds.as_str().parse::<u32>().unwrap_or(1);
    let bytes = fs::read(&rt, path.as_str())?;
    for _ in 0..rounds {
        let mut copy = Vec::new(rt.alloc());
        copy.extend_from_slice(bytes.as_slice())?;
        let digest = Sha1::digest(copy.as_slice());
        let first = digest[0];
        println!(rt; "{first}")?;
    }
    Ok(())
}
RT
    (cd repository/crates/hash_bench && rt run -- /dev/null 0 > rt.log 2>&1) || { tail -20 repository/crates/hash_bench/rt.log; exit 1; }
    hash=$work/repository/crates/hash_bench/out/hash_bench
}

TIMEFORMAT='%U %S'
cost() { { time "$@" > out; } 2>&1 | awk '{ print ($1 + $2) * 1000 }'; }
served() { "$server" inetd :memory: $library < "$1"; }

[ -n "$hash" ] || build
python3 "$here/requests.py" large large
python3 "$here/requests.py" none none
head -c 16777416 large | tail -c 16777216 > bytes
for _ in 1 2 3 4 5 6 7 8 9; do
    echo "$(cost served none) $(cost served large) $(cost "$hash" bytes 0) $(cost "$hash" bytes 2) $(cost sha1sum bytes)" >> each
done
awk '
    function least(column, more) { if (NR == 1 || more < best[column]) best[column] = more }
    { least(1, $2 - $1); least(2, $4 - $3); least(3, $5) }
    END { printf "a PUT and a GET of 16 MiB %.0f ms, their SHA-1 twice and a copy each way %.0f ms, ratio %.2f (sha1sum once %.0f ms)\n", best[1], best[2], best[1] / best[2], best[3] }' each
