#!/bin/bash
# Chunking of 256 MiB of random bytes with the usual parameters, beside a plain C form of the same rule
# that works on the whole file in memory and copies nothing. Prints MiB a second of processor
# time, the best of three runs, and the ratio. Usage: bench/chunking/run.sh [ROUNDS]    (W=DIR says where to work)
set -eu
rounds=${1:-5}
top=$(cd "$(dirname "${BASH_SOURCE[0]}")/../.." && pwd)
work=${W:-$(mktemp -d)}
mkdir -p "$work"
cd "$work"

# The C form: nothing is hashed before the first window that can end in a cut.
cat >cut.c <<'C'
#include <stdint.h>
#include <stdio.h>
#include <stdlib.h>
#define M 6364136223846793005ULL
static uint64_t gone[256];
static long next(const unsigned char *b, long n) {
    long min = 262144, max = n < 4194304 ? n : 4194304, i = min - 48;
    uint64_t w = 0;
    if (n <= min) return n;
    for (; i < min; i++) w = w * M + b[i] + 1;
    if (!(w >> 44)) return min;
    for (; i < max; i++) {
        w = w * M + b[i] + 1 - gone[b[i - 48]];
        if (!(w >> 44)) return i + 1;
    }
    return max;
}
int main(int c, char **v) {
    FILE *f = fopen(v[1], "r");
    fseek(f, 0, 2);
    long n = ftell(f);
    rewind(f);
    unsigned char *b = malloc(n);
    if (fread(b, 1, n, f) != (size_t)n) return 1;
    uint64_t p = 1;
    for (int i = 0; i < 48; i++) p *= M;
    for (int i = 0; i < 256; i++) gone[i] = (i + 1) * p;
    for (int r = atoi(v[2]); r > 0; r--) {
        long chunks = 0;
        for (long at = 0; at < n; chunks++) at += next(b + at, n - at);
        printf("%ld\n", chunks);
    }
    return 0;
}
C
cc -O2 -o cut cut.c

# Ours: pieces of 64 KiB, each chunk let go as soon as it is handed out.
rm -rf repository
mkdir -p repository/crates/chunk_bench/src
cp -r "$top/crates/ids" "$top/crates/block_chunker" repository/crates/
rm -rf repository/crates/*/out repository/crates/*/must-fail
cat >repository/crates.txt <<'CRATES'
ids: hex sha1 uuid
block_chunker: ids
chunk_bench: anyhow block_chunker ids
CRATES
cat >repository/crates/chunk_bench/src/main.rt <<'RT'
//! Chunks a file with the usual parameters, some rounds long.
#![tactic(auto)]

use std::alloc::{AllocError, Global};
use std::{env, fs};

use block_chunker::{Chunker, Cuts};
use ids::Items;

fn count_chunks(alloc: Global, bytes: &[u8]) -> Result<usize, AllocError> {
    let mut chunker = Chunker::new(alloc, Cuts::USUAL);
    let mut count = 0usize;
    for piece in bytes.chunks(65_536) {
        let mut chunks = Items::new(alloc);
        chunker.feed(piece, &mut chunks)?;
        count = count.saturating_add(chunks.len());
    }
    let last = chunker.finish()?;
    Ok(count.saturating_add(usize::from(last.is_some())))
}

fn main(rt: HostRuntime) -> Result<(), anyhow::Error> {
    let words: Vec<String> = env::args(&rt)?.collect(rt.alloc())?;
    let [_, path, rounds] = words.as_slice() else {
        return Ok(());
    };
    let rounds = rounds.as_str().parse::<u32>().unwrap_or(1);
    let bytes = fs::read(&rt, path.as_str())?;
    for _ in 0..rounds {
        let count = count_chunks(rt.alloc(), bytes.as_slice())?;
        println!(rt; "{count}")?;
    }
    Ok(())
}
RT
(cd repository/crates/chunk_bench && rt run -- /dev/null 0 >rt.log 2>&1) || { tail -20 repository/crates/chunk_bench/rt.log; exit 1; }

# Both in turn, so that the load of the machine is the same. What counts is the processor's time of a run
# of some rounds less that of a run of none, which only reads the file.
[ -s random ] || head -c 268435456 /dev/urandom >random
TIMEFORMAT='%U %S'
cost() { { time "$@" >out.txt; } 2>&1 | awk '{ print $1 + $2 }'; }
ours=repository/crates/chunk_bench/out/chunk_bench
: >theirs.txt; : >ours.txt
for _ in 1 2 3; do
    echo "$(cost ./cut random 0) $(cost ./cut random "$rounds") $(cut -d' ' -f1 out.txt | head -1)" >>theirs.txt
    echo "$(cost $ours random 0) $(cost $ours random "$rounds") $(cut -d' ' -f1 out.txt | head -1)" >>ours.txt
done
awk -v mib=256 -v rounds="$rounds" '
    { rate = mib * rounds / ($2 - $1) }
    FNR == NR { if (rate > c) c = rate; chunks = $3; next }
    { if (rate > o) o = rate; if ($3 != chunks) differ = 1 }
    END {
        printf "chunks %d%s\nC    %.0f MiB/s\nours %.0f MiB/s\nratio %.2f\n", chunks, differ ? " (not the same)" : "", c, o, o / c
        exit differ
    }' theirs.txt ours.txt
