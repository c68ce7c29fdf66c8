#!/usr/bin/env bash
# Times uncontended turn, publish and done of a turnstile beside lock and unlock of std::sync::Mutex,
# and counts while another thread has the turn. Everything is built in a temporary folder.
# Usage: bench/turnstile/run.sh [--keep]
set -eu
here=$(cd "$(dirname "$0")" && pwd)
top=$(cd "$here/../.." && pwd)
work=$(mktemp -d)
[ "${1:-}" = --keep ] && echo "in $work" || trap 'rm -rf "$work"' EXIT

# The measured program is a crate above a copy of the turnstile.
mkdir -p "$work/crates/turnstile" "$work/crates/turnstile_bench/src" "$work/crates/turnstile_bench/specs"
cp "$top/HANDLES" "$work/"
cp -r "$top/crates/turnstile/src" "$top/crates/turnstile/specs" "$top/crates/turnstile/proofs" "$work/crates/turnstile/"
cp "$here/measure.txt" "$work/crates/turnstile_bench/src/main.rt"
mkdir -p "$work/crates/turnstile_bench/proofs/add_many" "$work/crates/turnstile_bench/proofs/count_many"
for name in add_many count_many; do
    cat > "$work/crates/turnstile_bench/proofs/$name/Invariants.antt" <<ANTT
use Rattle.turnstile.specs.PassView.{IsPassOf}
use Rattle.turnstile_bench.proofs.$name.Given as goal

abbrev pub invariant-loop : goal.invariant-loop
invariant-loop LL = IsPassOf l.turnstile l.pass
ANTT
done
sed -i 's/LL/g l/' "$work/crates/turnstile_bench/proofs/add_many/Invariants.antt"
sed -i 's/LL/l/' "$work/crates/turnstile_bench/proofs/count_many/Invariants.antt"
printf 'turnstile: atomic_table\nturnstile_bench: turnstile\n' > "$work/crates.txt"
(cd "$work" && rt all check > "$work/check.log" 2>&1) || { tail -20 "$work/check.log"; exit 1; }

# The same work under a Mutex, by rustc.
cat > "$work/mutex.rs" <<'RUST'
use std::hint::black_box;
use std::sync::Mutex;
use std::time::Instant;

fn main() {
    let rounds = 5_000_000u32;
    let tally = Mutex::new(0u64);
    let start = Instant::now();
    for _ in 0..rounds {
        *black_box(&tally).lock().unwrap() += 1;
    }
    let took = start.elapsed().as_micros();
    println!("lock, add and unlock: {took} us for {rounds} rounds, last {}", tally.lock().unwrap());
}
RUST
rustc -O -o "$work/mutex" "$work/mutex.rs"
"$work/mutex"
(cd "$work/crates/turnstile_bench" && rt run 2>> "$work/check.log")
