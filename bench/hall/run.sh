#!/usr/bin/env bash
# Times heads that are asked of a hall beside those that its library answers alone, and looks while another thread changes the
# library; and tells what a change and a pass cost in memory. Everything is built in a temporary folder.
# Usage: bench/hall/run.sh [--keep]
set -eu
here=$(cd "$(dirname "$0")" && pwd)
top=$(cd "$here/../.." && pwd)
work=$(mktemp -d)
[ "${1:-}" = --keep ] && echo "in $work" || trap 'rm -rf "$work"' EXIT

# The measured program is a crate above copies of the others, with the answers of the tests that have the same functions.
cp -r "$top/HANDLES" "$top/crates.txt" "$top/crates" "$work/"
bench="$work/crates/hall_bench"
tests="$top/crates/service_tests/proofs"
mkdir -p "$bench/src" "$bench/specs" "$bench/proofs/two_passes" "$bench/proofs/beside"
for name in through changed looked; do
    mkdir -p "$bench/proofs/$name"
    loop=loop
    [ "$name" = changed ] && loop=loop-i
    cat > "$bench/proofs/$name/Invariants.antt" <<ANTT
use Rattle.sync_calls.specs.Hall.{AreReady}
use Rattle.hall_bench.proofs.$name.Given as goal

abbrev pub invariant-$loop : goal.invariant-$loop
invariant-$loop g l = AreReady g.S.Shelf.contents g.S.Shelf.may_give g.S.Shelf.texts g.S.Shelf.faults l.hall l.pass
ANTT
done
sed 's/service_tests.proofs.hall.two_passes/hall_bench.proofs.two_passes/' "$tests/hall/two_passes/Answers.antt" > "$bench/proofs/two_passes/Answers.antt"
sed 's/service_tests.proofs.hall_threads_tests.beside/hall_bench.proofs.beside/' "$tests/hall_threads_tests/beside/Answers.antt" > "$bench/proofs/beside/Answers.antt"
printf 'hall_bench: atomic_table depot ids library_state object_store sync_calls turnstile\n' >> "$work/crates.txt"

# A program of so many turns and passes. It is proved and run once as it is built.
build() {
    sed -e "s/TURNS: u32 = 100_000/TURNS: u32 = $1/" -e "s/PASSES: u32 = 2/PASSES: u32 = $2/" "$here/measure.txt" > "$bench/src/main.rt"
    (cd "$bench" && rt run > "$work/told" 2> "$work/run.log") || { tail -20 "$work/run.log"; exit 1; }
    cp "$bench/out/hall_bench" "$work/bench.$1.$2"
}

# The most memory of a run, in KiB.
most() {
    python3 -c 'import resource, subprocess, sys
subprocess.run(sys.argv[1:], stdout=subprocess.DEVNULL, check=True)
print(resource.getrusage(resource.RUSAGE_CHILDREN).ru_maxrss)' "$work/bench.$1.$2"
}

build 1_000 2
few=$(most 1_000 2)
build 1_000 10_002
wide=$(most 1_000 10_002)
build 100_000 2
many=$(most 100_000 2)
"$work/bench.100_000.2"
echo "most memory: $few KiB with 1,000 changes, $many KiB with 100,000; $wide KiB with 10,000 passes more"
