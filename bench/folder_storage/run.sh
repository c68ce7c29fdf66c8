#!/usr/bin/env bash
# Times puts, gets and the listing of a library's folder, beside bare C that writes beside and renames (and then syncs
# each), in one run. Everything is built in a temporary folder.
# Usage: bench/folder_storage/run.sh [FOLDER]    FOLDER is where the libraries are made (a temporary folder)
set -eu
here=$(cd "$(dirname "$0")" && pwd)
top=$(cd "$here/../.." && pwd)
work=$(mktemp -d)
kept=$(mktemp -d "${1:-$work}/folder.XXXXXX")
trap 'rm -rf "$work" "$kept"' EXIT

# The measured program is a crate above copies of the crates that it stands on.
mkdir -p "$work/crates/folder_bench/src"
cp "$top/HANDLES" "$work/"
for name in ids object_store folder_storage; do
    mkdir -p "$work/crates/$name"
    cp -r "$top/crates/$name/src" "$top/crates/$name/specs" "$top/crates/$name/proofs" "$work/crates/$name/"
    [ -d "$top/crates/$name/out" ] && cp -a "$top/crates/$name/out" "$work/crates/$name/"
    grep "^$name:" "$top/crates.txt" >> "$work/crates.txt"
done
cp "$here/measure.txt" "$work/crates/folder_bench/src/main.rt"
printf 'folder_bench: folder_storage ids object_store\n' >> "$work/crates.txt"
(cd "$work/crates/folder_bench" && rt run > "$work/check.log" 2>&1) || true
ours="$work/crates/folder_bench/out/folder_bench"
[ -x "$ours" ] || { tail -20 "$work/check.log"; exit 1; }

# The floor: the same layout and steps in C.
cat > "$work/floor.c" <<'C'
#include <fcntl.h>
#include <stdint.h>
#include <stdio.h>
#include <stdlib.h>
#include <string.h>
#include <sys/stat.h>
#include <time.h>
#include <unistd.h>
static double now(void) { struct timespec t; clock_gettime(CLOCK_MONOTONIC, &t); return t.tv_sec * 1e9 + t.tv_nsec; }
static void path_of(char *p, const char *d, uint64_t i) {
    uint64_t x = i * 0x9e3779b97f4a7c15ull;
    sprintf(p, "%s/%02x/%014llx000000000000000000000000", d, (unsigned)(x >> 56), (unsigned long long)(x & 0xffffffffffffffull));
}
int main(int c, char **v) {
    long n = atol(v[2]), size = atol(v[3]);
    char p[512], q[512], *b = malloc(size + 1);
    memset(b, 7, size);
    for (int i = 0; i < 256; i++) { sprintf(p, "%s/%02x", v[1], i); mkdir(p, 0700); }
    sprintf(q, "%s/spare", v[1]);
    double a = now();
    for (long i = 0; i < n; i++) {
        int f = open(q, O_CREAT | O_WRONLY | O_TRUNC, 0600);
        if (write(f, b, size) != size) return 1;
        close(f);
        path_of(p, v[1], i);
        if (rename(q, p)) return 1;
    }
    printf("C put size=%ld n=%ld ns_each=%.0f\n", size, n, (now() - a) / n);
    a = now();
    for (long i = 0; i < n; i++) {
        path_of(p, v[1], i);
        int f = open(p, O_RDONLY);
        struct stat s;
        fstat(f, &s);
        char *r = malloc(s.st_size + 1);
        if (read(f, r, s.st_size) != s.st_size) return 1;
        close(f);
        free(r);
    }
    printf("C get size=%ld n=%ld ns_each=%.0f\n", size, n, (now() - a) / n);
    a = now();
    for (long i = 0; i < n; i++) { path_of(p, v[1], i); int f = open(p, O_RDONLY); fsync(f); close(f); }
    for (int i = 0; i < 256; i++) { sprintf(p, "%s/%02x", v[1], i); int f = open(p, O_RDONLY); fsync(f); close(f); }
    printf("C make_durable size=%ld n=%ld ns_each=%.0f\n", size, n, (now() - a) / n);
    return 0;
}
C
gcc -O2 -o "$work/floor" "$work/floor.c"

for round in 1 2; do
    for row in "3 10000" "4096 10000" "1048576 200"; do
        set -- $row
        mkdir "$kept/ours" "$kept/floor"
        "$work/floor" "$kept/floor" "$2" "$1"
        "$ours" "$kept/ours" "$2" "$1"
        rm -rf "$kept/ours" "$kept/floor"
    done
done
