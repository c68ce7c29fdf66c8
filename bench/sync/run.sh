#!/usr/bin/env bash
# Syncs of a folder of 10,000 files (82 MB) by processor time: a first push, no change, one file changed and a first clone, over a library
# in memory; and no change over replies that were written beforehand, with the most memory that took. Beside them, over the same files in
# the same run: sha1sum; a C program that reads and hashes them, and one that cuts them and writes each chunk too; rsync -c of two equal
# folders, where it is installed. Aims: no change within 2 times reading and hashing; push and clone within 2 times reading, hashing,
# cutting and writing; one change within no change and 5 ms; under 32 MiB over bytes.
#   bench/sync/run.sh [FILES]      PROGRAM, if set, is the program as it was built before; W says where to work (a folder in memory, or
#                                  each write of the clone waits for a disk)
set -eu
here=$(cd "$(dirname "$0")" && pwd)
files=${1:-10000}
work=$(mktemp -d "${W:-/tmp}/sync.XXXXXX")
trap 'rm -rf "$work"' EXIT
program=${PROGRAM-}
[ -n "$program" ] || program=$("$here/../above.sh" "$work/repository" sync_bench "$here/measure.txt" anyhow depot folder_side http_client http_front ids \
    library_state local_folder local_index object_store remote_calls sync_daemon)
program=$(realpath "$program")
cd "$work"

# A tree: `tree DIR FILES` makes files of 1 to 16,384 bytes in 40 directories, their bytes by a linear congruence.
cat > tree.c <<'C'
#include <stdint.h>
#include <stdio.h>
#include <stdlib.h>
#include <sys/stat.h>
static uint64_t state = 1;
static uint32_t draw(void) {
    state = state * 6364136223846793005ULL + 1442695040888963407ULL;
    return state >> 32;
}
int main(int count, char **words) {
    static unsigned char bytes[16384];
    char path[4096];
    if (count != 3) return 2;
    mkdir(words[1], 0755);
    for (int i = 0, files = atoi(words[2]); i < files; i++) {
        long size = 1 + draw() % 16384;
        for (long j = 0; j < size; j++) bytes[j] = draw() >> 24;
        snprintf(path, sizeof path, "%s/d%02d", words[1], i % 40);
        mkdir(path, 0755);
        snprintf(path, sizeof path, "%s/d%02d/f%05d", words[1], i % 40, i);
        FILE *file = fopen(path, "w");
        if (!file || fwrite(bytes, 1, size, file) != (size_t)size || fclose(file)) return 1;
    }
    return 0;
}
C
# What can't be left out: `floor DIR` reads each file and takes its SHA-1; `floor DIR OUT` cuts it into chunks, takes the SHA-1 of each and
# writes it into a file of its own.
cat > floor.c <<'C'
#define _XOPEN_SOURCE 700
#include <ftw.h>
#include <openssl/evp.h>
#include <stdint.h>
#include <stdio.h>
#include <stdlib.h>
#define M 6364136223846793005ULL
static const char *out;
static unsigned char *bytes;
static long room, chunks;
static uint64_t gone[256];
static long next_cut(const unsigned char *b, long n) {
    long min = 262144, max = n < 4194304 ? n : 4194304, i = min - 48;
    uint64_t w = 0;
    if (n <= min) return n;
    for (; i < min; i++) w = w * M + b[i] + 1;
    if (!(w >> 44)) return min;
    for (; i < max; i++) {
        w = w * M + b[i] + 1 - gone[b[i - 48]];
        if (!(w >> 44)) return i + 1;
    }
    return max;
}
static int visit(const char *path, const struct stat *found, int kind, struct FTW *at) {
    unsigned char sum[EVP_MAX_MD_SIZE];
    char name[4096];
    if (kind != FTW_F) return 0;
    FILE *file = fopen(path, "r");
    if (!file) return 1;
    if (found->st_size > room) bytes = realloc(bytes, room = found->st_size);
    long n = fread(bytes, 1, found->st_size, file);
    fclose(file);
    for (long from = 0, size; from < n; from += size, chunks++) {
        size = out ? next_cut(bytes + from, n - from) : n;
        EVP_Digest(bytes + from, size, sum, 0, EVP_sha1(), 0);
        if (!out) continue;
        snprintf(name, sizeof name, "%s/%ld", out, chunks);
        if (!(file = fopen(name, "w")) || fwrite(bytes + from, 1, size, file) != (size_t)size || fclose(file)) return 1;
    }
    return 0;
}
int main(int count, char **words) {
    uint64_t p = 1;
    for (int i = 0; i < 48; i++) p *= M;
    for (int i = 0; i < 256; i++) gone[i] = (i + 1) * p;
    out = count > 2 ? words[2] : 0;
    bytes = malloc(room = 65536);
    return nftw(words[1], visit, 64, FTW_PHYS);
}
C
cc -O2 -o tree tree.c
cc -O2 -o floor floor.c -lcrypto 2> cc.log || echo "no C form: $(head -1 cc.log)"
./tree folder "$files"
cp -r folder peer
mkdir other chunks

# cost LABEL COMMAND..: microseconds of processor time, its own and its children's.
TIMEFORMAT='%U %S'
cost() {
    label=$1
    shift
    { time "$@" > out.txt; } 2>&1 | awk -v label="$label" '{ printf "%s %d us\n", label, ($1 + $2) * 1000000 }'
}
sums() { find folder -type f -print0 | xargs -0 sha1sum; }
{
    cost sha1sum sums
    [ ! -x floor ] || cost read_and_hash ./floor folder
    [ ! -x floor ] || cost read_hash_cut_write ./floor folder chunks
    "$program" desk folder other folder/d10/f00010 index
    diff -r folder other > diff.txt || echo "the clone is not the folder: $(head -1 diff.txt)"
    command -v rsync > /dev/null && cost rsync_checksum rsync -ac --dry-run folder/ peer/
    /usr/bin/time -f 'bytes_memory %M KiB' "$program" bytes folder index 2>&1
} | tee lines.txt
awk '
    !($1 in value) || $2 < value[$1] { value[$1] = $2 + 0 }
    function ratio(what, one, other) { if ((one in value) && value[other] > 0) printf "%s: %.2f times %s\n", what, value[one] / value[other], other }
    END {
        ratio("no change", "none", "read_and_hash")
        ratio("no change", "none", "sha1sum")
        ratio("no change", "none", "rsync_checksum")
        ratio("first push", "push", "read_hash_cut_write")
        ratio("first clone", "clone", "read_hash_cut_write")
        printf "one change: %.1f ms more than none\n", (value["one"] - value["none"]) / 1000
        printf "over bytes: %.1f MiB at most\n", value["bytes_memory"] / 1024
    }' lines.txt
