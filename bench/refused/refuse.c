/* Refuses one allocation: the one of number REFUSE_AT, counted from 1 at the program's start; with REFUSE_COUNT a file is
   told how many there were. Loaded before the C library. */
#define _GNU_SOURCE
#include <dlfcn.h>
#include <errno.h>
#include <stdio.h>
#include <stdlib.h>
#include <string.h>

static long number, at = -1;
static char early[65536];
static size_t early_used;

static void *next(const char *name) { return dlsym(RTLD_NEXT, name); }

static int refused(void) {
    if (at < 0) {
        const char *told = getenv("REFUSE_AT");
        at = told ? atol(told) : 0;
    }
    if (++number == at) {
        errno = ENOMEM;
        return 1;
    }
    return 0;
}

void *malloc(size_t size) {
    static void *(*real)(size_t);
    if (!real) real = next("malloc");
    return refused() ? NULL : real(size);
}

void *calloc(size_t count, size_t size) {
    static void *(*real)(size_t, size_t);
    static int looking;
    if (!real) {
        if (looking) { /* dlsym itself asks for memory */
            void *p = early + early_used;
            early_used += count * size;
            return p;
        }
        looking = 1;
        real = next("calloc");
    }
    return refused() ? NULL : real(count, size);
}

void *realloc(void *p, size_t size) {
    static void *(*real)(void *, size_t);
    if (!real) real = next("realloc");
    return refused() ? NULL : real(p, size);
}

void *aligned_alloc(size_t align, size_t size) {
    static void *(*real)(size_t, size_t);
    if (!real) real = next("aligned_alloc");
    return refused() ? NULL : real(align, size);
}

int posix_memalign(void **p, size_t align, size_t size) {
    static int (*real)(void **, size_t, size_t);
    if (!real) real = next("posix_memalign");
    return refused() ? ENOMEM : real(p, align, size);
}

void free(void *p) {
    static void (*real)(void *);
    if ((char *)p >= early && (char *)p < early + sizeof early) return;
    if (!real) real = next("free");
    real(p);
}

__attribute__((destructor)) static void tell(void) {
    const char *path = getenv("REFUSE_COUNT");
    if (!path) return;
    long n = number;
    at = 0;
    FILE *out = fopen(path, "w");
    if (out) {
        fprintf(out, "%ld\n", n);
        fclose(out);
    }
}
