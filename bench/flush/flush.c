// A disk of which each flush takes FLUSH_MS milliseconds (5), in place of fsync: one flush at a time, which serves all that
// were asked for before it began. As the program ends it tells how many syncs were asked for and how many flushes served
// them. Build: cc -shared -fPIC -O2 -o flush.so flush.c -lpthread    Use: LD_PRELOAD=./flush.so PROGRAM ..
#include <pthread.h>
#include <stdio.h>
#include <stdlib.h>
#include <time.h>

static pthread_mutex_t lock = PTHREAD_MUTEX_INITIALIZER;
static pthread_cond_t moved = PTHREAD_COND_INITIALIZER;
static long begun, ended, syncs;
static int is_busy;

static void one_flush(void) {
    const char *told = getenv("FLUSH_MS");
    long ms = told ? atol(told) : 5;
    struct timespec t = {ms / 1000, ms % 1000 * 1000000L};
    nanosleep(&t, NULL);
}

int fsync(int fd) {
    (void)fd;
    pthread_mutex_lock(&lock);
    syncs++;
    long mine = begun + 1;
    while (ended < mine) {
        if (is_busy) {
            pthread_cond_wait(&moved, &lock);
            continue;
        }
        is_busy = 1;
        begun++;
        pthread_mutex_unlock(&lock);
        one_flush();
        pthread_mutex_lock(&lock);
        ended = begun;
        is_busy = 0;
        pthread_cond_broadcast(&moved);
    }
    pthread_mutex_unlock(&lock);
    return 0;
}

int fdatasync(int fd) { return fsync(fd); }

__attribute__((destructor)) static void tell(void) { fprintf(stderr, "%ld syncs, %ld flushes\n", syncs, ended); }
