// look PORT PATH COUNT LINKS [TOKEN]: asks for PATH once, takes the tag of the reply, and then asks COUNT times, over so many links, whether
// it is still so. A reply of 200 brings a new tag. Prints how many were answered 304 and how long they took, in microseconds.
#include <arpa/inet.h>
#include <netinet/in.h>
#include <netinet/tcp.h>
#include <pthread.h>
#include <stdint.h>
#include <stdio.h>
#include <stdlib.h>
#include <string.h>
#include <strings.h>
#include <sys/socket.h>
#include <time.h>
#include <unistd.h>

static const char *path, *token = "";
static int port;
static long count, links;
static uint32_t *took;

struct look { long from, to, same; pthread_t thread; };

static double now(void) {
    struct timespec t;
    clock_gettime(CLOCK_MONOTONIC, &t);
    return t.tv_sec * 1e6 + t.tv_nsec / 1e3;
}

static void stop(const char *why) {
    perror(why);
    exit(1);
}

static int dial(void) {
    struct sockaddr_in at = {.sin_family = AF_INET, .sin_port = htons(port), .sin_addr = {htonl(INADDR_LOOPBACK)}};
    int link = socket(AF_INET, SOCK_STREAM, 0), on = 1;
    if (connect(link, (void *)&at, sizeof at)) stop("connect");
    setsockopt(link, IPPROTO_TCP, TCP_NODELAY, &on, sizeof on);
    return link;
}

// One question with this tag, which a reply of 200 replaces. The status; the link is dialled anew where the reply closes it.
static int ask(int *link, char *tag) {
    char out[1024], in[4096], *end;
    size_t have = 0;
    int length = snprintf(out, sizeof out, "GET %s HTTP/1.1\r\nHost: localhost\r\n%s%s%s%s%s%s\r\n", path, *token ? "Seafile-Repo-Token: " : "",
                          token, *token ? "\r\n" : "", *tag ? "If-None-Match: " : "", tag, *tag ? "\r\n" : "");
    if (write(*link, out, length) != length) stop("write");
    for (in[0] = 0; !(end = strstr(in, "\r\n\r\n"));) {
        ssize_t more = read(*link, in + have, sizeof in - 1 - have);
        if (more <= 0) stop("read");
        have += more;
        in[have] = 0;
    }
    int status = atoi(in + 9), closes = 0;
    long left = 0;
    *end = 0;
    for (char *line = strstr(in, "\r\n"); line; line = strstr(line + 2, "\r\n")) {
        if (status != 304 && !strncasecmp(line + 2, "content-length:", 15)) left = atol(line + 17);
        if (!strncasecmp(line + 2, "connection: close", 17)) closes = 1;
        if (!strncasecmp(line + 2, "etag: ", 6)) sscanf(line + 8, "%99[^\r\n]", tag);
    }
    for (left -= have - (end + 4 - in); left > 0;) {
        ssize_t more = read(*link, in, left < (long)sizeof in ? left : (long)sizeof in);
        if (more <= 0) stop("read");
        left -= more;
    }
    if (closes) {
        close(*link);
        *link = dial();
    }
    return status;
}

static void *looking(void *given) {
    struct look *look = given;
    char tag[100] = "";
    int link = dial();
    ask(&link, tag);
    for (long i = look->from; i < look->to; i++) {
        double began = now();
        look->same += ask(&link, tag) == 304;
        took[i] = now() - began;
    }
    close(link);
    return 0;
}

static int order(const void *one, const void *other) {
    uint32_t a = *(const uint32_t *)one, b = *(const uint32_t *)other;
    return a < b ? -1 : a > b;
}

int main(int words, char **word) {
    if (words < 5) return 2;
    port = atoi(word[1]), path = word[2], count = atol(word[3]), links = atol(word[4]);
    if (words > 5) token = word[5];
    took = calloc(count, sizeof *took);
    struct look *look = calloc(links, sizeof *look);
    double began = now();
    long same = 0;
    for (long i = 0; i < links; i++) {
        look[i].from = count * i / links, look[i].to = count * (i + 1) / links;
        pthread_create(&look[i].thread, 0, looking, look + i);
    }
    for (long i = 0; i < links; i++) pthread_join(look[i].thread, 0), same += look[i].same;
    double all = now() - began;
    qsort(took, count, sizeof *took, order);
    printf("look links=%ld n=%ld same=%ld req/s=%.0f p50us=%u p99us=%u maxus=%u\n", links, count, same, count / all * 1e6, took[count / 2],
           took[count * 99 / 100], took[count - 1]);
    return 0;
}
