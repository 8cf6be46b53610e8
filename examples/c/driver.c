/* driver.c: a driver for `camac drive`. It reads requests, makes each operation, and writes its answer. The lines marked CALL stand for calls
 * of your branch driver's library. However it ends, by a signal too, it releases what it holds.
 *
 *     cc driver.c -o driver && mkfifo answers && camac drive PLAN SCRIPT EVENTS < answers | ./driver > answers */
#define _GNU_SOURCE
#include <poll.h>
#include <signal.h>
#include <stdio.h>
#include <string.h>
#include <unistd.h>

static int held[8], demands = 2;
static sigset_t when_waiting;

/* Signals come only while this waits, so none comes inside a call. The next request; 0 at their end, or at a signal. */
static int read_request(char *request) {
    static char bytes[4096];
    static size_t count;
    char *end;
    while (!(end = memchr(bytes, '\n', count))) {
        struct pollfd input = {.fd = 0, .events = POLLIN};
        if (count == sizeof bytes || ppoll(&input, 1, NULL, &when_waiting) < 0) return 0;
        ssize_t more = read(0, bytes + count, sizeof bytes - count);
        if (more <= 0) return 0;
        count += (size_t)more;
    }
    *end++ = 0;
    memcpy(request, bytes, (size_t)(end - bytes));
    count -= (size_t)(end - bytes);
    memmove(bytes, end, count);
    return 1;
}

static void end_of_wait(int number) { (void)number; }

static void release(unsigned c) {
    held[c] = 0;
    fprintf(stderr, "lockout of crate %u released\n", c); /* CALL */
}

int main(void) {
    const int ends[] = {SIGINT, SIGTERM, SIGHUP};
    struct sigaction action = {.sa_handler = end_of_wait};
    sigset_t blocked;
    char request[4096];
    unsigned c, n, a, f, word;
    sigemptyset(&blocked);
    for (int i = 0; i < 3; i++) sigaction(ends[i], &action, NULL), sigaddset(&blocked, ends[i]);
    sigprocmask(SIG_BLOCK, &blocked, &when_waiting);
    signal(SIGPIPE, SIG_IGN);
    while (read_request(request)) {
        if (!strcmp(request, "demand") && demands-- > 0) puts("0 0 000000 0 000004");                                    /* CALL */
        else if (!strcmp(request, "demand")) close(1);
        else if (sscanf(request, "cycle %u %u %u %u out %x", &c, &n, &a, &f, &word) >= 4) puts("1 1 000123 0 000000"); /* CALL */
        else if (sscanf(request, "lock %u", &c) == 1 && c < 8) held[c] = 1, puts("0 0 000000 0 000000");               /* CALL */
        else if (sscanf(request, "unlock %u", &c) == 1 && c < 8) release(c);
        else fprintf(stderr, "%s\n", request);
        if (fflush(stdout)) break;
    }
    for (c = 1; c < 8; c++) if (held[c]) release(c);
    return 0;
}
