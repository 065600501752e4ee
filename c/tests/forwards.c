/* Frames that are forwarded in place, one by one and in bursts, by one thread and by several: the verdicts, the bytes
 * afterwards, and what the frames are addressed to, as tools/lib/c_forwards.py computes them from the public rules. Each
 * frame lies in a block of its own, so that AddressSanitizer sees a byte that is read or written beside it. */
#include "tests.h"

#include <pthread.h>
#include <stdlib.h>
#include <string.h>

struct route {
    uint32_t address, depth;
};

struct row {
    const char *before, *after;
    size_t wire;
    uint32_t verdict, classes[2];
};

#include "forwards.inc"

enum { ROWS = sizeof rows / sizeof *rows, ROUTES = sizeof routes / sizeof *routes, THREADS = 4, ROUNDS = 20 };

static int digit(char c) {
    return c <= '9' ? c - '0' : c - 'a' + 10;
}

/* The bytes of a text of digits, in a block of their own. */
static uint8_t *bytes_of(const char *text, size_t *held) {
    *held = strlen(text) / 2;
    uint8_t *bytes = malloc(*held ? *held : 1);
    if (!bytes) exit(2);
    for (size_t i = 0; i < *held; i++) bytes[i] = (uint8_t)(digit(text[2 * i]) * 16 + digit(text[2 * i + 1]));
    return bytes;
}

static int is(const uint8_t *bytes, const char *text) {
    size_t held;
    uint8_t *wanted = bytes_of(text, &held);
    int same = memcmp(bytes, wanted, held) == 0;
    free(wanted);
    return same;
}

/* A reader of a table with all routes. */
static hk_forward *opened(hk_fib **fib) {
    hk_forward *forward = NULL;
    IS(hk_fib_open(fib, 24, 64, ports, sizeof ports / sizeof *ports, hops, ROUTES), HK_OK);
    for (uint32_t i = 0; i < ROUTES; i++) IS(hk_fib_add(*fib, routes[i].address, routes[i].depth, i), HK_OK);
    IS(hk_fib_publish(*fib), HK_OK);
    IS(hk_fib_share(*fib, &forward), HK_OK);
    return forward;
}

static void each_alone(hk_forward *forward) {
    for (size_t i = 0; i < ROWS; i++) {
        size_t held;
        uint8_t *bytes = bytes_of(rows[i].before, &held);
        for (size_t port = 0; port < 2; port++) IS(hk_forward_class(forward, port, bytes, held), rows[i].classes[port]);
        IS(hk_forward_verdict(forward, bytes, held, rows[i].wire), rows[i].verdict), IS(is(bytes, rows[i].before), 1);
        IS(hk_forward_frame(forward, bytes, held, rows[i].wire), rows[i].verdict), IS(is(bytes, rows[i].after), 1);
        if (hk_failed) printf("forwards: row %zu: %s\n", i, rows[i].before), exit(hk_count_up("forwards"));
        free(bytes);
    }
}

/* Forwards n rows from one on in one burst. Returns how many things are wrong. */
static int burst(hk_forward *forward, size_t first, size_t n) {
    hk_frame frames[HK_MAX_FRAMES] = {{NULL, 0, 0}};
    uint32_t verdicts[HK_MAX_FRAMES + 1];
    int64_t sent = 0;
    int wrong = 0;
    for (size_t i = 0; i < n; i++) {
        frames[i].bytes = bytes_of(rows[first + i].before, &frames[i].held);
        frames[i].wire = rows[first + i].wire;
        sent += rows[first + i].verdict < HK_DROP;
    }
    memset(verdicts, 0xff, sizeof verdicts);
    wrong += hk_forward_burst(forward, frames, verdicts, n) != sent;
    for (size_t i = 0; i < n; i++) {
        wrong += verdicts[i] != rows[first + i].verdict;
        wrong += frames[i].wire != rows[first + i].wire || !is(frames[i].bytes, rows[first + i].after);
        free(frames[i].bytes);
    }
    return wrong + (verdicts[n] != UINT32_MAX);
}

/* All rows in bursts of each size. */
static void bursts(hk_forward *forward) {
    for (size_t size = 1; size <= HK_MAX_FRAMES; size++) {
        for (size_t first = 0; first < ROWS; first += size) {
            IS(burst(forward, first, ROWS - first < size ? ROWS - first : size), 0);
        }
    }
}

/* A burst with one frame that is longer than on the wire, or without bytes, changes nothing. */
static void refused(hk_forward *forward) {
    hk_frame frames[2];
    uint32_t verdicts[2] = {7, 7};
    for (size_t i = 0; i < 2; i++) {
        frames[i].bytes = bytes_of(rows[i].before, &frames[i].held);
        frames[i].wire = rows[i].wire;
    }
    frames[1].wire = frames[1].held - 1;
    IS(hk_forward_burst(forward, frames, verdicts, 2), HK_E_COUNT);
    uint8_t *second = frames[1].bytes;
    frames[1].bytes = NULL;
    IS(hk_forward_burst(forward, frames, verdicts, 2), HK_E_NULL);
    IS(verdicts[0], 7), IS(verdicts[1], 7);
    IS(is(frames[0].bytes, rows[0].before), 1), IS(is(second, rows[1].before), 1);
    free(frames[0].bytes), free(second);
}

static void *forward_all(void *at) {
    hk_forward *forward = at;
    intptr_t wrong = 0;
    for (int round = 0; round < ROUNDS; round++) {
        for (size_t first = 0; first + 32 <= ROWS; first += 32) wrong += burst(forward, first, 32);
    }
    hk_forward_free(forward);
    return (void *)wrong;
}

/* Threads with a reader each, while the writer's handle is freed. */
static void threads(hk_fib *fib) {
    pthread_t started[THREADS];
    for (int i = 0; i < THREADS; i++) {
        hk_forward *forward = NULL;
        IS(hk_fib_share(fib, &forward), HK_OK);
        IS(pthread_create(&started[i], NULL, forward_all, forward), 0);
    }
    hk_fib_free(fib);
    for (int i = 0; i < THREADS; i++) {
        void *wrong;
        IS(pthread_join(started[i], &wrong), 0), IS((intptr_t)wrong, 0);
    }
}

int main(void) {
    hk_fib *fib = NULL;
    hk_forward *forward = opened(&fib);
    each_alone(forward);
    bursts(forward);
    refused(forward);
    hk_forward_free(forward), hk_forward_free(NULL);
    threads(fib);
    return hk_count_up("forwards");
}
