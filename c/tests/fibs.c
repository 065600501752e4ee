/* Forwarding tables, whole and sparse, compared with a list of routes on pseudo-random calls, with publishes and holds
 * at random; and three readers that look up in bursts while the table is published 20,000 times, one of which holds a
 * publish for eight bursts: no burst is of two publishes, and none is older than the one before. An argument is another
 * number of publishes. */
#include "tests.h"

#include <pthread.h>
#include <sched.h>
#include <stdatomic.h>
#include <stdlib.h>
#include <string.h>

enum { CALLS = 20000, MAX_ROUTES = 4096, READERS = 3, BURST = 32 };

/* splitmix64 */
static uint64_t state = 1;

static uint64_t below(uint64_t n) {
    uint64_t x = state += 0x9e3779b97f4a7c15;
    x = (x ^ x >> 30) * 0xbf58476d1ce4e5b9;
    x = (x ^ x >> 27) * 0x94d049bb133111eb;
    return (x ^ x >> 31) % n;
}

/* ---- Beside a list ---- */

struct list {
    hk_fib_route routes[MAX_ROUTES];
    size_t n;
};

static struct list drawn, published;

static uint32_t mask(uint32_t depth) {
    return depth ? UINT32_MAX << (32 - depth) : 0;
}

/* Where a route is in a list, or would be: in the order of addresses and then of depths. */
static size_t place(const struct list *list, uint32_t address, uint32_t depth) {
    size_t i = 0;
    while (i < list->n && (list->routes[i].address < address
                           || (list->routes[i].address == address && list->routes[i].depth < depth))) i++;
    return i;
}

static int has(const struct list *list, size_t i, uint32_t address, uint32_t depth) {
    return i < list->n && list->routes[i].address == address && list->routes[i].depth == depth;
}

static int64_t longest(const struct list *list, uint32_t address) {
    int64_t hop = HK_E_NOROUTE;
    uint32_t depth = 0;
    for (size_t i = 0; i < list->n; i++) {
        const hk_fib_route *route = &list->routes[i];
        if ((address & mask(route->depth)) == route->address && route->depth > depth) {
            depth = route->depth, hop = route->hop;
        }
    }
    return hop;
}

/* An address of which few bits vary, so that routes contain each other. */
static uint32_t some_address(void) {
    return 0x0a010200 ^ ((uint32_t)below(UINT64_C(1) << 32) & 0x80010101);
}

static void change(hk_fib *fib) {
    static const uint32_t depths[8] = {8, 12, 16, 17, 24, 30, 31, 32};
    uint32_t address = some_address(), depth = depths[below(8)], hop = (uint32_t)below(100);
    uint32_t prefix = address & mask(depth);
    size_t at = place(&drawn, prefix, depth);
    uint64_t kind = below(20);
    hk_fib_route *route = &drawn.routes[at];
    if (kind < 11) {
        IS(hk_fib_add(fib, address, depth, hop), HK_OK);
        if (!has(&drawn, at, prefix, depth)) memmove(route + 1, route, (drawn.n++ - at) * sizeof *route);
        *route = (hk_fib_route){prefix, depth, hop};
    } else if (kind < 19) {
        int64_t code = hk_fib_remove(fib, address, depth);
        if (!has(&drawn, at, prefix, depth)) IS(code, HK_E_NOROUTE);
        else IS(code, HK_OK), memmove(route, route + 1, (--drawn.n - at) * sizeof *route);
    } else if (below(20) == 0) {
        IS(hk_fib_clear(fib), HK_OK);
        drawn.n = 0;
    }
}

static void compare(hk_fib *fib, hk_forward *reader) {
    uint32_t address = some_address(), depth = (uint32_t)below(33), addresses[BURST], hops[BURST];
    size_t at = place(&drawn, address, depth);
    hk_fib_route found = {7, 7, 7}, wanted = at < drawn.n ? drawn.routes[at] : found;
    IS(hk_forward_lookup(reader, address), longest(&published, address));
    IS(hk_fib_walk(fib, address, depth, &found), at < drawn.n ? HK_OK : HK_E_NOROUTE);
    IS(memcmp(&found, &wanted, sizeof found), 0);
    if (depth) {
        size_t exact = place(&drawn, address & mask(depth), depth);
        IS(hk_fib_get(fib, address, depth),
            has(&drawn, exact, address & mask(depth), depth) ? (int64_t)drawn.routes[exact].hop : HK_E_NOROUTE);
    }
    IS(hk_fib_count(fib), drawn.n);
    for (size_t i = 0; i < BURST; i++) addresses[i] = some_address();
    IS(hk_forward_lookup_bulk(reader, addresses, hops, BURST), HK_OK);
    for (size_t i = 0; i < BURST; i++) {
        int64_t hop = longest(&published, addresses[i]);
        IS(hops[i], hop < 0 ? HK_NO_HOP : hop);
    }
}

/* A reader that holds a version uses it after the next one, and the writer can't go on before it lets go. */
static void hold(hk_fib *fib, hk_forward *reader) {
    if (below(10) != 0) return;
    IS(hk_forward_hold(reader), HK_OK), IS(hk_forward_hold(reader), HK_OK);
    IS(hk_fib_add(fib, 0x0a010200, 32, 1), HK_OK), IS(hk_fib_publish(fib), HK_OK);
    IS(hk_fib_settle(fib), HK_E_PENDING), IS(hk_fib_add(fib, 0x0a010200, 32, 2), HK_E_PENDING);
    for (int i = 0; i < 4; i++) {
        uint32_t address = some_address(), hop;
        IS(hk_forward_lookup(reader, address), longest(&published, address));
        IS(hk_forward_lookup_bulk(reader, &address, &hop, 1), HK_OK);
        IS(hop, (uint32_t)(longest(&published, address) < 0 ? HK_NO_HOP : longest(&published, address)));
    }
    IS(hk_forward_release(reader), HK_OK), IS(hk_forward_release(reader), HK_OK);
    IS(hk_fib_settle(fib), HK_OK), IS(hk_forward_lookup(reader, 0x0a010200), 1);
    IS(hk_fib_remove(fib, 0x0a010200, 32), HK_OK);
    size_t at = place(&drawn, 0x0a010200, 32);
    if (has(&drawn, at, 0x0a010200, 32)) IS(hk_fib_add(fib, 0x0a010200, 32, drawn.routes[at].hop), HK_OK);
    IS(hk_fib_publish(fib), HK_OK);
    published = drawn;
}

static void beside_a_list(hk_fib *fib, int calls) {
    hk_forward *reader = NULL;
    int64_t pending = 0;
    drawn.n = published.n = 0;
    IS(hk_fib_share(fib, &reader), HK_OK);
    for (int i = 0; i < calls; i++) {
        size_t before = (size_t)hk_fib_pending(fib);
        change(fib);
        pending = hk_fib_pending(fib);
        IS(pending == (int64_t)before || pending == (int64_t)before + 1, 1);
        if (below(10) == 0) {
            IS(hk_fib_publish(fib), HK_OK), IS(hk_fib_pending(fib), 0);
            published = drawn;
        }
        if (below(10) == 0) compare(fib, reader);
        hold(fib, reader);
        if (hk_failed) return;
    }
    hk_fib_free(fib);
    IS(hk_forward_lookup(reader, 0x0a010200), longest(&published, 0x0a010200));
    hk_forward_free(reader);
}

/* ---- Beside readers ---- */

static uint32_t publishes = 20000;
static _Atomic int is_done;

/* Each route leads to the number of the version. A reader of an odd number holds a version for eight bursts. */
struct reader {
    hk_forward *reader;
    int number;
};

static void *look_up(void *at) {
    hk_forward *reader = ((struct reader *)at)->reader;
    int holds = ((struct reader *)at)->number % 2;
    uint32_t addresses[BURST], hops[BURST], last = 0;
    intptr_t wrong = 0;
    for (uint32_t i = 0; i < BURST; i++) addresses[i] = (i << 24) + 0x00000203;
    for (uint32_t burst = 0; !is_done || last < publishes; burst++) {
        if (holds && burst % 8 == 0) wrong += hk_forward_release(reader) != HK_OK || hk_forward_hold(reader) != HK_OK;
        wrong += hk_forward_lookup_bulk(reader, addresses, hops, BURST) != HK_OK;
        if (holds && burst % 8 != 0) wrong += hops[0] != last;
        for (size_t i = 1; i < BURST; i++) wrong += hops[i] != hops[0];
        wrong += hops[0] < last;
        if (wrong) break;
        last = hops[0];
        sched_yield();
    }
    hk_forward_free(reader);
    return (void *)wrong;
}

/* A call that is to be tried again changes nothing. */
static void again(int64_t code) {
    if (code == HK_E_PENDING) sched_yield();
    else IS(code, HK_OK);
}

static void publish_all(hk_fib *fib, uint32_t publish) {
    int64_t code;
    for (uint32_t i = 0; i < BURST; i++) {
        do again(code = hk_fib_add(fib, i << 24, 8 + (i & 8), publish));
        while (code == HK_E_PENDING);
    }
    do again(code = hk_fib_publish(fib));
    while (code == HK_E_PENDING);
}

static void beside_readers(void) {
    pthread_t threads[READERS];
    struct reader readers[READERS];
    hk_fib *fib = NULL;
    IS(hk_fib_open(&fib, 16, 32, NULL, 0, NULL, 0), HK_OK);
    /* From here on each lookup finds a route. */
    for (uint32_t i = 0; i < BURST; i++) IS(hk_fib_add(fib, i << 24, 8, 0), HK_OK);
    publish_all(fib, 1);
    for (int i = 0; i < READERS; i++) {
        readers[i] = (struct reader){NULL, i};
        IS(hk_fib_share(fib, &readers[i].reader), HK_OK);
        IS(pthread_create(&threads[i], NULL, look_up, &readers[i]), 0);
    }
    for (uint32_t i = 2; i <= publishes && !hk_failed; i++) publish_all(fib, i);
    /* Each reader sees the last one without a further call of the writer. */
    is_done = 1;
    for (int i = 0; i < READERS; i++) {
        void *wrong;
        IS(pthread_join(threads[i], &wrong), 0), IS((intptr_t)wrong, 0);
    }
    hk_fib_free(fib);
}

int main(int argc, char **argv) {
    if (argc > 1) publishes = (uint32_t)strtoul(argv[1], NULL, 10);
    hk_fib *sparse = NULL, *whole = NULL;
    IS(hk_fib_open(&sparse, 24, 200, NULL, 0, NULL, 0), HK_OK), beside_a_list(sparse, CALLS);
    IS(hk_fib_open_whole(&whole, 16, 200, NULL, 0, NULL, 0), HK_OK), beside_a_list(whole, CALLS / 10);
    beside_readers();
    return hk_count_up("fibs");
}
