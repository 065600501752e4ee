/* Each request for memory is refused once: the call says HK_E_MEMORY, and nothing is lost. Then every request after the
 * openings is refused: the calls that take no memory go on. Linked with --wrap for aligned_alloc and free. */
#include "tests.h"

#include <hokhtura_wait.h>

#include <limits.h>
#include <stdlib.h>

extern void *__real_aligned_alloc(size_t, size_t);
extern void __real_free(void *);
void *__wrap_aligned_alloc(size_t, size_t);
void __wrap_free(void *);

static long count, from, to, live;

static int is_refused(void) {
    count++;
    return count >= from && count < to;
}

void *__wrap_aligned_alloc(size_t unit, size_t n) {
    if (is_refused()) return NULL;
    void *at = __real_aligned_alloc(unit, n);
    live += at != NULL;
    return at;
}

void __wrap_free(void *at) {
    live -= at != NULL;
    __real_free(at);
}

static int said, other;

static void tell(int64_t code) {
    if (code == HK_E_MEMORY) said++;
    else if (code < 0) other++;
}

struct all {
    hk_hand *hand, *second;
    hk_routes *routes, *lookups;
    hk_reorder *window;
    hk_pool *pool, *further;
    hk_fib *fib;
    hk_forward *forward, *share;
};

/* A split that is refused leaves the cache as it is. */
static void split_pool(struct all *all) {
    uint32_t number;
    IS(hk_pool_try_get_bulk(all->pool, &number, 1), 1);
    tell(hk_pool_split(all->pool, &all->further));
    IS(hk_pool_cached(all->pool), 8), IS(hk_pool_owns(all->pool, number), 1);
    IS(hk_pool_try_put_bulk(all->pool, &number, 1), 1);
}

/* A change that is refused isn't prepared, and neither the routes nor a reader see anything of it. */
static void draw_up(struct all *all, int64_t code, int64_t pending, int64_t routes) {
    tell(code);
    if (code == HK_OK) return;
    IS(hk_fib_pending(all->fib), pending), IS(hk_fib_count(all->fib), routes);
}

static void add(struct all *all, uint32_t address, uint32_t depth, uint32_t hop) {
    int64_t pending = hk_fib_pending(all->fib), routes = hk_fib_count(all->fib);
    draw_up(all, hk_fib_add(all->fib, address, depth, hop), pending, routes);
}

/* A publish that is refused shows nothing. One that isn't may have been refused memory for the second copy, which the
 * next call then makes up for. */
static void publish(struct all *all) {
    int64_t pending = hk_fib_pending(all->fib), routes = hk_fib_count(all->fib);
    long before = count;
    int64_t code = hk_fib_publish(all->fib);
    draw_up(all, code, pending, routes);
    if (code == HK_OK && before < from && from <= count) said++;
}

/* A forwarding table, a reader from before the first publish, and one from after it. */
static void open_fib(struct all *all) {
    hk_port ports[9] = {{0x0a000001, {2, 0, 0, 0, 0, 1}, 24, 0}};
    hk_next_hop hops[9] = {{0, {2, 0, 0, 0, 0, 3}}};
    tell(hk_fib_open(&all->fib, 16, 4, ports, 9, hops, 9));
    if (!all->fib) return;
    tell(hk_fib_share(all->fib, &all->forward));
    add(all, 0x0a000000, 8, 1), add(all, 0x0a000000, 24, 2), add(all, 0x0a010000, 25, 3), add(all, 0x0b000000, 24, 4);
    draw_up(all, hk_fib_set_hop(all->fib, 2, &hops[0]), hk_fib_pending(all->fib), hk_fib_count(all->fib));
    draw_up(all, hk_fib_set_port(all->fib, 1, &ports[0]), hk_fib_pending(all->fib), hk_fib_count(all->fib));
    publish(all);
    IS(hk_fib_settle(all->fib), HK_OK);
    tell(hk_fib_share(all->fib, &all->share));
    draw_up(all, hk_fib_clear(all->fib), hk_fib_pending(all->fib), hk_fib_count(all->fib));
    add(all, 0x0a000000, 24, 0), add(all, 0x0c000000, 25, 5);
    draw_up(all, hk_fib_remove(all->fib, 0x0c000000, 25), hk_fib_pending(all->fib), hk_fib_count(all->fib));
    publish(all);
}

/* Each request of two publishes is refused, with all after it: both return, and a later one publishes. */
static void publish_waiting(void) {
    long refused = 0;
    for (int all = 0; !all;) {
        hk_fib *fib;
        from = to = 0;
        IS(hk_fib_open(&fib, 16, 4, NULL, 0, NULL, 0), HK_OK), IS(hk_fib_add(fib, 0x0a000000, 8, 1), HK_OK);
        count = 0, from = ++refused, to = LONG_MAX;
        int64_t first = hk_fib_publish_wait(fib, NULL), second = hk_fib_publish_wait(fib, NULL);
        all = count < from;
        from = to = 0;
        IS(first == HK_OK || first == HK_E_MEMORY, 1), IS(second, all ? HK_OK : HK_E_MEMORY);
        IS(hk_fib_publish_wait(fib, NULL), HK_OK);
        hk_fib_free(fib);
    }
}

static void open_all(struct all *all) {
    hk_ring_plan plans[2] = {{8, 0, HK_MULTI, HK_MULTI, 0, 0}, {5, 1, HK_HTS, HK_HTS, 0, 0}};
    *all = (struct all){NULL, NULL, NULL, NULL, NULL, NULL, NULL, NULL, NULL, NULL};
    tell(hk_hand_open(&all->hand, plans, 2));
    if (all->hand) tell(hk_hand_split(all->hand, &all->second));
    tell(hk_routes_open(&all->routes, 16, 4));
    if (all->routes) {
        tell(hk_routes_add(all->routes, 0x0a000000, 8, 1));
        tell(hk_routes_add(all->routes, 0x0a000000, 24, 2));
        tell(hk_routes_add(all->routes, 0x0a010000, 25, 3));
        tell(hk_routes_share(all->routes, &all->lookups));
    }
    open_fib(all);
    tell(hk_reorder_open(&all->window, 16));
    tell(hk_pool_open(&all->pool, 2000, 8, 2));
    if (all->pool) split_pool(all);
}

static void free_all(struct all *all) {
    hk_hand_free(all->hand);
    hk_hand_free(all->second);
    hk_routes_free(all->routes);
    hk_routes_free(all->lookups);
    hk_reorder_free(all->window);
    hk_pool_free(all->pool);
    hk_pool_free(all->further);
    hk_fib_free(all->fib);
    hk_forward_free(all->forward);
    hk_forward_free(all->share);
}

/* Calls of readers, which take no memory, while the writer's handle is there and after it is freed. */
static void forward_all(struct all *all) {
    uint8_t bytes[34] = {1, 2, 3, 4, 5, 6, 7, 8, 9, 10, 11, 12, 8, 0,
        0x45, 0, 0, 20, 0, 0, 0, 0, 64, 17, 0x66, 0xd7, 10, 0, 0, 2, 10, 0, 0, 1};
    hk_frame frame = {bytes, 34, 34};
    uint32_t verdict = 7;
    IS(hk_fib_get(all->fib, 0x0a000000, 24), 0), IS(hk_fib_count(all->fib), 1), IS(hk_fib_pending(all->fib), 0);
    IS(hk_forward_lookup(all->forward, 0x0a000001), 0), IS(hk_forward_lookup(all->share, 0x0b000001), HK_E_NOROUTE);
    hk_fib_free(all->fib), all->fib = NULL;
    IS(hk_forward_verdict(all->forward, bytes, 34, 34), 0), IS(hk_forward_class(all->share, 0, bytes, 34), 6);
    IS(hk_forward_frame(all->forward, bytes, 34, 34), 0), IS(hk_forward_burst(all->share, &frame, &verdict, 1), 1);
    IS(verdict, 0), IS(bytes[22], 62);
    hk_forward_free(all->forward), hk_forward_free(all->share);
    all->forward = all->share = NULL;
}

/* Calls that take no memory, each once. */
static void call_all(struct all *all) {
    uint64_t words[4] = {1, 2, 3, 4};
    uint32_t addresses[2] = {0x0a000001, 0x0b000000}, hops[2], numbers[64];
    IS(hk_ring_try_put_bulk(all->hand, 0, words, 4), 4);
    IS(hk_ring_try_take_burst(all->second, 0, words, 4), 4);
    IS(hk_ring_peek_put_bulk(all->hand, 1, 2), 2);
    IS(hk_ring_finish_put(all->hand, words, 2), 2);
    IS(hk_ring_peek_take_burst(all->hand, 1, words, 4), 2);
    IS(hk_ring_finish_take(all->hand, 1), 1);
    IS(hk_ring_count(all->hand, 1), 1);
    IS(hk_routes_lookup(all->lookups, 0x0a000001), 2);
    IS(hk_routes_lookup_bulk(all->lookups, addresses, hops, 2), HK_OK);
    forward_all(all);
    hk_routes_free(all->lookups);
    all->lookups = NULL;
    IS(hk_routes_remove(all->routes, 0x0a000000, 24), HK_OK);
    IS(hk_reorder_insert(all->window, 0, 7), HK_OK);
    IS(hk_reorder_drain(all->window, words, 4), 1);
    IS(hk_pool_try_get_bulk(all->pool, numbers, 64), 64);
    IS(hk_pool_try_put_bulk(all->pool, numbers, 40), 40);
    IS(hk_pool_try_put_bulk(all->pool, numbers + 40, 2), 2);
    IS(hk_pool_try_send_bulk(all->pool, 1, numbers + 42, 20), 20);
    IS(hk_pool_try_send_burst(all->pool, 1, numbers + 62, 2), 2);
    IS(hk_pool_ring_count(all->pool, 1), 22), IS(hk_pool_ring_room(all->further, 1), 1978);
    IS(hk_pool_try_receive_bulk(all->further, 1, numbers, 20), 20);
    IS(hk_pool_try_receive_burst(all->further, 1, numbers + 20, 44), 2);
    IS(hk_pool_owns(all->further, numbers[21]), 1);
    IS(hk_pool_try_put_bulk(all->further, numbers, 10), 10);
    IS(hk_pool_cached(all->further), 10);
    int64_t on_ring = hk_pool_free_count(all->pool);
    IS(hk_pool_try_flush(all->further), 10), IS(hk_pool_free_count(all->pool), on_ring + 10);
    IS(hk_pool_try_put_bulk(all->further, numbers + 10, 10), 10);
    hk_pool_free(all->further), all->further = NULL;
    IS(hk_pool_free_count(all->pool), on_ring + 20);
    hk_hand_free(all->second);
    all->second = NULL;
    IS(hk_hand_close(all->hand), HK_OK);
    IS(hk_hand_drain(all->hand, 1, words, 4), 1);
}

/* A call that frees takes a handle of any kind. */
static void free_crosswise(struct all *all) {
    hk_pool_free((hk_pool *)all->hand), hk_routes_free((hk_routes *)all->second);
    hk_hand_free((hk_hand *)all->routes), hk_reorder_free((hk_reorder *)all->lookups);
    hk_hand_free((hk_hand *)all->window);
    hk_reorder_free((hk_reorder *)all->pool), hk_routes_free((hk_routes *)all->further);
    hk_reorder_free((hk_reorder *)all->forward), hk_hand_free((hk_hand *)all->share);
    hk_forward_free((hk_forward *)all->fib);
}

int main(void) {
    struct all all;
    open_all(&all);
    IS((uintptr_t)all.hand % 64, 0), IS((uintptr_t)all.routes % 64, 0);
    free_all(&all);
    IS(said, 0), IS(other, 0), IS(live, 0);
    long requests = count;
    open_all(&all), free_crosswise(&all), IS(live, 0);
    IS(requests > 10, 1);
    for (from = 1; from <= requests; from++) {
        to = from + 1;
        count = said = other = 0;
        open_all(&all);
        free_all(&all);
        IS(said, 1), IS(other, 0), IS(live, 0);
    }
    count = from = to = 0;
    open_all(&all);
    long before = count;
    count = 0, from = 1, to = 1000000;
    call_all(&all);
    IS(count, 0), IS(before, requests);
    free_all(&all);
    publish_waiting();
    IS(live, 0);
    return hk_count_up("memory");
}
