/* How often a call tries: stand-ins for the exports count their calls and answer what they are told, so that hokhtura.c
 * is linked with this file alone. tools/try-capi sees to it that each call of hokhtura.h stands here. */
#include "hk_heap.h"
#include "tests.h"

#include <stdbool.h>
#include <string.h>

/* As the header says. */
enum { TRIES = 1024 };

enum { RING = 5, COUNT = 3 };

static char box;
static uint64_t words[COUNT], next;
static uint32_t numbers[COUNT], hops[COUNT];

/* What a step answers: a code this often, and then an end. */
struct step {
    int64_t code;
    unsigned often;
    int64_t end;
    unsigned tried;
};

static struct step start, finish, other;
/* Calls of an export with other arguments than at first, or with a cell without the handle. */
static unsigned strange;

static int64_t answer(struct step *step) {
    return step->tried++ < step->often ? step->code : step->end;
}

struct hk_cell {
    void *at;
};

/* The cell of the handle that all calls are given, and the one of a new handle. */
static struct hk_cell given = {&box}, made;
/* How many of the cells that a call asked for it has not given back, and how often it freed the handle. */
static int cells, ended;

struct hk_memory rattle_alloc(size_t size, size_t align) {
    cells++;
    IS(size, sizeof made), IS(align, _Alignof(struct hk_cell));
    return (struct hk_memory){1, &made};
}

void rattle_dealloc(void *at) {
    cells -= at == &made, ended += at == &given;
}

static int64_t begin(struct hk_cell *h, bool same) {
    strange += h->at != &box || !same;
    return answer(&start);
}

static int64_t end(struct hk_cell *h, bool same) {
    strange += h->at != &box || !same;
    return answer(&finish);
}

static bool bulk_wanted;
/* The word of a call of one word, whose tries after the first may be those of an array of one. */
static uint64_t one_word;
static bool one_wanted;

static bool is_one(const uint64_t *at, size_t n) {
    return n == 1 && *at == one_word;
}

int64_t hkx_ring_put(struct hk_cell *h, size_t ring, const uint64_t *at, size_t n, bool bulk);
int64_t hkx_ring_take(struct hk_cell *h, size_t ring, uint64_t *at, size_t n, bool bulk);
int64_t hkx_ring_put_one(struct hk_cell *h, size_t ring, uint64_t word);
int64_t hkx_ring_take_one(struct hk_cell *h, size_t ring, uint64_t *word);
int64_t hkx_end_put(struct hk_cell *h, uint64_t word);
int64_t hkx_end_take(struct hk_cell *h, uint64_t *word);
int64_t hkx_ring_peek_put(struct hk_cell *h, size_t ring, size_t n, bool bulk);
int64_t hkx_ring_peek_take(struct hk_cell *h, size_t ring, uint64_t *at, size_t n, bool bulk);
int64_t hkx_ring_hold_take(struct hk_cell *h, size_t ring, size_t n, bool bulk);
int64_t hkx_ring_finish_put(struct hk_cell *h, const uint64_t *at, size_t n);
int64_t hkx_ring_finish_take(struct hk_cell *h, size_t n);

int64_t hkx_ring_put(struct hk_cell *h, size_t ring, const uint64_t *at, size_t n, bool bulk) {
    return begin(h, ring == RING && bulk == bulk_wanted && (one_wanted ? is_one(at, n) : at == words && n == COUNT));
}

int64_t hkx_ring_put_one(struct hk_cell *h, size_t ring, uint64_t word) {
    return begin(h, ring == RING && one_wanted && word == one_word);
}

int64_t hkx_ring_take_one(struct hk_cell *h, size_t ring, uint64_t *word) {
    return begin(h, ring == RING && one_wanted && word == words);
}

int64_t hkx_end_put(struct hk_cell *h, uint64_t word) {
    return begin(h, one_wanted && word == one_word);
}

int64_t hkx_end_take(struct hk_cell *h, uint64_t *word) {
    return begin(h, one_wanted && word == words);
}

int64_t hkx_ring_take(struct hk_cell *h, size_t ring, uint64_t *at, size_t n, bool bulk) {
    return begin(h, ring == RING && at == words && n == (one_wanted ? 1 : COUNT) && bulk == bulk_wanted);
}

int64_t hkx_ring_peek_put(struct hk_cell *h, size_t ring, size_t n, bool bulk) {
    return begin(h, ring == RING && n == COUNT && bulk == bulk_wanted);
}

int64_t hkx_ring_peek_take(struct hk_cell *h, size_t ring, uint64_t *at, size_t n, bool bulk) {
    return begin(h, ring == RING && at == words && n == COUNT && bulk == bulk_wanted);
}

int64_t hkx_ring_hold_take(struct hk_cell *h, size_t ring, size_t n, bool bulk) {
    return begin(h, ring == RING && n == COUNT && bulk == bulk_wanted);
}

int64_t hkx_ring_finish_put(struct hk_cell *h, const uint64_t *at, size_t n) {
    return end(h, one_wanted ? is_one(at, n) : at == words && n == COUNT);
}

int64_t hkx_ring_finish_take(struct hk_cell *h, size_t n) {
    return end(h, n == (one_wanted ? 1 : COUNT));
}

/* The exports that no call tries again: whatever they are given, they count. */
#define ONCE(name)         \
    int64_t name(void);    \
    int64_t name(void) {   \
        return answer(&other); \
    }
ONCE(hkx_free)
ONCE(hkx_hand_open)
ONCE(hkx_hand_split)
ONCE(hkx_hand_span)
ONCE(hkx_hand_left)
ONCE(hkx_hand_close)
ONCE(hkx_hand_drain)
ONCE(hkx_ring_advance_put)
ONCE(hkx_ring_advance_take)
ONCE(hkx_end_open)
ONCE(hkx_end_hold)
ONCE(hkx_end_release)
ONCE(hkx_ring_release_take)
ONCE(hkx_ring_room)
ONCE(hkx_pool_open)
ONCE(hkx_pool_split)
ONCE(hkx_pool_get)
ONCE(hkx_pool_put)
ONCE(hkx_pool_flush)
ONCE(hkx_pool_cached)
ONCE(hkx_pool_owns)
ONCE(hkx_pool_send)
ONCE(hkx_pool_receive)
ONCE(hkx_pool_room)
ONCE(hkx_pool_free_count)
ONCE(hkx_routes_open)
ONCE(hkx_routes_share)
ONCE(hkx_routes_add)
ONCE(hkx_routes_remove)
ONCE(hkx_routes_lookup)
ONCE(hkx_routes_lookup_bulk)
ONCE(hkx_fib_open)
ONCE(hkx_fib_share)
ONCE(hkx_fib_add)
ONCE(hkx_fib_remove)
ONCE(hkx_fib_clear)
ONCE(hkx_fib_set_hop)
ONCE(hkx_fib_set_port)
ONCE(hkx_fib_publish)
ONCE(hkx_fib_settle)
ONCE(hkx_fib_pending)
ONCE(hkx_fib_get)
ONCE(hkx_fib_count)
ONCE(hkx_fib_walk)
ONCE(hkx_forward_hold)
ONCE(hkx_forward_release)
ONCE(hkx_forward_lookup)
ONCE(hkx_forward_lookup_bulk)
ONCE(hkx_forward_frame)
ONCE(hkx_forward_burst)
ONCE(hkx_forward_verdict)
ONCE(hkx_forward_class)
ONCE(hkx_reorder_open)
ONCE(hkx_reorder_insert)
ONCE(hkx_reorder_drain)
ONCE(hkx_reorder_next)
ONCE(hkx_reorder_skip)

/* What the steps answer from now on; no step has been tried. */
static void told(struct step starts, struct step finishes, struct step others) {
    start = starts, finish = finishes, other = others;
    strange = 0, ended = 0;
}

/* Each step was tried this often. */
static void tried(unsigned starts, unsigned finishes, unsigned others) {
    IS(start.tried, starts), IS(finish.tried, finishes), IS(other.tried, others), IS(strange, 0), IS(cells, 0);
}

/* A call that frees a handle asked its exports this often, and then freed the cell. */
static void freed(unsigned others) {
    tried(0, 0, others), IS(ended, 1);
}

static const struct step never = {0, 0, HK_E_NULL, 0}, none = {0, 0, 0, 0};

static struct step often(int64_t code, unsigned turns, int64_t ends) {
    return (struct step){code, turns, ends, 0};
}

static hk_hand *hand;

static int64_t put_bulk(void) {
    return hk_ring_try_put_bulk(hand, RING, words, COUNT);
}

static int64_t put_burst(void) {
    return hk_ring_try_put_burst(hand, RING, words, COUNT);
}

static int64_t take_bulk(void) {
    return hk_ring_try_take_bulk(hand, RING, words, COUNT);
}

static int64_t take_burst(void) {
    return hk_ring_try_take_burst(hand, RING, words, COUNT);
}

static int64_t put_one(void) {
    return hk_ring_try_put_one(hand, RING, one_word);
}

static int64_t take_one(void) {
    return hk_ring_try_take_one(hand, RING, words);
}

/* Of an end each call returns HK_OK where others return 1. */
static int64_t counted(int64_t code) {
    return code == HK_OK ? COUNT : code;
}

static int64_t end_put(void) {
    return counted(hk_producer_put((hk_producer *)hand, one_word));
}

static int64_t end_take(void) {
    return counted(hk_consumer_take((hk_consumer *)hand, words));
}

static int64_t end_finish_put(void) {
    return counted(hk_producer_finish((hk_producer *)hand, one_word));
}

static int64_t end_finish_take(void) {
    return counted(hk_consumer_finish((hk_consumer *)hand));
}

static int64_t peek_put_bulk(void) {
    return hk_ring_peek_put_bulk(hand, RING, COUNT);
}

static int64_t peek_put_burst(void) {
    return hk_ring_peek_put_burst(hand, RING, COUNT);
}

static int64_t peek_take_bulk(void) {
    return hk_ring_peek_take_bulk(hand, RING, words, COUNT);
}

static int64_t peek_take_burst(void) {
    return hk_ring_peek_take_burst(hand, RING, words, COUNT);
}

static int64_t hold_take_bulk(void) {
    return hk_ring_hold_take_bulk(hand, RING, COUNT);
}

static int64_t hold_take_burst(void) {
    return hk_ring_hold_take_burst(hand, RING, COUNT);
}

static int64_t finish_put(void) {
    return hk_ring_finish_put(hand, words, COUNT);
}

static int64_t finish_take(void) {
    return hk_ring_finish_take(hand, COUNT);
}

typedef int64_t call(void);

/* The first step, which puts, takes and peeks have. */
static void starts(call *called, bool bulk) {
    bulk_wanted = bulk;
    told(often(HK_E_AGAIN, 0, COUNT), never, never), IS(called(), COUNT), tried(1, 0, 0);
    told(often(HK_E_AGAIN, UINT32_MAX, 0), never, never), IS(called(), HK_E_AGAIN), tried(TRIES, 0, 0);
    told(often(HK_E_AGAIN, TRIES - 1, COUNT), never, never), IS(called(), COUNT), tried(TRIES, 0, 0);
    told(often(HK_E_AGAIN, 7, HK_E_NOROOM), never, never), IS(called(), HK_E_NOROOM), tried(8, 0, 0);
    told(often(HK_E_WORN, 1, COUNT), never, never), IS(called(), HK_E_WORN), tried(1, 0, 0);
}

/* Both steps. A first step that is pending has tried the second one once. */
static void both(call *called, bool bulk) {
    starts(called, bulk);
    struct step pending = often(HK_E_PENDING, UINT32_MAX, 0), late = often(HK_E_AGAIN, TRIES - 1, HK_E_PENDING);
    told(pending, pending, never), IS(called(), HK_E_PENDING), tried(1, TRIES - 1, 0);
    told(late, pending, never), IS(called(), HK_E_PENDING), tried(TRIES, TRIES - 1, 0);
    told(pending, often(HK_E_PENDING, TRIES - 2, COUNT), never), IS(called(), COUNT), tried(1, TRIES - 1, 0);
    told(pending, often(HK_E_PENDING, 7, COUNT), never), IS(called(), COUNT), tried(1, 8, 0);
}

/* The second step alone. */
static void finishes(call *called) {
    told(never, often(HK_E_PENDING, 0, COUNT), never), IS(called(), COUNT), tried(0, 1, 0);
    told(never, often(HK_E_PENDING, UINT32_MAX, 0), never), IS(called(), HK_E_PENDING), tried(0, TRIES, 0);
    told(never, often(HK_E_PENDING, TRIES - 1, COUNT), never), IS(called(), COUNT), tried(0, TRIES, 0);
    told(never, often(HK_E_COUNT, 1, COUNT), never), IS(called(), HK_E_COUNT), tried(0, 1, 0);
}

/* A call that asks its export once, whatever that answers. */
#define ONE(a_call, code) (told(never, never, often(code, UINT32_MAX, 0)), IS(a_call, code), tried(0, 0, 1))
#define BOTH(a_call) (ONE(a_call, HK_E_AGAIN), ONE(a_call, HK_E_PENDING))

static void one_try(void) {
    hk_ring_plan plan = {8, 0, HK_MULTI, HK_MULTI, 0, 0};
    hk_hand *second = NULL;
    BOTH(hk_hand_open(&second, &plan, 1));
    BOTH(hk_hand_split(hand, &second));
    BOTH(hk_hand_span(hand));
    BOTH(hk_hand_left(hand));
    BOTH(hk_ring_advance_put(hand, words, COUNT));
    BOTH(hk_ring_advance_take(hand, words, COUNT));
    BOTH(hk_ring_release_take(hand, words, COUNT));
    BOTH(hk_ring_count(hand, RING));
    BOTH(hk_ring_room(hand, RING));
    BOTH(hk_hand_close(hand));
    BOTH(hk_hand_drain(hand, RING, words, COUNT));
    /* No export is given more plans than there may be rings. */
    told(never, never, never), IS(hk_hand_open(&second, &plan, HK_MAX_RINGS + 1), HK_E_PLAN), tried(0, 0, 0);
    IS(second == NULL, 1);
    told(never, never, never), hk_hand_free(hand), freed(1);
}

/* Ends are opened, held and given up by one try. */
static void ends(void) {
    hk_producer *puts = NULL, *made_puts = (hk_producer *)hand;
    hk_consumer *takes = NULL, *made_takes = (hk_consumer *)hand;
    BOTH(hk_producer_open(&puts, hand, RING));
    BOTH(hk_consumer_open(&takes, hand, RING));
    IS(puts == NULL && takes == NULL, 1);
    BOTH(hk_producer_hold(made_puts, COUNT));
    BOTH(hk_consumer_hold(made_takes, COUNT));
    BOTH(hk_producer_release(made_puts));
    BOTH(hk_consumer_release(made_takes));
    told(never, never, never), hk_producer_free(made_puts), tried(0, 0, 1), IS(ended, 0);
    told(never, never, never), hk_consumer_free(made_takes), tried(0, 0, 1), IS(ended, 0);
    told(often(HK_E_AGAIN, 1, 0), never, never), IS(hk_producer_put_once(made_puts, 7), HK_E_AGAIN), IS(start.tried, 1);
    told(often(HK_E_AGAIN, 1, 0), never, never), IS(hk_consumer_take_once(made_takes, words), HK_E_AGAIN);
    told(never, never, never);
    IS(hk_producer_put_once(NULL, 7), HK_E_NULL), IS(hk_consumer_take_once(NULL, words), HK_E_NULL);
    IS(hk_producer_put_again(NULL, 7, HK_E_AGAIN), HK_E_NULL);
    IS(hk_consumer_take_again(NULL, words, HK_E_AGAIN), HK_E_NULL);
    IS(hk_consumer_take_once(made_takes, NULL), HK_E_NULL);
    IS(hk_consumer_take_again(made_takes, NULL, HK_E_AGAIN), HK_E_NULL);
    tried(0, 0, 0);
    told(never, never, none), IS(hk_producer_open(&puts, hand, RING), HK_OK), IS(puts == made_puts, 1);
    told(never, never, none), IS(hk_consumer_open(&takes, hand, RING), HK_OK), IS(takes == made_takes, 1);
}

/* The tries of a pool's calls are made below its exports. */
static void pools(void) {
    hk_pool *pool = (hk_pool *)hand, *second = NULL;
    BOTH(hk_pool_open(&second, 8, 2, 1));
    BOTH(hk_pool_split(pool, &second));
    BOTH(hk_pool_try_get_bulk(pool, numbers, COUNT));
    BOTH(hk_pool_try_put_bulk(pool, numbers, COUNT));
    BOTH(hk_pool_try_flush(pool));
    BOTH(hk_pool_cached(pool));
    BOTH(hk_pool_owns(pool, 1));
    BOTH(hk_pool_try_send_bulk(pool, RING, numbers, COUNT));
    BOTH(hk_pool_try_send_burst(pool, RING, numbers, COUNT));
    BOTH(hk_pool_try_receive_bulk(pool, RING, numbers, COUNT));
    BOTH(hk_pool_try_receive_burst(pool, RING, numbers, COUNT));
    BOTH(hk_pool_ring_count(pool, RING));
    BOTH(hk_pool_ring_room(pool, RING));
    BOTH(hk_pool_free_count(pool));
    IS(second == NULL, 1);
    /* A flush, which is tried once whatever it answers, and the end. */
    told(never, never, often(HK_E_AGAIN, 1, HK_OK)), hk_pool_free(pool), freed(2);
}

static void tables_and_windows(void) {
    hk_routes *table = (hk_routes *)hand, *second = NULL;
    hk_reorder *window = (hk_reorder *)hand, *another = NULL;
    BOTH(hk_routes_open(&second, 16, 1));
    BOTH(hk_routes_share(table, &second));
    BOTH(hk_routes_add(table, 0, 8, 1));
    BOTH(hk_routes_remove(table, 0, 8));
    BOTH(hk_routes_lookup(table, 0));
    BOTH(hk_routes_lookup_bulk(table, numbers, hops, 0));
    BOTH(hk_reorder_open(&another, 4));
    BOTH(hk_reorder_insert(window, 1, 1));
    BOTH(hk_reorder_drain(window, words, COUNT));
    BOTH(hk_reorder_pop(window, words));
    /* No word has arrived. */
    told(never, never, none), IS(hk_reorder_drain(window, words, COUNT), HK_E_NOTHING), tried(0, 0, 1);
    told(never, never, none), IS(hk_reorder_pop(window, words), HK_E_NOTHING), tried(0, 0, 1);
    told(never, never, none), IS(hk_reorder_drain(window, words, 0), 0), tried(0, 0, 1);
    BOTH(hk_reorder_next(window, &next));
    BOTH(hk_reorder_skip(window, 1));
    IS(second == NULL && another == NULL, 1);
    told(never, never, never), hk_routes_free(table), freed(1);
    told(never, never, never), hk_reorder_free(window), freed(1);
}

static void tables_that_change(void) {
    hk_fib *fib = (hk_fib *)hand, *another = NULL;
    hk_forward *forward = (hk_forward *)hand, *second = NULL;
    hk_port port = {0, {0}, 0, 0};
    hk_next_hop hop = {0, {0}};
    hk_fib_route route;
    BOTH(hk_fib_open(&another, 16, 1, &port, 1, &hop, 1));
    BOTH(hk_fib_open_whole(&another, 16, 1, &port, 1, &hop, 1));
    BOTH(hk_fib_share(fib, &second));
    BOTH(hk_fib_add(fib, 0, 8, 1));
    BOTH(hk_fib_remove(fib, 0, 8));
    BOTH(hk_fib_clear(fib));
    BOTH(hk_fib_set_hop(fib, 0, &hop));
    BOTH(hk_fib_set_port(fib, 0, &port));
    BOTH(hk_fib_publish(fib));
    BOTH(hk_fib_settle(fib));
    BOTH(hk_fib_pending(fib));
    BOTH(hk_fib_get(fib, 0, 8));
    BOTH(hk_fib_count(fib));
    BOTH(hk_fib_walk(fib, 0, 0, &route));
    BOTH(hk_forward_hold(forward));
    BOTH(hk_forward_release(forward));
    BOTH(hk_forward_lookup(forward, 0));
    BOTH(hk_forward_lookup_bulk(forward, numbers, hops, 0));
    IS(second == NULL && another == NULL, 1);
    told(never, never, never);
    IS(hk_fib_open(&another, 16, 1, &port, HK_MAX_PORTS + 1, &hop, 1), HK_E_PLAN);
    IS(hk_fib_open(&another, 16, 1, &port, 1, &hop, HK_MAX_HOPS + 1), HK_E_PLAN), tried(0, 0, 0);
    told(never, never, never), hk_fib_free(fib), freed(1);
}

/* No export is given a frame that is longer than on the wire, or more frames than there may be. */
static void forwarders(void) {
    hk_forward *forward = (hk_forward *)hand;
    uint8_t bytes[COUNT];
    hk_frame frames[2] = {{bytes, COUNT, COUNT}, {bytes, COUNT, COUNT - 1}};
    BOTH(hk_forward_frame(forward, bytes, COUNT, COUNT));
    BOTH(hk_forward_burst(forward, frames, numbers, 1));
    BOTH(hk_forward_verdict(forward, bytes, COUNT, COUNT));
    BOTH(hk_forward_class(forward, 0, bytes, COUNT));
    told(never, never, never);
    IS(hk_forward_frame(forward, bytes, COUNT, COUNT - 1), HK_E_COUNT);
    IS(hk_forward_verdict(forward, bytes, COUNT, COUNT - 1), HK_E_COUNT);
    IS(hk_forward_burst(forward, frames, numbers, 2), HK_E_COUNT);
    IS(hk_forward_burst(forward, NULL, NULL, 0), HK_E_COUNT);
    IS(hk_forward_burst(forward, frames, numbers, HK_MAX_FRAMES + 1), HK_E_COUNT), tried(0, 0, 0);
    told(never, never, never), hk_forward_free(forward), freed(1);
}

int main(void) {
    hand = (hk_hand *)(void *)&given;
    both(put_bulk, true), both(put_burst, false);
    both(take_bulk, true), both(take_burst, false);
    one_word = 7, one_wanted = true;
    both(put_one, true), both(take_one, true);
    both(end_put, true), both(end_take, true), finishes(end_finish_put), finishes(end_finish_take);
    one_wanted = false;
    starts(peek_put_bulk, true), starts(peek_put_burst, false);
    starts(peek_take_bulk, true), starts(peek_take_burst, false);
    starts(hold_take_bulk, true), starts(hold_take_burst, false);
    finishes(finish_put), finishes(finish_take);
    one_try();
    ends();
    pools();
    tables_and_windows();
    tables_that_change();
    forwarders();
    return hk_count_up("tries");
}
