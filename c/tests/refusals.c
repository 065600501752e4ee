/* Each call with each bad argument, and with each two: the code, and that nothing was changed. The calls are those of
 * refusals.txt, of which tools/lib/c_refusals.py makes refusals.inc. The handles here are what it names. */
#include "tests.h"

#include <signal.h>
#include <stdlib.h>
#include <string.h>
#include <unistd.h>

/* Each set of rings has a ring of HTS sides and a ring of multi sides; an open span has three positions of seven. */
enum { RINGS = 2, MULTI_RING = 1, SPAN = 3, LEFT = 4, NUMBERS = 8, POOL_RINGS = 2, PORTS = 1, HOPS = 8, HELD = 34 };

#define LASTING(put, take, last, reserved) \
    ((hk_ring_plan[2]){{8, 0, HK_HTS, HK_HTS, 0, 0}, {8, 0, put, take, last, reserved}})
#define TWO(size, exact, put, take) ((hk_ring_plan[2]){{8, 0, HK_HTS, HK_HTS, 0, 0}, {size, exact, put, take, 0, 0}})

/* Hands: without a span, with a span of a put and of a take, and one whose rings were closed. `other` shares the rings
 * of `idle`, and `sharer` the table of `shared`. */
static hk_hand *idle, *other, *putting, *taking, *holding, *closed;
/* Hands with ends on both sides of one ring. */
static hk_hand *ended, *multi;
static hk_producer *putter, *multi_putter;
static hk_consumer *taker, *multi_taker;
static hk_pool *pool;
static hk_routes *table, *shared, *sharer;
static hk_fib *fib;
static hk_forward *forwarder;
static hk_reorder *window;

/* What calls write to: handles, words and numbers. */
static struct made {
    hk_hand *hand;
    hk_producer *producer;
    hk_consumer *consumer;
    hk_pool *pool;
    hk_routes *table;
    hk_fib *fib;
    hk_forward *forwarder;
    hk_reorder *window;
} made, unmade;
static uint64_t given[HK_MAX_WORDS + 1], places[HK_MAX_WORDS + 1];
static uint32_t numbers[HK_MAX_NUMBERS + 1];
static const uint32_t addresses[2] = {0x0a000001, 0x0a010001};
static const hk_port one_port[1] = {{0x0a000001, {2, 0, 0, 0, 0, 1}, 24, 0}};
static const hk_next_hop one_hop[1] = {{0, {2, 0, 0, 0, 0, 2}}};
static hk_fib_route found;

/* Allocators that come too late, and two that lack a call. */
#define ALLOCATOR(first, last) ((hk_allocator){first, NULL, last})
#define NO_ALLOCATE ALLOCATOR(NULL, free)
#define NO_RELEASE ALLOCATOR(malloc, NULL)
static const hk_allocator late = {malloc, NULL, free};

/* Numbers of the pool: two that its handle got, and pairs with one that may not be put. */
static uint32_t own[2], free_ones[2], twice[2], cached[2], high[2], highest[2];

/* A frame from 10.0.0.2 to 10.0.0.1, and lists of two: right ones, one without bytes, one longer than on the wire. */
static uint8_t frame[HELD] = {1, 2, 3, 4, 5, 6, 7, 8, 9, 10, 11, 12, 8, 0,
    0x45, 0, 0, 20, 0, 0, 0, 0, 64, 17, 0x66, 0xd7, 10, 0, 0, 2, 10, 0, 0, 1};
static uint8_t unsent[HELD];
static const hk_frame frames[2] = {{frame, HELD, HELD}, {frame, 14, 14}};
static const hk_frame without_bytes[2] = {{frame, HELD, HELD}, {NULL, 0, 0}};
static const hk_frame too_long[2] = {{frame, HELD, HELD}, {frame, HELD, HELD - 1}};

/* What is seen of all handles. */
struct seen {
    int64_t spans[6], rings[6], numbers[NUMBERS + 1], counts[1 + POOL_RINGS], hops[4], drawn[4], found[2];
    int64_t verdict, class;
    uint64_t words[HK_MAX_WORDS], next;
};

static void open_hand(hk_hand **hand) {
    hk_ring_plan plans[RINGS] = {{8, 0, HK_HTS, HK_HTS, 0, 0}, {8, 0, HK_MULTI, HK_MULTI, 0, 0}};
    IS(hk_hand_open(hand, plans, RINGS), HK_OK);
}

static void open_hands(void) {
    open_hand(&idle), open_hand(&putting), open_hand(&taking), open_hand(&holding), open_hand(&closed);
    IS(hk_hand_split(idle, &other), HK_OK);
    IS(hk_ring_try_put_bulk(idle, 0, given, 3), 3), IS(hk_ring_try_put_bulk(idle, 1, given, 2), 2);
    IS(hk_ring_peek_put_bulk(putting, 0, SPAN), SPAN);
    IS(hk_ring_try_put_bulk(taking, 0, given, SPAN + LEFT), SPAN + LEFT);
    IS(hk_ring_peek_take_bulk(taking, 0, places, SPAN), SPAN);
    IS(hk_ring_try_put_bulk(holding, 0, given, SPAN + LEFT), SPAN + LEFT);
    IS(hk_ring_hold_take_bulk(holding, 0, SPAN), SPAN);
    IS(hk_ring_try_put_bulk(closed, 0, given, 2), 2);
    IS(hk_hand_close(closed), HK_OK);
}

static void open_ends(void) {
    open_hand(&ended), open_hand(&multi);
    IS(hk_producer_open(&putter, ended, 0), HK_OK), IS(hk_consumer_open(&taker, ended, 0), HK_OK);
    IS(hk_producer_open(&multi_putter, multi, MULTI_RING), HK_OK);
    IS(hk_consumer_open(&multi_taker, multi, MULTI_RING), HK_OK);
    IS(hk_producer_put(putter, 1), HK_OK), IS(hk_producer_put(multi_putter, 1), HK_OK);
}

/* The handle of the pool has got two numbers and has three in its cache; one is on the first ring of the pool. */
static void open_pool(void) {
    uint32_t got[4];
    IS(hk_pool_open(&pool, NUMBERS, 2, POOL_RINGS), HK_OK);
    IS(hk_pool_try_get_bulk(pool, got, 4), 4);
    IS(hk_pool_try_put_bulk(pool, &got[2], 1), 1), IS(hk_pool_cached(pool), 3);
    IS(hk_pool_try_send_bulk(pool, 0, &got[3], 1), 1);
    memcpy(own, got, sizeof own);
    for (uint32_t i = 0; i < NUMBERS; i++) {
        if (!hk_pool_owns(pool, i)) free_ones[0] = i;
    }
    twice[0] = cached[0] = high[0] = highest[0] = free_ones[1] = twice[1] = own[0];
    high[1] = NUMBERS, highest[1] = UINT32_MAX;
    cached[1] = got[2];
}

static void open_tables(void) {
    IS(hk_routes_open(&table, 16, 1), HK_OK), IS(hk_routes_open(&shared, 16, 1), HK_OK);
    IS(hk_routes_add(table, 0x0a000000, 8, 7), HK_OK), IS(hk_routes_add(shared, 0x0a000000, 8, 7), HK_OK);
    IS(hk_routes_add(table, 0x0a010000, 24, 9), HK_OK);
    IS(hk_routes_share(shared, &sharer), HK_OK);
}

/* The forwarder has seen a route whose hop leads to its port, and another one is prepared. */
static void open_forwarder(void) {
    hk_next_hop hops[HOPS] = {one_hop[0]};
    hops[7] = hops[0];
    IS(hk_fib_open(&fib, 16, 1, one_port, PORTS, hops, HOPS), HK_OK);
    IS(hk_fib_add(fib, 0x0a000000, 8, 7), HK_OK), IS(hk_fib_publish(fib), HK_OK);
    IS(hk_fib_share(fib, &forwarder), HK_OK);
    IS(hk_fib_add(fib, 0x0a010000, 24, 5), HK_OK);
    memcpy(unsent, frame, sizeof unsent);
}

/* The window waits for number 1, and number 2 is there. */
static void open_window(void) {
    IS(hk_reorder_open(&window, 4), HK_OK);
    IS(hk_reorder_skip(window, 1), HK_OK), IS(hk_reorder_insert(window, 2, 12), HK_OK);
}

/* What the calls that change nothing say of each handle; the words of `idle` are shown by a peek of `other`. */
static void look(struct seen *seen) {
    hk_hand *hands[6] = {idle, putting, taking, holding, ended, multi};
    memset(seen, 0, sizeof *seen);
    for (int i = 0; i < 6; i++) seen->spans[i] = hk_hand_span(hands[i]);
    for (size_t i = 0; i < RINGS; i++) {
        seen->rings[2 * i] = hk_ring_count(idle, i), seen->rings[2 * i + 1] = hk_ring_room(idle, i);
    }
    seen->rings[4] = hk_ring_count(ended, 0), seen->rings[5] = hk_ring_count(multi, MULTI_RING);
    for (uint32_t i = 0; i < NUMBERS; i++) seen->numbers[i] = hk_pool_owns(pool, i);
    seen->numbers[NUMBERS] = hk_pool_cached(pool);
    seen->counts[0] = hk_pool_free_count(pool);
    for (size_t i = 0; i < POOL_RINGS; i++) seen->counts[1 + i] = hk_pool_ring_count(pool, i);
    for (int i = 0; i < 2; i++) {
        seen->hops[2 * i] = hk_routes_lookup(table, addresses[i]);
        seen->hops[2 * i + 1] = hk_routes_lookup(shared, addresses[i]);
    }
    seen->drawn[0] = hk_fib_get(fib, 0x0a000000, 8), seen->drawn[1] = hk_fib_get(fib, 0x0a010000, 24);
    seen->drawn[2] = hk_fib_count(fib), seen->drawn[3] = hk_fib_pending(fib);
    for (int i = 0; i < 2; i++) seen->found[i] = hk_forward_lookup(forwarder, addresses[i]);
    seen->verdict = hk_forward_verdict(forwarder, frame, HELD, HELD);
    seen->class = hk_forward_class(forwarder, 0, frame, HELD);
    if (hk_ring_peek_take_burst(other, 0, seen->words, HK_MAX_WORDS) < 0 || hk_ring_finish_take(other, 0) != 0
        || hk_reorder_next(window, &seen->next) != HK_OK) hk_failed++;
}

static struct seen before, now;
static int64_t lefts[4];
static const char *volatile call;

/* Whether the arrays and the places for handles are as they were made. */
static int is_unwritten(void) {
    int same = memcmp(&made, &unmade, sizeof made) == 0 && memcmp(frame, unsent, sizeof frame) == 0;
    for (size_t i = 0; i <= HK_MAX_WORDS; i++) same &= places[i] == UINT64_MAX && given[i] == 100 + i;
    for (size_t i = 0; i <= HK_MAX_NUMBERS; i++) same &= numbers[i] == UINT32_MAX;
    return same;
}

/* Whether hk_hand_left says what it said; after HK_E_COUNT it says nothing. */
static int is_left(int64_t code) {
    hk_hand *hands[4] = {idle, putting, taking, holding};
    int same = 1;
    for (int i = 0; i < 4; i++) {
        int64_t left = hk_hand_left(hands[i]);
        same &= left == lefts[i] || code == HK_E_COUNT;
        lefts[i] = left;
    }
    return same;
}

static void check(int64_t got, int64_t want) {
    hk_is(got, want, call, __FILE__, __LINE__);
    look(&now);
    if (is_unwritten() && is_left(want) && memcmp(&before, &now, sizeof now) == 0) {
        hk_passed++;
        return;
    }
    hk_failed++;
    printf("%s: it changed something\n", call);
    exit(hk_count_up("refusals"));
}

#define REFUSES(a_call, want) (call = #a_call, check(a_call, want))
#define KEEPS(a_call) (call = #a_call, a_call, check(0, 0))

static void all(void) {
#include "refusals.inc"
}

/* What is on the rings, in the pool and in the window is what was put there. */
static void contents(void) {
    uint64_t words[HK_MAX_WORDS] = {0};
    IS(hk_ring_finish_put(putting, given, SPAN), SPAN);
    IS(hk_ring_try_take_burst(putting, 0, words, HK_MAX_WORDS), SPAN);
    IS(memcmp(words, given, SPAN * sizeof *words), 0);
    IS(hk_ring_finish_take(taking, SPAN), SPAN);
    IS(hk_ring_try_take_burst(taking, 0, words, HK_MAX_WORDS), LEFT), IS(words[0], given[SPAN]);
    IS(hk_ring_release_take(holding, words, 1), 1), IS(words[0], given[0]);
    IS(hk_ring_try_take_burst(holding, 0, words, HK_MAX_WORDS), SPAN + LEFT - 1), IS(words[0], given[1]);
    IS(hk_producer_put(putter, 2), HK_OK), IS(hk_consumer_take(taker, words), HK_OK), IS(words[0], 1);
    IS(hk_consumer_take(multi_taker, words), HK_OK), IS(words[0], 1);
    IS(hk_ring_try_take_burst(idle, 1, words, HK_MAX_WORDS), 2), IS(memcmp(words, given, 2 * sizeof *words), 0);
    IS(hk_hand_drain(closed, 0, words, HK_MAX_WORDS), 2), IS(memcmp(words, given, 2 * sizeof *words), 0);
    IS(hk_pool_try_receive_bulk(pool, 0, numbers, 1), 1);
    IS(hk_reorder_insert(window, 1, 11), HK_OK), IS(hk_reorder_drain(window, words, HK_MAX_WORDS), 2);
    IS(words[0], 11), IS(words[1], 12);
}

static void free_all(void) {
    hk_hand_free(idle), hk_hand_free(other), hk_hand_free(putting), hk_hand_free(taking);
    hk_hand_free(holding), hk_hand_free(closed), hk_hand_free(ended), hk_hand_free(multi);
    hk_pool_free(pool);
    hk_routes_free(table), hk_routes_free(shared), hk_routes_free(sharer);
    hk_fib_free(fib), hk_forward_free(forwarder);
    hk_reorder_free(window);
}

/* Names the call that died. */
static void died(int signal) {
    const char *text = call ? call : "refusals";
    (void)!write(STDOUT_FILENO, text, strlen(text));
    (void)!write(STDOUT_FILENO, ": died\n", 7);
    _Exit(128 + signal);
}

int main(void) {
    signal(SIGSEGV, died), signal(SIGBUS, died);
    setvbuf(stdout, NULL, _IONBF, 0);
    for (uint64_t i = 0; i <= HK_MAX_WORDS; i++) given[i] = 100 + i;
    open_hands(), open_ends(), open_pool(), open_tables(), open_forwarder(), open_window();
    memset(places, 0xff, sizeof places), memset(numbers, 0xff, sizeof numbers);
    memset(&made, 0xff, sizeof made), unmade = made;
    look(&before), IS(before.words[0], 100), IS(before.numbers[own[0]], 1), IS(before.next, 1);
    IS(before.counts[0], 2), IS(before.counts[1], 1), IS(before.counts[2], 0);
    IS(before.verdict, 0), IS(before.class, HK_TO_GROUP + HK_TO_OWN);
    IS(before.found[1], 7), IS(before.drawn[1], 5), IS(before.drawn[2], 2), IS(before.drawn[3], 1);
    (void)is_left(HK_E_COUNT);
    all();
    contents();
    free_all();
    return hk_count_up("refusals");
}
