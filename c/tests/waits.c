/* Each loop of hokhtura_wait.h in one thread: `relax` does what another thread would do, by another handle, and counts
 * how often it was asked. So each loop is seen to go on, to end when it is done, and to end when relax says so. */
#include "hokhtura_wait.h"
#include "tests.h"

enum { SIZE = 4 };

static hk_hand *hand, *other;
static hk_pool *pool, *sharer;
static hk_fib *fib;
static hk_forward *reader;
static uint64_t words[HK_MAX_WORDS + 6], out[HK_MAX_WORDS + 6];
static int relaxed, ends_at;

static int ends(void) {
    return ++relaxed == ends_at;
}

/* Another thread takes a word, and puts one. */
static int takes(void) {
    uint64_t word;
    IS(hk_ring_try_take_bulk(other, 0, &word, 1), 1);
    return ends();
}

static int puts_one(void) {
    static uint64_t next;
    next++;
    IS(hk_ring_try_put_bulk(other, 0, &next, 1), 1);
    return ends();
}

static void from(int at) {
    relaxed = 0, ends_at = at;
}

static void empty(void) {
    while (hk_ring_try_take_burst(other, 0, out, SIZE) > 0) {
    }
}

static void fill(void) {
    empty(), IS(hk_ring_try_put_bulk(other, 0, words, SIZE), SIZE);
}

static void puts_of(uint32_t mode) {
    hk_ring_plan plan = {SIZE, 1, mode, mode, 0, 0};
    IS(hk_hand_open(&hand, &plan, 1), HK_OK), IS(hk_hand_split(hand, &other), HK_OK);
    fill(), from(0), IS(hk_ring_put_bulk(hand, 0, words, 3, takes), 3), IS(relaxed, 3);
    fill(), from(2), IS(hk_ring_put_bulk(hand, 0, words, 3, takes), HK_E_NOROOM), IS(relaxed, 2);
    fill(), from(0), IS(hk_ring_put_burst(hand, 0, words, 3, takes), 1), IS(relaxed, 1);
    fill(), from(0), IS(hk_ring_put(hand, 0, words, 3, takes), 3), IS(relaxed, 3);
    fill(), from(0), IS(hk_ring_put(hand, 0, words, HK_MAX_WORDS + 6, takes), HK_MAX_WORDS + 6);
    IS(relaxed, HK_MAX_WORDS + 6);
    fill(), from(2), IS(hk_ring_put(hand, 0, words, 3, takes), 1), from(1);
    fill(), from(1), IS(hk_ring_put(hand, 0, words, 3, ends), HK_E_NOROOM), IS(hk_hand_span(hand), 0);
    empty(), from(0), IS(hk_ring_put_bulk(hand, 0, words, 3, takes), 3), IS(relaxed, 0);
    empty(), from(0), IS(hk_ring_take_bulk(hand, 0, out, 3, puts_one), 3), IS(relaxed, 3);
    empty(), from(2), IS(hk_ring_take_bulk(hand, 0, out, 3, puts_one), HK_E_NOROOM), IS(relaxed, 2);
    empty(), from(0), IS(hk_ring_take_burst(hand, 0, out, 3, puts_one), 1), IS(relaxed, 1);
    empty(), from(0), IS(hk_ring_take(hand, 0, out, HK_MAX_WORDS + 6, puts_one), HK_MAX_WORDS + 6);
    IS(relaxed, HK_MAX_WORDS + 6);
    for (int i = 1; i < HK_MAX_WORDS + 6; i++) IS(out[i], out[0] + (uint64_t)i);
    empty(), from(1), IS(hk_ring_take(hand, 0, out, 3, ends), HK_E_NOROOM);
    /* Codes that time doesn't cure. */
    from(0), IS(hk_ring_put_bulk(NULL, 0, words, 3, ends), HK_E_NULL);
    IS(hk_ring_put(hand, 1, words, 3, ends), HK_E_RING);
    IS(hk_ring_put_burst(hand, 0, NULL, 3, ends), HK_E_NULL), IS(hk_ring_put(hand, 0, NULL, 3, ends), HK_E_NULL);
    IS(hk_ring_take(hand, 0, NULL, HK_MAX_WORDS + 6, ends), HK_E_NULL);
    IS(hk_ring_put(hand, 0, words, 0, ends), HK_E_COUNT);
    IS(hk_ring_take_bulk(hand, 0, out, HK_MAX_WORDS_MULTI + 1, ends), HK_E_COUNT), IS(relaxed, 0);
    hk_hand_free(hand), hk_hand_free(other);
}

/* Another thread has a peek open, and finishes it. */
static int finishes(void) {
    IS(hk_ring_finish_put(other, words, 1), 1);
    return ends();
}

static void after_a_peek(void) {
    hk_ring_plan plan = {SIZE, 1, HK_HTS, HK_HTS, 0, 0};
    IS(hk_hand_open(&hand, &plan, 1), HK_OK), IS(hk_hand_split(hand, &other), HK_OK);
    IS(hk_ring_peek_put_bulk(other, 0, 1), 1), from(1);
    IS(hk_ring_put_bulk(hand, 0, words, 1, ends), HK_E_AGAIN), IS(relaxed, 1);
    from(0), IS(hk_ring_put_bulk(hand, 0, words, 1, finishes), 1), IS(relaxed, 1);
    hk_hand_free(hand), hk_hand_free(other);
}

static int puts_number(void) {
    static const uint32_t numbers[1] = {0};
    IS(hk_pool_try_put_bulk(sharer, numbers, 1), 1);
    return ends();
}

static int sends_number(void) {
    static const uint32_t numbers[1] = {1};
    IS(hk_pool_try_send_bulk(sharer, 0, numbers, 1), 1);
    return ends();
}

static void pools(void) {
    uint32_t two[2], number = 7;
    IS(hk_pool_open(&pool, 2, 0, 1), HK_OK), IS(hk_pool_split(pool, &sharer), HK_OK);
    IS(hk_pool_get_bulk(sharer, two, 2, NULL), 2), IS(two[0] + two[1], 1);
    from(1), IS(hk_pool_get_bulk(pool, &number, 1, ends), HK_E_NOROOM), IS(relaxed, 1), IS(number, 7);
    from(0), IS(hk_pool_get_bulk(pool, &number, 1, puts_number), 1), IS(number, 0), IS(relaxed, 1);
    from(0), IS(hk_pool_receive_bulk(pool, 0, &number, 1, sends_number), 1), IS(number, 1), IS(relaxed, 1);
    from(0), IS(hk_pool_send_burst(pool, 0, &number, 1, ends), 1);
    IS(hk_pool_send_burst(pool, 0, &number, 1, ends), HK_E_NOTYOURS);
    IS(hk_pool_receive_burst(sharer, 0, two, 2, ends), 1), IS(two[0], 1), IS(relaxed, 0);
    from(2), IS(hk_pool_receive_burst(pool, 0, two, 2, ends), HK_E_NOROOM), IS(relaxed, 2);
    from(0), IS(hk_pool_receive_burst(pool, 0, two, 2, sends_number), 1), IS(two[0], 1), IS(relaxed, 1);
    from(0), IS(hk_pool_send_bulk(pool, 0, &number, 1, ends), 1);
    IS(hk_pool_send_bulk(pool, 0, &number, 1, ends), HK_E_NOTYOURS);
    number = 0, IS(hk_pool_put_bulk(pool, &number, 1, ends), 1), IS(hk_pool_flush(pool, ends), 0), IS(relaxed, 0);
    IS(hk_pool_put_bulk(pool, &number, 1, ends), HK_E_NOTYOURS), IS(relaxed, 0);
    hk_pool_free(pool), hk_pool_free(sharer);
}

static int lets_go(void) {
    IS(hk_forward_release(reader), HK_OK);
    return ends();
}

static void tables(void) {
    IS(hk_fib_open(&fib, 16, 1, NULL, 0, NULL, 0), HK_OK), IS(hk_fib_share(fib, &reader), HK_OK);
    IS(hk_fib_add(fib, 0, 8, 1), HK_OK), IS(hk_forward_hold(reader), HK_OK), IS(hk_fib_publish(fib), HK_OK);
    from(2), IS(hk_fib_settle_wait(fib, ends), HK_E_PENDING), IS(relaxed, 2);
    from(1), IS(hk_fib_publish_wait(fib, ends), HK_E_PENDING);
    from(0), IS(hk_fib_settle_wait(fib, lets_go), HK_OK), IS(relaxed, 1);
    IS(hk_forward_hold(reader), HK_OK), IS(hk_fib_add(fib, 0, 9, 2), HK_OK), IS(hk_fib_publish_wait(fib, ends), HK_OK);
    from(0), IS(hk_fib_publish_wait(fib, lets_go), HK_OK), IS(relaxed, 1);
    hk_fib_free(fib), hk_forward_free(reader);
}

int main(void) {
    for (uint64_t i = 0; i < HK_MAX_WORDS + 6; i++) words[i] = i;
    puts_of(HK_MULTI), puts_of(HK_HTS);
    after_a_peek();
    pools();
    tables();
    IS(hk_relax_yield(), 0);
    return hk_count_up("waits");
}
