/* Rings at their end: after `last` words of a plan puts return HK_E_WORN and nothing is lost, in each pair of modes; and
 * rings that stand beyond 2^44 words, where their words are set by hand since no test puts as many. */
#include "tests.h"

#include <stdlib.h>
#include <string.h>

enum { LAST = 100, SIZE = 7 };

static const uint64_t words[8] = {1, 2, 3, 4, 5, 6, 7, 8};
static uint64_t out[8];

static hk_hand *open_ring(uint32_t put, uint32_t take, uint64_t last) {
    hk_ring_plan plan = {SIZE, 1, put, take, last, 0};
    hk_hand *hand = NULL;
    IS(hk_hand_open(&hand, &plan, 1), HK_OK);
    return hand;
}

/* Puts and takes words until as many went through the ring. */
static void pass(hk_hand *hand, uint64_t count) {
    for (uint64_t i = 0; i < count; i++) {
        IS(hk_ring_try_put_bulk(hand, 0, words, 1), 1), IS(hk_ring_try_take_bulk(hand, 0, out, 1), 1);
    }
}

/* The last words by bulk and by burst, and what comes after them. */
static void ends(uint32_t put, uint32_t take) {
    hk_hand *hand = open_ring(put, take, LAST);
    pass(hand, LAST - 3);
    IS(hk_ring_try_put_bulk(hand, 0, words, 4), HK_E_WORN), IS(hk_ring_count(hand, 0), 0);
    IS(hk_ring_try_put_bulk(hand, 0, words, 8), HK_E_NOROOM);
    IS(hk_ring_try_put_burst(hand, 0, words, 8), HK_E_WORN), IS(hk_ring_count(hand, 0), 0);
    IS(hk_ring_try_put_bulk(hand, 0, words, 3), 3), IS(hk_ring_try_put_bulk(hand, 0, words, 1), HK_E_WORN);
    IS(hk_ring_try_take_bulk(hand, 0, out, 4), HK_E_NOROOM);
    IS(hk_ring_try_take_burst(hand, 0, out, 8), 3), IS(memcmp(out, words, 3 * sizeof *out), 0);
    IS(hk_ring_try_take_burst(hand, 0, out, 8), HK_E_NOROOM), IS(hk_ring_try_put_burst(hand, 0, words, 1), HK_E_WORN);
    IS(hk_hand_close(hand), HK_OK), hk_hand_free(hand);
}

/* Word by word by ends, up to the last word. */
static void ends_at_the_end(uint32_t mode) {
    hk_hand *hand = open_ring(mode, mode, LAST), *other = NULL;
    hk_producer *put = NULL;
    hk_consumer *take = NULL;
    IS(hk_hand_split(hand, &other), HK_OK);
    IS(hk_producer_open(&put, hand, 0), HK_OK), IS(hk_consumer_open(&take, other, 0), HK_OK);
    for (uint64_t word = 1; word <= LAST; word++) {
        uint64_t found = 0;
        IS(hk_producer_put(put, word), HK_OK);
        if (word % 2) continue;
        IS(hk_consumer_take(take, &found), HK_OK), IS(found, word - 1);
        IS(hk_consumer_take(take, &found), HK_OK), IS(found, word);
        IS(hk_consumer_take(take, &found), HK_E_NOROOM);
    }
    IS(hk_producer_put(put, 1), HK_E_WORN), IS(hk_producer_put(put, 1), HK_E_WORN), IS(hk_ring_count(hand, 0), 0);
    hk_hand_free(hand), hk_hand_free(other);
}

/* Peeks and held sides up to the last word, and not across it. */
static void peeks(void) {
    hk_hand *hand = open_ring(HK_HTS, HK_HTS, LAST);
    pass(hand, LAST - 3);
    IS(hk_ring_peek_put_bulk(hand, 0, 4), HK_E_WORN), IS(hk_hand_span(hand), 0);
    IS(hk_ring_peek_put_burst(hand, 0, 7), HK_E_WORN), IS(hk_hand_span(hand), 0);
    IS(hk_ring_peek_put_bulk(hand, 0, 3), 3), IS(hk_ring_advance_put(hand, words, 2), 2);
    IS(hk_ring_finish_put(hand, words + 2, 1), 1), IS(hk_ring_peek_put_bulk(hand, 0, 1), HK_E_WORN);
    IS(hk_ring_hold_take_bulk(hand, 0, 3), 3), IS(hk_ring_advance_take(hand, out, 2), 2);
    IS(hk_ring_release_take(hand, out + 2, 1), 1), IS(memcmp(out, words, 3 * sizeof *out), 0);
    IS(hk_ring_peek_take_bulk(hand, 0, out, 1), HK_E_NOROOM);
    IS(hk_hand_close(hand), HK_OK), hk_hand_free(hand);
}

/* A last word that a plan may have, and one that it may not. */
static void plans(void) {
    const struct {
        uint32_t put, take;
        uint64_t last;
        int64_t code;
    } rows[] = {
        {HK_MULTI, HK_MULTI, 1, HK_OK}, {HK_HTS, HK_HTS, 1, HK_OK},
        {HK_MULTI, HK_MULTI, INT64_MAX, HK_OK}, {HK_MULTI, HK_MULTI, (uint64_t)INT64_MAX + 1, HK_E_PLAN},
        {HK_HTS, HK_HTS, (UINT64_C(1) << 52) - 1, HK_OK}, {HK_HTS, HK_HTS, UINT64_C(1) << 52, HK_E_PLAN},
        {HK_HTS, HK_MULTI, UINT64_C(1) << 52, HK_E_PLAN}, {HK_MULTI, HK_HTS, UINT64_C(1) << 52, HK_E_PLAN},
        {HK_MULTI, HK_MULTI, UINT64_MAX, HK_E_PLAN},
    };
    for (size_t i = 0; i < sizeof rows / sizeof *rows; i++) {
        hk_ring_plan plan = {SIZE, 1, rows[i].put, rows[i].take, rows[i].last, 0};
        hk_hand *hand = NULL;
        IS(hk_hand_open(&hand, &plan, 1), rows[i].code), IS(hand == NULL, rows[i].code != HK_OK);
        hk_hand_free(hand);
    }
    hk_ring_plan later = {SIZE, 1, HK_MULTI, HK_MULTI, 0, 1};
    hk_hand *hand = NULL;
    IS(hk_hand_open(&hand, &later, 1), HK_E_PLAN), IS(hand == NULL, 1);
}

/* The block of the words of one ring: 64 words, of which the numbers 0, 16, 32 and 48 are its heads and tails. Of the
 * blocks of this size it is the one that is all 0 in a new set of rings. */
enum { BLOCK = 64 * sizeof(uint64_t), BLOCKS = 8 };
static uint64_t *blocks[BLOCKS];

static void *allocate(size_t size) {
    void *there = aligned_alloc(64, size);
    for (int i = 0; size == BLOCK && i < BLOCKS; i++) {
        if (blocks[i]) continue;
        blocks[i] = there;
        break;
    }
    return there;
}

static void release(void *there) {
    for (int i = 0; i < BLOCKS; i++) if (blocks[i] == there) blocks[i] = NULL;
    free(there);
}

static uint64_t *words_of_a_new_ring(void) {
    static const uint64_t none[BLOCK / sizeof(uint64_t)];
    for (int i = 0; i < BLOCKS; i++) if (blocks[i] && memcmp(blocks[i], none, BLOCK) == 0) return blocks[i];
    return NULL;
}

/* An empty ring that stands after `at` words, as it would after as many puts and takes: the words of a multi side are
 * the number itself, and a head/tail-sync word has it above 12 bits for a count. Bulks, bursts and peeks go on there. */
static void far(uint32_t put, uint32_t take, uint64_t at) {
    hk_hand *hand = open_ring(put, take, 0);
    uint64_t *block = words_of_a_new_ring();
    IS(block != NULL, 1);
    if (!block) return;
    if (put == HK_MULTI) block[0] = at, block[16] = at;
    else block[0] = at << 12;
    if (take == HK_MULTI) block[32] = at, block[48] = at;
    else block[32] = at << 12;
    for (int turn = 0; turn < 50; turn++) {
        memset(out, 0, sizeof out);
        IS(hk_ring_try_put_bulk(hand, 0, words, 5), 5), IS(hk_ring_try_put_burst(hand, 0, words + 5, 3), 2);
        IS(hk_ring_count(hand, 0), 7), IS(hk_ring_try_put_bulk(hand, 0, words, 1), HK_E_NOROOM);
        IS(hk_ring_try_take_bulk(hand, 0, out, 3), 3), IS(hk_ring_try_take_burst(hand, 0, out + 3, 5), 4);
        IS(memcmp(out, words, 7 * sizeof *out), 0), IS(hk_ring_try_take_bulk(hand, 0, out, 1), HK_E_NOROOM);
    }
    if (put == HK_HTS) {
        IS(hk_ring_peek_put_bulk(hand, 0, 4), 4), IS(hk_ring_advance_put(hand, words, 1), 1);
        IS(hk_ring_finish_put(hand, words + 1, 2), 2), IS(hk_ring_count(hand, 0), 3);
        IS(hk_ring_try_take_burst(hand, 0, out, 8), 3);
    }
    if (take == HK_HTS) {
        IS(hk_ring_try_put_bulk(hand, 0, words, 4), 4), IS(hk_ring_peek_take_bulk(hand, 0, out, 4), 4);
        IS(hk_ring_finish_take(hand, 1), 1), IS(hk_ring_count(hand, 0), 3);
        IS(hk_ring_try_take_burst(hand, 0, out, 8), 3), IS(out[0], 2);
    }
    IS(hk_hand_close(hand), HK_OK), hk_hand_free(hand);
}

int main(void) {
    const hk_allocator own = {.allocate = allocate, .release = release};
    IS(hk_set_allocator(&own), HK_OK);
    const uint32_t modes[2] = {HK_MULTI, HK_HTS};
    const uint64_t near = UINT64_C(1) << 44, widest = (UINT64_C(1) << 52) - 1000;
    for (int i = 0; i < 4; i++) {
        uint32_t put = modes[i / 2], take = modes[i % 2];
        ends(put, take);
        far(put, take, near - 3), far(put, take, near + 5), far(put, take, widest);
    }
    far(HK_MULTI, HK_MULTI, (UINT64_C(1) << 63) - 1000);
    ends_at_the_end(HK_MULTI), ends_at_the_end(HK_HTS);
    peeks();
    plans();
    return hk_count_up("worn.c");
}
