/* Each call and each code that one thread can meet. */
#include "tests.h"

#include <string.h>

static uint64_t words[HK_MAX_WORDS + 1];
static uint64_t out[HK_MAX_WORDS + 1];

static void mark(void) {
    memset(out, 0xff, sizeof out);
}

static void plans(uint32_t put, uint32_t take) {
    hk_hand *hand = NULL;
    hk_ring_plan good = {8, 0, put, take, 0, 0};
    hk_ring_plan bad[] = {
        {6, 0, put, take, 0, 0}, {1, 0, put, take, 0, 0}, {1u << 21, 0, put, take, 0, 0}, {0, 1, put, take, 0, 0},
        {1u << 20, 1, put, take, 0, 0}, {8, 0, 2, take, 0, 0}, {8, 0, put, 2, 0, 0}, {8, 2, put, take, 0, 0},
    };
    IS(hk_hand_open(NULL, &good, 1), HK_E_NULL);
    IS(hk_hand_open(&hand, NULL, 1), HK_E_NULL);
    IS(hk_hand_open(&hand, &good, 0), HK_E_PLAN);
    IS(hk_hand_open(&hand, &good, HK_MAX_RINGS + 1), HK_E_PLAN);
    for (size_t i = 0; i < sizeof bad / sizeof *bad; i++) IS(hk_hand_open(&hand, &bad[i], 1), HK_E_PLAN);
    IS(hand == NULL, 1);
    hk_ring_plan many[HK_MAX_RINGS];
    for (size_t i = 0; i < HK_MAX_RINGS; i++) many[i] = good;
    IS(hk_hand_open(&hand, many, HK_MAX_RINGS), HK_OK);
    IS(hk_ring_try_put_bulk(hand, HK_MAX_RINGS - 1, words, 7), 7);
    IS(hk_ring_count(hand, HK_MAX_RINGS - 1), 7);
    IS(hk_ring_count(hand, 0), 0);
    hk_hand_free(hand);
    hk_hand_free(NULL);
}

static void refusals(hk_hand *hand, uint32_t put, uint32_t take) {
    IS(hk_ring_try_put_bulk(NULL, 0, words, 1), HK_E_NULL);
    IS(hk_ring_try_put_bulk(hand, 0, NULL, 1), HK_E_NULL);
    IS(hk_ring_try_put_bulk(hand, 2, words, 1), HK_E_RING);
    IS(hk_ring_try_put_bulk(hand, SIZE_MAX, words, 1), HK_E_RING);
    IS(hk_ring_try_put_bulk(hand, 0, words, 0), HK_E_COUNT);
    IS(hk_ring_try_put_bulk(hand, 0, NULL, 0), HK_E_COUNT);
    IS(hk_ring_try_put_bulk(hand, 0, words, HK_MAX_WORDS + 1), put == HK_HTS ? HK_E_COUNT : HK_E_NOROOM);
    IS(hk_ring_try_put_bulk(hand, 0, words, HK_MAX_WORDS_MULTI + 1), HK_E_COUNT);
    IS(hk_ring_try_put_bulk(hand, 0, words, SIZE_MAX), HK_E_COUNT);
    IS(hk_ring_try_take_bulk(NULL, 0, out, 1), HK_E_NULL);
    IS(hk_ring_try_take_bulk(hand, 0, NULL, 1), HK_E_NULL);
    IS(hk_ring_try_take_bulk(hand, 2, out, 1), HK_E_RING);
    IS(hk_ring_try_take_bulk(hand, 0, out, 0), HK_E_COUNT);
    IS(hk_ring_try_take_burst(hand, 0, out, HK_MAX_WORDS + 1), take == HK_HTS ? HK_E_COUNT : HK_E_NOROOM);
    IS(hk_ring_try_take_burst(hand, 0, out, HK_MAX_WORDS_MULTI + 1), HK_E_COUNT);
    IS(hk_ring_finish_put(hand, words, 1), HK_E_NOTOPEN);
    IS(hk_ring_finish_take(hand, 1), HK_E_NOTOPEN);
    IS(hk_hand_drain(hand, 0, out, 1), HK_E_KIND);
    IS(hk_ring_count(hand, 2), HK_E_RING);
    IS(hk_ring_room(NULL, 0), HK_E_NULL);
    IS(hk_hand_span(hand), 0);
    IS(hk_hand_span(NULL), HK_E_NULL);
    IS(hk_hand_left(NULL), HK_E_NULL);
    IS(hk_hand_split(hand, NULL), HK_E_NULL);
    IS(hk_hand_close(NULL), HK_E_NULL);
}

static void puts_and_takes(hk_hand *hand) {
    IS(hk_ring_try_take_bulk(hand, 0, out, 1), HK_E_NOROOM);
    IS(hk_hand_left(hand), 0);
    IS(hk_ring_count(hand, 0), 0);
    IS(hk_ring_room(hand, 0), 6);
    IS(hk_ring_room(hand, 1), 7);
    IS(hk_ring_try_put_bulk(hand, 0, words, 7), HK_E_NOROOM);
    IS(hk_hand_left(hand), 6);
    IS(hk_ring_try_put_bulk(hand, 0, words, 4), 4);
    IS(hk_hand_left(hand), 2);
    IS(hk_ring_try_put_burst(hand, 0, words + 4, 9), 2);
    IS(hk_ring_try_put_burst(hand, 0, words, 1), HK_E_NOROOM);
    IS(hk_ring_count(hand, 0), 6);
    IS(hk_ring_room(hand, 0), 0);
    mark();
    IS(hk_ring_try_take_bulk(hand, 0, out, 7), HK_E_NOROOM);
    IS(hk_hand_left(hand), 6);
    IS(out[0], -1);
    IS(hk_ring_try_take_bulk(hand, 0, out, 2), 2);
    IS(hk_hand_left(hand), 4);
    IS(out[0], 100), IS(out[1], 101), IS(out[2], -1);
    IS(hk_ring_try_take_burst(hand, 0, out, 16), 4);
    IS(out[0], 102), IS(out[3], 105), IS(out[4], -1);
    for (int turn = 0; turn < 50; turn++) {
        IS(hk_ring_try_put_bulk(hand, 1, words, 5), 5);
        IS(hk_ring_try_take_bulk(hand, 1, out, 5), 5);
        for (int i = 0; i < 5; i++) IS(out[i], 100 + i);
    }
}

static void peeks_of_puts(hk_hand *hand, uint32_t mode) {
    if (mode == HK_MULTI) {
        IS(hk_ring_peek_put_bulk(hand, 0, 1), HK_E_MODE);
        IS(hk_ring_try_put_bulk(hand, 0, words, 3), 3);
        return;
    }
    IS(hk_ring_peek_put_bulk(hand, 2, 1), HK_E_RING);
    IS(hk_ring_peek_put_bulk(hand, 0, 0), HK_E_COUNT);
    IS(hk_ring_peek_put_bulk(hand, 0, 7), HK_E_NOROOM);
    IS(hk_ring_peek_put_burst(hand, 0, 9), 6);
    IS(hk_hand_span(hand), 1);
    IS(hk_ring_try_put_bulk(hand, 0, words, 1), HK_E_OPEN);
    IS(hk_ring_try_take_bulk(hand, 0, words, 1), HK_E_OPEN);
    IS(hk_ring_peek_put_bulk(hand, 0, 1), HK_E_OPEN);
    IS(hk_ring_count(hand, 0), 0), IS(hk_ring_room(hand, 0), 6);
    IS(hk_hand_close(hand), HK_E_OPEN);
    IS(hk_ring_finish_take(hand, 0), HK_E_NOTOPEN);
    IS(hk_ring_finish_put(hand, words, 7), HK_E_COUNT);
    IS(hk_hand_span(hand), 1);
    IS(hk_ring_finish_put(hand, words, 3), 3);
    IS(hk_hand_span(hand), 0);
    IS(hk_ring_count(hand, 0), 3);
    IS(hk_ring_peek_put_bulk(hand, 0, 2), 2);
    IS(hk_ring_finish_put(hand, NULL, 0), 0);
    IS(hk_ring_count(hand, 0), 3);
}

static void peeks_of_takes(hk_hand *hand, uint32_t mode) {
    if (mode == HK_MULTI) {
        IS(hk_ring_peek_take_bulk(hand, 0, out, 1), HK_E_MODE);
        IS(hk_ring_try_take_burst(hand, 0, out, 1), 1);
        return;
    }
    hk_hand *other = NULL;
    mark();
    IS(hk_ring_peek_take_bulk(hand, 0, out, 2), 2);
    IS(hk_hand_span(hand), 2);
    IS(out[0], 100), IS(out[1], 101), IS(out[2], -1);
    IS(hk_hand_split(hand, &other), HK_E_OPEN);
    IS(hk_ring_finish_put(hand, words, 1), HK_E_NOTOPEN);
    IS(hk_ring_finish_take(hand, 3), HK_E_COUNT);
    IS(hk_ring_finish_take(hand, 1), 1);
    IS(hk_ring_peek_take_burst(hand, 0, out, 16), 2);
    IS(out[0], 101), IS(out[1], 102);
    IS(hk_ring_finish_take(hand, 0), 0);
    IS(hk_hand_split(hand, &other), HK_OK);
    IS(hk_ring_peek_take_burst(hand, 0, out, 1), 1);
    IS(hk_ring_try_take_burst(other, 0, out, 1), HK_E_AGAIN);
    IS(hk_ring_count(other, 0), 2), IS(hk_ring_room(other, 0), 4);
    IS(hk_ring_try_put_bulk(other, 0, words, 1), 1);
    IS(hk_ring_count(hand, 0), 3), IS(hk_ring_room(hand, 0), 3);
    IS(hk_ring_finish_take(hand, 0), 0);
    IS(hk_ring_try_take_burst(other, 0, out, 16), 3);
    IS(out[0], 101), IS(out[1], 102), IS(out[2], 100);
    IS(hk_ring_try_put_bulk(hand, 0, words + 1, 2), 2);
    IS(hk_hand_close(hand), HK_E_SHARED);
    hk_hand_free(other);
}

static void the_end(hk_hand *hand) {
    IS(hk_hand_close(hand), HK_OK);
    IS(hk_ring_try_put_bulk(hand, 0, words, 1), HK_E_KIND);
    IS(hk_hand_close(hand), HK_E_KIND);
    IS(hk_hand_span(hand), HK_E_KIND);
    IS(hk_hand_drain(hand, 2, out, 16), HK_E_RING);
    IS(hk_hand_drain(hand, 0, out, HK_MAX_WORDS + 1), HK_E_COUNT);
    IS(hk_hand_drain(hand, 1, out, 16), 0);
    mark();
    IS(hk_hand_drain(hand, 0, out, 1), 1);
    IS(out[0], 101), IS(out[1], -1);
    IS(hk_hand_drain(hand, 0, out, 16), 1);
    IS(out[0], 102), IS(out[1], -1);
    IS(hk_hand_drain(hand, 0, out, 16), 0);
}

static void rings(uint32_t put, uint32_t take) {
    hk_hand *hand = NULL;
    hk_ring_plan two[2] = {{6, 1, put, take, 0, 0}, {8, 0, put, take, 0, 0}};
    plans(put, take);
    IS(hk_hand_open(&hand, two, 2), HK_OK);
    refusals(hand, put, take);
    puts_and_takes(hand);
    peeks_of_puts(hand, put);
    peeks_of_takes(hand, take);
    the_end(hand);
    hk_hand_free(hand);
}

/* On multi sides a call moves up to what the ring holds; on a head/tail-sync side HK_MAX_WORDS words. */
static void calls_of_a_ring(void) {
    enum { HOLDS = 3 * HK_MAX_WORDS };
    static uint64_t in[HOLDS + 1], got[HOLDS + 1];
    hk_hand *hand = NULL;
    hk_ring_plan plans[2] = {{HOLDS, 1, HK_MULTI, HK_MULTI, 0, 0}, {HOLDS, 1, HK_HTS, HK_MULTI, 0, 0}};
    for (uint64_t i = 0; i <= HOLDS; i++) in[i] = i * 0x9e3779b97f4a7c15u;
    IS(hk_hand_open(&hand, plans, 2), HK_OK);
    for (int turn = 0; turn < 3; turn++) {
        memset(got, 0xff, sizeof got);
        IS(hk_ring_try_put_bulk(hand, 0, in, HOLDS + 1), HK_E_NOROOM), IS(hk_hand_left(hand), HOLDS);
        IS(hk_ring_try_put_bulk(hand, 0, in, HOLDS - 7), HOLDS - 7);
        IS(hk_ring_try_put_burst(hand, 0, in + HOLDS - 7, 8), 7), IS(hk_ring_room(hand, 0), 0);
        IS(hk_ring_try_take_bulk(hand, 0, got, HOLDS + 1), HK_E_NOROOM), IS(got[0], -1);
        IS(hk_ring_try_take_burst(hand, 0, got, HOLDS + 1), HOLDS);
        IS(memcmp(got, in, HOLDS * sizeof *in), 0), IS(got[HOLDS], -1);
        IS(hk_ring_try_put_bulk(hand, 0, in, 5), 5), IS(hk_ring_try_take_bulk(hand, 0, got, 5), 5);
    }
    IS(hk_ring_try_put_burst(hand, 1, in, HK_MAX_WORDS + 1), HK_E_COUNT);
    for (int turn = 0; turn < 3; turn++)
        IS(hk_ring_try_put_bulk(hand, 1, in + turn * HK_MAX_WORDS, HK_MAX_WORDS), HK_MAX_WORDS);
    IS(hk_ring_try_take_bulk(hand, 1, got, HOLDS), HOLDS), IS(memcmp(got, in, HOLDS * sizeof *in), 0);
    hk_hand_free(hand);
}

/* The longest call of a head/tail-sync side, around the end of the ring; words of every bit. */
static void long_calls(void) {
    hk_hand *hand = NULL;
    hk_ring_plan plan = {6000, 1, HK_MULTI, HK_MULTI, 0, 0};
    IS(hk_hand_open(&hand, &plan, 1), HK_OK);
    for (uint64_t i = 0; i <= HK_MAX_WORDS; i++) words[i] = i * 0x9e3779b97f4a7c15u;
    for (int turn = 0; turn < 5; turn++) {
        mark();
        IS(hk_ring_try_put_bulk(hand, 0, words, HK_MAX_WORDS), HK_MAX_WORDS);
        IS(hk_ring_try_take_burst(hand, 0, out, HK_MAX_WORDS), HK_MAX_WORDS);
        IS(memcmp(out, words, HK_MAX_WORDS * sizeof *words), 0);
        IS(out[HK_MAX_WORDS], -1);
    }
    IS(hk_ring_try_put_bulk(hand, 0, words, HK_MAX_WORDS), HK_MAX_WORDS);
    IS(hk_ring_try_put_burst(hand, 0, words, HK_MAX_WORDS), 6000 - HK_MAX_WORDS);
    hk_hand_free(hand);
}

/* What another hand finds after a hand with an open put was freed: the side stays reserved, and the words that were put
 * before come out alone. */
static void freed_while_putting(void) {
    hk_hand *hand = NULL, *freed = NULL;
    hk_ring_plan plan = {8, 0, HK_HTS, HK_MULTI, 0, 0};
    IS(hk_hand_open(&hand, &plan, 1), HK_OK), IS(hk_hand_split(hand, &freed), HK_OK);
    IS(hk_ring_try_put_bulk(hand, 0, words, 2), 2);
    IS(hk_ring_peek_put_bulk(freed, 0, 3), 3);
    hk_hand_free(freed);
    for (int turn = 0; turn < 2; turn++) {
        IS(hk_ring_try_put_bulk(hand, 0, words, 1), HK_E_AGAIN);
        IS(hk_ring_try_put_burst(hand, 0, words, 1), HK_E_AGAIN);
        IS(hk_ring_peek_put_bulk(hand, 0, 1), HK_E_AGAIN), IS(hk_ring_peek_put_burst(hand, 0, 1), HK_E_AGAIN);
        IS(hk_ring_count(hand, 0), 2), IS(hk_ring_room(hand, 0), 5);
        IS(hk_ring_finish_put(hand, words, 1), HK_E_NOTOPEN);
    }
    mark();
    IS(hk_ring_try_take_burst(hand, 0, out, 7), 2);
    IS(out[0], 100), IS(out[1], 101), IS(out[2], -1);
    IS(hk_ring_try_take_burst(hand, 0, out, 7), HK_E_NOROOM), IS(hk_ring_try_put_bulk(hand, 0, words, 1), HK_E_AGAIN);
    IS(hk_ring_count(hand, 0), 0), IS(hk_ring_room(hand, 0), 7);
    IS(hk_hand_close(hand), HK_OK), IS(hk_hand_drain(hand, 0, out, 7), 0);
    hk_hand_free(hand);
}

/* The same of an open take: the words that it showed come out no more, also when the rings are closed. */
static void freed_while_taking(void) {
    hk_hand *hand = NULL, *freed = NULL;
    hk_ring_plan plan = {8, 0, HK_MULTI, HK_HTS, 0, 0};
    IS(hk_hand_open(&hand, &plan, 1), HK_OK), IS(hk_hand_split(hand, &freed), HK_OK);
    IS(hk_ring_try_put_bulk(hand, 0, words, 3), 3);
    IS(hk_ring_peek_take_bulk(freed, 0, out, 2), 2);
    hk_hand_free(freed);
    for (int turn = 0; turn < 2; turn++) {
        IS(hk_ring_try_take_bulk(hand, 0, out, 1), HK_E_AGAIN), IS(hk_ring_try_take_burst(hand, 0, out, 1), HK_E_AGAIN);
        IS(hk_ring_peek_take_bulk(hand, 0, out, 1), HK_E_AGAIN);
        IS(hk_ring_count(hand, 0), 3), IS(hk_ring_room(hand, 0), 4);
        IS(hk_ring_finish_take(hand, 1), HK_E_NOTOPEN);
    }
    IS(hk_ring_try_put_burst(hand, 0, words + 3, 7), 4), IS(hk_ring_try_put_bulk(hand, 0, words, 1), HK_E_NOROOM);
    IS(hk_ring_count(hand, 0), 7), IS(hk_ring_room(hand, 0), 0);
    IS(hk_hand_close(hand), HK_OK), IS(hk_hand_drain(hand, 0, out, 16), 5);
    for (int i = 0; i < 5; i++) IS(out[i], 102 + i);
    hk_hand_free(hand);
}

static void routes(void) {
    hk_routes *table = NULL, *second = NULL;
    IS(hk_routes_open(NULL, 16, 1), HK_E_NULL);
    IS(hk_routes_open(&table, 17, 1), HK_E_PLAN);
    IS(hk_routes_open(&table, 16, 4), HK_OK);
    IS(hk_routes_lookup(NULL, 1), HK_E_NULL);
    IS(hk_routes_lookup(table, 0x0a000001), HK_E_NOROUTE);
    IS(hk_routes_add(table, 0x0a000000, 0, 1), HK_E_DEPTH);
    IS(hk_routes_add(table, 0x0a000000, 33, 1), HK_E_DEPTH);
    IS(hk_routes_add(table, 0x0a000000, 256 + 8, 1), HK_E_DEPTH);
    IS(hk_routes_add(table, 0x0a000000, 8, 1u << 24), HK_E_HOP);
    IS(hk_routes_add(table, 0x0a000000, 8, 7), HK_OK);
    IS(hk_routes_add(table, 0x0a000000, 30, 9), HK_OK);
    IS(hk_routes_add(table, 0x0c000000, 8, (1u << 24) - 1), HK_OK);
    IS(hk_routes_lookup(table, 0x0a000001), 9);
    IS(hk_routes_lookup(table, 0x0a000005), 7);
    IS(hk_routes_lookup(table, 0x0c0d0e0f), (1 << 24) - 1);
    IS(hk_routes_share(table, NULL), HK_E_NULL);
    IS(hk_routes_share(table, &second), HK_OK);
    IS(hk_routes_lookup(second, 0x0a000001), 9);
    IS(hk_routes_add(table, 0x0b000000, 8, 8), HK_E_SHARED);
    IS(hk_routes_remove(second, 0x0a000000, 8), HK_E_SHARED);
    uint32_t addresses[3] = {0x0a000001, 0x0b000000, 0x0affffff}, hops[4] = {1, 2, 3, 4};
    IS(hk_routes_lookup_bulk(second, addresses, NULL, 3), HK_E_NULL);
    IS(hk_routes_lookup_bulk(second, addresses, hops, SIZE_MAX), HK_E_COUNT);
    IS(hk_routes_lookup_bulk(second, NULL, NULL, 0), HK_OK);
    IS(hk_routes_lookup_bulk(second, addresses, hops, 3), HK_OK);
    IS(hops[0], 9), IS(hops[1], HK_NO_HOP), IS(hops[2], 7), IS(hops[3], 4);
    hk_routes_free(second);
    IS(hk_routes_remove(table, 0x0a000000, 33), HK_E_DEPTH);
    IS(hk_routes_remove(table, 0x0a000000, 30), HK_OK);
    IS(hk_routes_remove(table, 0x0a000000, 30), HK_E_NOROUTE);
    IS(hk_routes_lookup(table, 0x0a000001), 7);
    for (uint32_t i = 0; i < 4; i++) IS(hk_routes_add(table, i << 16, 24, i), HK_OK);
    IS(hk_routes_add(table, 4u << 16, 24, 5), HK_E_GROUPS);
    IS(hk_hand_close((hk_hand *)table), HK_E_KIND);
    IS(hk_reorder_skip((hk_reorder *)table, 1), HK_E_KIND);
    hk_routes_free(table);
    hk_routes_free(NULL);
}

static void reorder(void) {
    hk_reorder *window = NULL;
    uint64_t word = 0, next = 0;
    IS(hk_reorder_open(NULL, 1), HK_E_NULL);
    IS(hk_reorder_open(&window, 0), HK_E_PLAN);
    IS(hk_reorder_open(&window, 65537), HK_E_PLAN);
    IS(hk_reorder_open(&window, 4), HK_OK);
    IS(hk_reorder_pop(window, &word), HK_E_NOTHING);
    mark();
    IS(hk_reorder_drain(window, out, 8), HK_E_NOTHING), IS(out[0], -1);
    IS(hk_reorder_drain(window, out, 0), 0);
    IS(hk_reorder_insert(window, 1, 11), HK_OK);
    IS(hk_reorder_insert(window, 1, 12), HK_E_DOUBLE);
    IS(hk_reorder_insert(window, 4, 14), HK_E_EARLY);
    IS(hk_reorder_insert(window, UINT64_MAX, 14), HK_E_EARLY);
    IS(hk_reorder_pop(window, &word), HK_E_NOTHING);
    IS(hk_reorder_insert(window, 0, 10), HK_OK);
    IS(hk_reorder_pop(window, NULL), HK_E_NULL);
    IS(hk_reorder_pop(window, &word), HK_OK), IS(word, 10);
    IS(hk_reorder_insert(window, 0, 10), HK_E_LATE);
    IS(hk_reorder_insert(window, 2, 12), HK_OK);
    IS(hk_reorder_insert(window, 4, 14), HK_OK);
    mark();
    IS(hk_reorder_drain(window, out, HK_MAX_WORDS + 1), HK_E_COUNT);
    IS(hk_reorder_drain(window, out, 8), 2), IS(out[0], 11), IS(out[1], 12), IS(out[2], -1);
    IS(hk_reorder_next(window, &next), HK_OK), IS(next, 3);
    IS(hk_reorder_skip(window, 9), HK_OK);
    IS(hk_reorder_next(window, &next), HK_OK), IS(next, 4);
    IS(hk_reorder_pop(window, &word), HK_OK), IS(word, 14);
    IS(hk_routes_lookup((hk_routes *)window, 1), HK_E_KIND);
    IS(hk_reorder_next(NULL, &next), HK_E_NULL);
    hk_reorder_free(window);
    hk_reorder_free(NULL);
}

static void texts(void) {
    IS(hk_version(), HK_VERSION), IS(HK_VERSION, HK_VERSION_MAJOR * 10000 + HK_VERSION_MINOR * 100 + HK_VERSION_PATCH);
    IS(strcmp(hk_code_name(HK_E_NOROOM), "HK_E_NOROOM"), 0);
    IS(strcmp(hk_code_name(5), "HK_OK"), 0);
    IS(strcmp(hk_strerror(0), "done"), 0);
    for (int64_t code = 1; code > -50; code--) IS(hk_strerror(code) != NULL && hk_code_name(code) != NULL, 1);
}

int main(void) {
    for (uint64_t i = 0; i <= HK_MAX_WORDS; i++) words[i] = 100 + i;
    for (uint32_t pair = 0; pair < 4; pair++) rings(pair & 1, pair >> 1);
    freed_while_putting();
    freed_while_taking();
    calls_of_a_ring();
    long_calls();
    routes();
    reorder();
    texts();
    return hk_count_up("calls");
}
