/* Sides that a hand holds: what each call does, by one thread and beside a model, and threads that hold both sides by
 * turns. */
#include "hokhtura.h"
#include "tests.h"

#include <pthread.h>
#include <sched.h>
#include <stdlib.h>
#include <string.h>

enum { ROOM = 6, WORDS = 100000, STEPS = 200000, MAX_OF_MODEL = 8 };

static hk_hand *open_ring(uint32_t size, uint32_t put, uint32_t take) {
    hk_ring_plan plan = {size, 1, put, take, 0, 0};
    hk_hand *hand = NULL;
    IS(hk_hand_open(&hand, &plan, 1), HK_OK);
    return hand;
}

static const uint64_t words[8] = {100, 101, 102, 103, 104, 105, 106, 107};
static uint64_t out[8];

/* While one hand holds the put side, another one takes what it published, and can't put. */
static void puts_by_one(void) {
    hk_hand *hand = open_ring(ROOM, HK_HTS, HK_MULTI), *other = NULL;
    IS(hk_hand_split(hand, &other), HK_OK);
    IS(hk_ring_peek_put_bulk(hand, 0, 4), 4);
    IS(hk_ring_advance_put(hand, words, 1), 1), IS(hk_ring_try_put_bulk(other, 0, words, 1), HK_E_AGAIN);
    IS(hk_ring_advance_put(hand, words + 1, 2), 2), IS(hk_hand_span(hand), 1);
    IS(hk_ring_count(other, 0), 3), IS(hk_ring_room(hand, 0), 3);
    IS(hk_ring_advance_put(hand, words + 3, 1), HK_E_COUNT), IS(hk_ring_advance_put(hand, NULL, 0), 0);
    IS(hk_ring_try_take_burst(other, 0, out, 8), 3), IS(memcmp(out, words, 3 * sizeof *out), 0);
    IS(hk_ring_try_take_burst(other, 0, out, 8), HK_E_NOROOM);
    IS(hk_ring_finish_put(hand, words + 3, 1), 1), IS(hk_hand_span(hand), 0);
    IS(hk_ring_try_put_bulk(other, 0, words + 4, 1), 1);
    IS(hk_ring_try_take_burst(hand, 0, out, 8), 2), IS(out[0], 103), IS(out[1], 104);
    hk_hand_free(hand), hk_hand_free(other);
}

/* While one hand holds the take side, its words count as queued until it takes them; others can put and not take. */
static void takes_by_one(void) {
    hk_hand *hand = open_ring(ROOM, HK_MULTI, HK_HTS), *other = NULL;
    IS(hk_hand_split(hand, &other), HK_OK);
    IS(hk_ring_hold_take_burst(hand, 0, 4), HK_E_NOROOM);
    IS(hk_ring_try_put_bulk(other, 0, words, 6), 6);
    IS(hk_ring_hold_take_bulk(hand, 0, 7), HK_E_NOROOM), IS(hk_hand_left(hand), 6);
    IS(hk_ring_hold_take_burst(hand, 0, 4), 4), IS(hk_hand_left(hand), 2), IS(hk_hand_span(hand), 3);
    IS(hk_ring_try_take_bulk(other, 0, out, 1), HK_E_AGAIN), IS(hk_ring_try_put_bulk(other, 0, words, 1), HK_E_NOROOM);
    memset(out, 0, sizeof out);
    IS(hk_ring_count(other, 0), 6), IS(hk_ring_room(hand, 0), 0);
    IS(hk_ring_advance_take(hand, out, 2), 2), IS(out[0], 100), IS(out[1], 101), IS(out[2], 0);
    IS(hk_ring_count(hand, 0), 4), IS(hk_ring_room(other, 0), 2);
    IS(hk_ring_try_put_bulk(other, 0, words + 6, 2), 2), IS(hk_ring_try_put_bulk(other, 0, words, 1), HK_E_NOROOM);
    IS(hk_ring_advance_take(hand, out, 2), HK_E_COUNT), IS(hk_ring_release_take(hand, out, 3), HK_E_COUNT);
    IS(hk_hand_close(hand), HK_E_OPEN), IS(hk_ring_finish_take(hand, 0), HK_E_NOTOPEN);
    IS(hk_ring_release_take(hand, out, 1), 1), IS(out[0], 102), IS(hk_hand_span(hand), 0);
    IS(hk_ring_try_take_burst(other, 0, out, 8), 5), IS(memcmp(out, words + 3, 5 * sizeof *out), 0);
    IS(hk_ring_advance_take(hand, out, 1), HK_E_NOTOPEN), IS(hk_ring_release_take(hand, out, 0), HK_E_NOTOPEN);
    hk_hand_free(hand), hk_hand_free(other);
}

/* A side that is multi can't be held, and an open put there isn't advanced. */
static void of_multi_sides(void) {
    hk_hand *hand = open_ring(ROOM, HK_MULTI, HK_MULTI);
    hk_producer *puts = NULL;
    hk_consumer *takes = NULL;
    uint64_t word = 7;
    IS(hk_producer_open(&puts, hand, 0), HK_OK), IS(hk_consumer_open(&takes, hand, 0), HK_OK);
    IS(hk_producer_hold(puts, 4), HK_E_MODE), IS(hk_consumer_hold(takes, 4), HK_E_MODE);
    IS(hk_producer_put(puts, 1), HK_OK), IS(hk_consumer_take(takes, &word), HK_OK), IS(word, 1);
    IS(hk_producer_release(puts), HK_OK), IS(hk_consumer_release(takes), HK_OK);
    hk_hand_free(hand);
}

/* What a hand held when it was freed: what was published before comes out, and the side stays reserved. */
static void freed_while_holding(void) {
    hk_hand *hand = open_ring(ROOM, HK_HTS, HK_HTS), *putting = NULL, *taking = NULL;
    IS(hk_hand_split(hand, &putting), HK_OK), IS(hk_hand_split(hand, &taking), HK_OK);
    IS(hk_ring_peek_put_bulk(putting, 0, 3), 3), IS(hk_ring_advance_put(putting, words, 2), 2);
    hk_hand_free(putting);
    IS(hk_ring_try_put_bulk(hand, 0, words, 1), HK_E_AGAIN);
    IS(hk_ring_hold_take_burst(taking, 0, 8), 2), IS(hk_ring_advance_take(taking, out, 1), 1), IS(out[0], 100);
    hk_hand_free(taking);
    IS(hk_ring_try_take_bulk(hand, 0, out, 1), HK_E_AGAIN);
    IS(hk_hand_close(hand), HK_OK), IS(hk_hand_drain(hand, 0, out, 8), 0);
    hk_hand_free(hand);
}

/* An end that holds its side, by one thread. */
static void ends_that_hold(void) {
    hk_hand *hand = open_ring(ROOM, HK_HTS, HK_HTS), *other = NULL;
    hk_producer *puts = NULL;
    hk_consumer *takes = NULL;
    uint64_t word = 9;
    IS(hk_hand_split(hand, &other), HK_OK);
    IS(hk_producer_open(&puts, hand, 0), HK_OK), IS(hk_consumer_open(&takes, other, 0), HK_OK);
    IS(hk_producer_hold(puts, 0), HK_E_COUNT), IS(hk_producer_hold(puts, HK_MAX_WORDS + 1), HK_E_COUNT);
    IS(hk_producer_hold(puts, 3), HK_OK), IS(hk_hand_span(hand), 0), IS(hk_ring_try_put_bulk(other, 0, words, 1), 1);
    /* The first word reserves, the third one gives up the side. */
    IS(hk_producer_put(puts, 101), HK_OK), IS(hk_hand_span(hand), 1);
    IS(hk_ring_try_put_bulk(other, 0, words, 1), HK_E_AGAIN), IS(hk_ring_try_take_bulk(hand, 0, out, 1), HK_E_OPEN);
    IS(hk_producer_put(puts, 102), HK_OK), IS(hk_hand_span(hand), 1), IS(hk_producer_put(puts, 103), HK_OK);
    IS(hk_hand_span(hand), 0), IS(hk_ring_count(hand, 0), 4);
    /* The next one reserves again, as many as there is room for. */
    IS(hk_producer_put(puts, 104), HK_OK), IS(hk_hand_span(hand), 1), IS(hk_producer_put(puts, 105), HK_OK);
    IS(hk_hand_span(hand), 0), IS(hk_producer_put(puts, 106), HK_E_NOROOM), IS(hk_hand_span(hand), 0);
    IS(hk_consumer_hold(takes, 4), HK_OK);
    for (uint64_t i = 100; i < 103; i++) IS(hk_consumer_take(takes, &word), HK_OK), IS(word, i);
    IS(hk_hand_span(other), 3), IS(hk_ring_hold_take_burst(hand, 0, 1), HK_E_AGAIN);
    IS(hk_consumer_release(takes), HK_OK), IS(hk_hand_span(other), 0), IS(hk_ring_count(hand, 0), 3);
    /* Each word is a call of its own again. */
    IS(hk_consumer_take(takes, &word), HK_OK), IS(word, 103), IS(hk_hand_span(other), 0);
    IS(hk_producer_put(puts, 107), HK_OK), IS(hk_hand_span(hand), 1);
    hk_producer_free(puts), hk_consumer_free(takes);
    IS(hk_hand_span(hand), 0), IS(hk_producer_put(puts, 1), HK_E_NOTOPEN);
    IS(hk_consumer_take(takes, &word), HK_E_NOTOPEN);
    IS(hk_ring_try_take_burst(other, 0, out, 8), 3), IS(out[0], 104), IS(out[1], 105), IS(out[2], 107);
    hk_hand_free(hand), hk_hand_free(other);
}

/* A span that the hand has open elsewhere isn't the end's, and giving the end up leaves it open. */
static void other_spans(void) {
    hk_ring_plan plans[2] = {{ROOM, 1, HK_HTS, HK_HTS, 0, 0}, {ROOM, 1, HK_HTS, HK_HTS, 0, 0}};
    hk_hand *hand = NULL;
    hk_producer *puts = NULL;
    hk_consumer *takes = NULL;
    uint64_t word = 9;
    IS(hk_hand_open(&hand, plans, 2), HK_OK), IS(hk_ring_try_put_bulk(hand, 1, words, 2), 2);
    IS(hk_producer_open(&puts, hand, 0), HK_OK), IS(hk_consumer_open(&takes, hand, 0), HK_OK);
    IS(hk_producer_hold(puts, 2), HK_OK), IS(hk_consumer_hold(takes, 2), HK_OK);
    IS(hk_ring_peek_put_bulk(hand, 1, 2), 2), IS(hk_producer_put(puts, 1), HK_E_OPEN);
    IS(hk_consumer_take(takes, &word), HK_E_OPEN), IS(hk_producer_release(puts), HK_OK), IS(hk_hand_span(hand), 1);
    IS(hk_ring_finish_put(hand, words + 2, 1), 1), IS(hk_ring_hold_take_bulk(hand, 1, 3), 3);
    IS(hk_consumer_take(takes, &word), HK_E_OPEN), IS(word, 9);
    hk_consumer_free(takes);
    IS(hk_hand_span(hand), 3), IS(hk_ring_release_take(hand, out, 3), 3), IS(out[2], 102);
    hk_hand_free(hand);
}

/* A span of its side that another call of its hand opened is used, and given up, by an end that holds the side, but for
 * that of a peek of a take. */
static void spans_of_its_side(void) {
    hk_hand *hand = open_ring(ROOM, HK_HTS, HK_HTS);
    hk_producer *puts = NULL;
    hk_consumer *takes = NULL;
    uint64_t word = 9;
    IS(hk_producer_open(&puts, hand, 0), HK_OK), IS(hk_consumer_open(&takes, hand, 0), HK_OK);
    IS(hk_ring_peek_put_bulk(hand, 0, 3), 3), IS(hk_producer_put(puts, 100), HK_E_OPEN);
    IS(hk_producer_release(puts), HK_OK), IS(hk_hand_span(hand), 1);
    IS(hk_producer_hold(puts, 1), HK_OK), IS(hk_producer_put(puts, 100), HK_OK), IS(hk_producer_put(puts, 101), HK_OK);
    IS(hk_hand_span(hand), 1), IS(hk_producer_release(puts), HK_OK), IS(hk_hand_span(hand), 0);
    IS(hk_ring_count(hand, 0), 2), IS(hk_ring_peek_take_bulk(hand, 0, out, 1), 1);
    IS(hk_consumer_hold(takes, 1), HK_OK), IS(hk_consumer_take(takes, &word), HK_E_OPEN), IS(word, 9);
    IS(hk_consumer_release(takes), HK_OK), IS(hk_hand_span(hand), 2), IS(hk_ring_finish_take(hand, 0), 0);
    IS(hk_ring_hold_take_bulk(hand, 0, 2), 2), IS(hk_consumer_hold(takes, 1), HK_OK);
    IS(hk_consumer_take(takes, &word), HK_OK), IS(word, 100), IS(hk_hand_span(hand), 3);
    IS(hk_consumer_release(takes), HK_OK), IS(hk_hand_span(hand), 0), IS(hk_ring_count(hand, 0), 1);
    hk_hand_free(hand);
}

/* Two ends and a list that says what has to be on the ring: random puts, takes, holds and releases, rings of 1 to 7
 * words. */
static void beside_a_model(unsigned seed) {
    uint64_t queued[MAX_OF_MODEL], next = 1, word;
    size_t count = 0, room = 1 + seed % 7;
    hk_hand *hand = open_ring((uint32_t)room, HK_HTS, HK_HTS), *other = NULL;
    IS(hk_hand_split(hand, &other), HK_OK);
    hk_producer *put = NULL;
    hk_consumer *take = NULL;
    IS(hk_producer_open(&put, hand, 0), HK_OK), IS(hk_consumer_open(&take, other, 0), HK_OK);
    int64_t wrong = 0;
    srand(seed);
    for (int step = 0; step < STEPS; step++) {
        switch (rand() % 16) {
        case 0: wrong += hk_producer_release(put) != HK_OK; break;
        case 1: wrong += hk_consumer_release(take) != HK_OK; break;
        case 2: case 3: wrong += hk_producer_hold(put, 1 + seed % 5) != HK_OK; break;
        case 4: case 5: wrong += hk_consumer_hold(take, 1 + seed % 3) != HK_OK; break;
        case 6: case 7: case 8: case 9: case 10:
            word = next;
            if (hk_producer_put(put, word) != (count < room ? HK_OK : HK_E_NOROOM)) wrong++;
            else if (count < room) queued[count++] = next++;
            break;
        default:
            word = 0;
            if (hk_consumer_take(take, &word) != (count ? HK_OK : HK_E_NOROOM)) wrong++;
            else if (word != (count ? queued[0] : 0)) wrong++;
            else if (count) memmove(queued, queued + 1, --count * sizeof *queued);
        }
    }
    IS(wrong, 0);
    hk_hand_free(hand), hk_hand_free(other);
}

/* Threads that hold a side for some words each, and give it back. */
struct job {
    hk_hand *hand;
    uint64_t first, sum;
};

static void *puts_words(void *at) {
    struct job *job = at;
    hk_producer *end = NULL;
    if (hk_producer_open(&end, job->hand, 0) != HK_OK || hk_producer_hold(end, 7) != HK_OK) return at;
    for (uint64_t i = 0; i < WORDS; i++) {
        while (hk_producer_put(end, job->first + i) != HK_OK) sched_yield();
        if (i % 5 == 0 && (hk_producer_release(end) != HK_OK || hk_producer_hold(end, 7) != HK_OK)) return at;
    }
    hk_producer_free(end);
    return NULL;
}

/* Both takers see the words of each putter in their order. */
static void *takes_words(void *at) {
    struct job *job = at;
    hk_consumer *end = NULL;
    if (hk_consumer_open(&end, job->hand, 0) != HK_OK || hk_consumer_hold(end, 5) != HK_OK) return at;
    uint64_t last[2] = {0, 0}, word;
    for (uint64_t i = 0; i < WORDS; i++) {
        while (hk_consumer_take(end, &word) != HK_OK) sched_yield();
        size_t from = word > WORDS;
        if (word <= last[from]) return at;
        last[from] = word;
        job->sum += word;
        if (i % 3 == 0 && (hk_consumer_release(end) != HK_OK || hk_consumer_hold(end, 5) != HK_OK)) return at;
    }
    hk_consumer_free(end);
    return NULL;
}

static void threads(void) {
    struct job jobs[4] = {{open_ring(20, HK_HTS, HK_HTS), 1, 0}, {NULL, 1 + WORDS, 0}, {NULL, 0, 0}, {NULL, 0, 0}};
    pthread_t made[4];
    void *failed;
    for (int i = 1; i < 4; i++) IS(hk_hand_split(jobs[0].hand, &jobs[i].hand), HK_OK);
    for (int i = 0; i < 4; i++) IS(pthread_create(&made[i], NULL, i < 2 ? puts_words : takes_words, &jobs[i]), 0);
    for (int i = 0; i < 4; i++) IS(pthread_join(made[i], &failed), 0), IS(failed == NULL, 1);
    IS(jobs[2].sum + jobs[3].sum, (uint64_t)WORDS * (2 * WORDS + 1));
    for (int i = 0; i < 4; i++) hk_hand_free(jobs[i].hand);
}

int main(void) {
    puts_by_one();
    takes_by_one();
    of_multi_sides();
    ends_that_hold();
    other_spans();
    spans_of_its_side();
    freed_while_holding();
    for (unsigned seed = 0; seed < 21; seed++) beside_a_model(seed);
    threads();
    return hk_count_up("holds");
}
