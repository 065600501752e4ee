/* Ends that don't hold their sides: what each call does, beside a model, and by threads. holds.c has the others. */
#include "hokhtura.h"
#include "tests.h"

#include <pthread.h>
#include <sched.h>
#include <stdlib.h>
#include <string.h>

enum { RINGS = 3, ROOM = 5, WORDS = 100000, STEPS = 200000, TURNS = 100000 };

static hk_hand *open_rings(uint32_t mode) {
    hk_ring_plan plans[RINGS];
    hk_hand *hand = NULL;
    for (int i = 0; i < RINGS; i++) plans[i] = (hk_ring_plan){ROOM, 1, mode, mode, 0, 0};
    IS(hk_hand_open(&hand, plans, RINGS), HK_OK);
    return hand;
}

/* An end stays on its ring, whatever other calls of its hand do. */
static void one_by_one(uint32_t mode) {
    hk_hand *hand = open_rings(mode);
    hk_producer *puts = NULL, *more = NULL;
    hk_consumer *takes = NULL;
    uint64_t word = 9;
    IS(hk_producer_open(&puts, hand, RINGS), HK_E_RING), IS(puts == NULL, 1);
    IS(hk_producer_open(&puts, hand, 1), HK_OK), IS(hk_producer_open(&more, hand, 1), HK_E_OPEN), IS(more == NULL, 1);
    IS(hk_consumer_open(&takes, hand, 1), HK_OK), IS(hk_consumer_take(takes, &word), HK_E_NOROOM), IS(word, 9);
    IS(hk_producer_put(puts, 10), HK_OK), IS(hk_ring_try_put_one(hand, 0, 20), 1), IS(hk_producer_put(puts, 11), HK_OK);
    IS(hk_ring_count(hand, 0), 1), IS(hk_ring_count(hand, 1), 2), IS(hk_ring_try_put_one(hand, 1, 12), 1);
    IS(hk_producer_put(puts, 16), HK_OK), IS(hk_producer_put(puts, 17), HK_OK), IS(hk_ring_count(hand, 1), ROOM);
    IS(hk_producer_put(puts, 13), HK_E_NOROOM), IS(hk_consumer_take(takes, &word), HK_OK), IS(word, 10);
    IS(hk_ring_try_take_one(hand, 0, &word), 1), IS(word, 20), IS(hk_consumer_take(takes, &word), HK_OK), IS(word, 11);
    IS(hk_hand_left(hand), 0);
    IS(hk_producer_finish(puts, 1), HK_E_NOTOPEN), IS(hk_consumer_finish(takes), HK_E_NOTOPEN);
    IS(hk_producer_release(puts), HK_OK), IS(hk_consumer_release(takes), HK_OK);
    hk_producer_free(puts);
    IS(hk_producer_put(puts, 14), HK_E_NOTOPEN), IS(hk_producer_hold(puts, 1), HK_E_NOTOPEN);
    IS(hk_producer_release(puts), HK_E_NOTOPEN), IS(hk_producer_open(&more, hand, 2), HK_OK);
    IS(hk_producer_put(more, 15), HK_OK), IS(hk_ring_count(hand, 2), 1);
    IS(hk_consumer_take(takes, &word), HK_OK), IS(word, 12);
    hk_consumer_free(takes), hk_consumer_free(takes), hk_producer_free(NULL), hk_consumer_free(NULL);
    IS(hk_consumer_take(takes, &word), HK_E_NOTOPEN), IS(word, 12);
    hk_hand_free(hand);
}

/* An open span of the hand, which isn't the end's. */
static void busy(void) {
    hk_hand *hand = open_rings(HK_HTS);
    hk_producer *puts = NULL;
    hk_consumer *takes = NULL;
    uint64_t word = 9;
    IS(hk_producer_open(&puts, hand, 0), HK_OK), IS(hk_consumer_open(&takes, hand, 0), HK_OK);
    IS(hk_ring_peek_put_bulk(hand, 1, 2), 2);
    IS(hk_producer_put(puts, 1), HK_E_OPEN), IS(hk_consumer_take(takes, &word), HK_E_OPEN), IS(word, 9);
    IS(hk_producer_release(puts), HK_OK), IS(hk_hand_span(hand), 1);
    /* A finish of an end is one of its hand. */
    IS(hk_producer_finish(puts, 5), HK_OK), IS(hk_ring_count(hand, 1), 1), IS(hk_producer_put(puts, 1), HK_OK);
    hk_hand_free(hand);
}

/* What has to be on the ring: `count` words, the oldest first. */
struct model {
    uint64_t queued[ROOM], next;
    size_t count;
};

static void put_in(struct model *model) { model->queued[model->count++] = model->next++; }

static void take_off(struct model *model) {
    memmove(model->queued, model->queued + 1, --model->count * sizeof *model->queued);
}

/* Two producers, two consumers, each by a hand of its own, or two ends by one hand, and calls of other hands on the same
 * sides between theirs: what an end saw last is out of date by turns. */
static void beside_a_model(uint32_t mode, int own_hands, unsigned seed) {
    enum { HANDS = 4 };
    struct model model = {{0}, 1, 0};
    hk_hand *hands[HANDS] = {open_rings(mode)};
    hk_producer *puts[2] = {NULL, NULL};
    hk_consumer *takes[2] = {NULL, NULL};
    int64_t wrong = 0;
    for (int i = 1; i < HANDS; i++) IS(hk_hand_split(hands[0], &hands[i]), HK_OK);
    for (int i = 0; i < 2; i++) {
        IS(hk_producer_open(&puts[i], hands[i], 1), HK_OK);
        IS(hk_consumer_open(&takes[i], hands[own_hands ? i + 2 : i], 1), HK_OK);
    }
    srand(seed);
    for (int step = 0; step < STEPS; step++) {
        int kind = rand() % 16, end = rand() % 8 == 0;
        uint64_t word = 0;
        int64_t can_put = model.count < ROOM ? HK_OK : HK_E_NOROOM, can_take = model.count ? HK_OK : HK_E_NOROOM;
        if (kind < 7) {
            wrong += hk_producer_put(puts[end], model.next) != can_put;
            if (can_put == HK_OK) put_in(&model);
        } else if (kind < 14) {
            wrong += hk_consumer_take(takes[end], &word) != can_take || word != (model.count ? model.queued[0] : 0);
            if (can_take == HK_OK) take_off(&model);
        } else if (kind == 14) {
            wrong += hk_ring_try_put_one(hands[end], 1, model.next) != (can_put == HK_OK ? 1 : can_put);
            if (can_put == HK_OK) put_in(&model);
        } else {
            wrong += hk_ring_try_take_one(hands[end], 1, &word) != (can_take == HK_OK ? 1 : can_take);
            wrong += word != (model.count ? model.queued[0] : 0);
            if (can_take == HK_OK) take_off(&model);
        }
        if (rand() % 64 == 0) wrong += hk_ring_count(hands[end], 1) != (int64_t)model.count;
    }
    IS(wrong, 0);
    for (int i = 0; i < HANDS; i++) hk_hand_free(hands[i]);
}

/* Two threads put and two take, each by an end of its own. */
struct job {
    hk_hand *hand;
    uint64_t first, sum;
};

static void *puts_words(void *at) {
    struct job *job = at;
    hk_producer *end = NULL;
    if (hk_producer_open(&end, job->hand, 0) != HK_OK) return at;
    for (uint64_t i = 0; i < WORDS; i++) {
        int64_t code = hk_producer_put(end, job->first + i);
        for (; code < 0; code = code == HK_E_PENDING ? hk_producer_finish(end, job->first + i)
                                                     : hk_producer_put(end, job->first + i)) sched_yield();
    }
    hk_producer_free(end);
    return NULL;
}

/* Both takers see the words of each putter in their order. */
static void *takes_words(void *at) {
    struct job *job = at;
    hk_consumer *end = NULL;
    uint64_t last[2] = {0, 0}, word;
    if (hk_consumer_open(&end, job->hand, 0) != HK_OK) return at;
    for (uint64_t i = 0; i < WORDS; i++) {
        int64_t code = hk_consumer_take(end, &word);
        for (; code < 0; sched_yield())
            code = code == HK_E_PENDING ? hk_consumer_finish(end) : hk_consumer_take(end, &word);
        size_t from = word > WORDS;
        if (word <= last[from]) return at;
        last[from] = word;
        job->sum += word;
    }
    hk_consumer_free(end);
    return NULL;
}

static void threads(uint32_t mode) {
    struct job jobs[4] = {{open_rings(mode), 1, 0}, {NULL, 1 + WORDS, 0}, {NULL, 0, 0}, {NULL, 0, 0}};
    pthread_t made[4];
    void *failed;
    for (int i = 1; i < 4; i++) IS(hk_hand_split(jobs[0].hand, &jobs[i].hand), HK_OK);
    for (int i = 0; i < 4; i++) IS(pthread_create(&made[i], NULL, i < 2 ? puts_words : takes_words, &jobs[i]), 0);
    for (int i = 0; i < 4; i++) IS(pthread_join(made[i], &failed), 0), IS(failed == NULL, 1);
    IS(jobs[2].sum + jobs[3].sum, (uint64_t)WORDS * (2 * WORDS + 1));
    for (int i = 0; i < 4; i++) hk_hand_free(jobs[i].hand);
}

/* Two hands hold a side by turns: what one gives up, the other has at once. */
static void handed_over(void) {
    hk_hand *hands[2] = {open_rings(HK_HTS), NULL};
    hk_producer *puts[2] = {NULL, NULL};
    hk_consumer *takes[2] = {NULL, NULL};
    int64_t wrong = 0;
    IS(hk_hand_split(hands[0], &hands[1]), HK_OK);
    for (int i = 0; i < 2; i++) {
        IS(hk_producer_open(&puts[i], hands[i], 0), HK_OK);
        IS(hk_consumer_open(&takes[i], hands[i], 0), HK_OK);
    }
    for (uint64_t turn = 0; turn < TURNS; turn++) {
        int mine = turn % 2;
        uint64_t word = 0;
        wrong += hk_producer_hold(puts[mine], 2) != HK_OK || hk_producer_put(puts[mine], turn) != HK_OK;
        if (turn % 100 == 0) wrong += hk_producer_put(puts[!mine], 1) != HK_E_AGAIN;
        wrong += hk_producer_release(puts[mine]) != HK_OK;
        wrong += hk_consumer_hold(takes[mine], 2) != HK_OK || hk_consumer_take(takes[mine], &word) != HK_OK;
        wrong += word != turn;
        wrong += hk_consumer_release(takes[mine]) != HK_OK;
    }
    IS(wrong, 0), IS(hk_ring_count(hands[0], 0), 0);
    hk_hand_free(hands[0]), hk_hand_free(hands[1]);
}

int main(void) {
    one_by_one(HK_MULTI), one_by_one(HK_HTS);
    busy();
    for (unsigned seed = 0; seed < 12; seed++) beside_a_model(seed % 2 ? HK_HTS : HK_MULTI, seed / 2 % 2, seed);
    threads(HK_MULTI), threads(HK_HTS);
    handed_over();
    return hk_count_up("ends");
}
