/* Calls of one word: what each does, on several rings by turns, beside a model, and by threads. A hand knows the ring
 * that its last put, or take, was on, so a call on another ring has to find that one. */
#include "hokhtura.h"
#include "tests.h"

#include <pthread.h>
#include <sched.h>
#include <stdbool.h>
#include <stdlib.h>
#include <string.h>

enum { RINGS = 4, MAX_OF_MODEL = 8, STEPS = 200000, WORDS = 100000 };

/* Rings of both modes and several sizes. */
static const hk_ring_plan plans[RINGS] = {
    {3, 1, HK_MULTI, HK_MULTI, 0, 0}, {5, 1, HK_HTS, HK_HTS, 0, 0},
    {1, 1, HK_MULTI, HK_HTS, 0, 0}, {7, 1, HK_HTS, HK_MULTI, 0, 0}};

static hk_hand *open_rings(void) {
    hk_hand *hand = NULL;
    IS(hk_hand_open(&hand, plans, RINGS), HK_OK);
    return hand;
}

/* A word goes to the ring that is named, and comes from it; what a call leaves is told. */
static void one_by_one(void) {
    hk_hand *hand = open_rings();
    uint64_t word = 9;
    IS(hk_ring_try_take_one(hand, 0, &word), HK_E_NOROOM), IS(word, 9), IS(hk_hand_left(hand), 0);
    IS(hk_ring_try_put_one(hand, 0, 10), 1), IS(hk_hand_left(hand), 2), IS(hk_ring_try_put_one(hand, 2, 20), 1);
    IS(hk_ring_try_put_one(hand, 2, 21), HK_E_NOROOM), IS(hk_hand_left(hand), 0);
    IS(hk_ring_try_put_one(hand, 0, 11), 1), IS(hk_ring_try_put_one(hand, RINGS, 12), HK_E_RING);
    IS(hk_ring_count(hand, 0), 2), IS(hk_ring_count(hand, 1), 0), IS(hk_ring_count(hand, 2), 1);
    IS(hk_ring_try_take_one(hand, 2, &word), 1), IS(word, 20);
    IS(hk_ring_try_take_one(hand, 0, &word), 1), IS(word, 10);
    IS(hk_hand_left(hand), 1), IS(hk_ring_try_take_one(hand, RINGS, &word), HK_E_RING), IS(word, 10);
    IS(hk_ring_try_take_one(hand, 0, &word), 1), IS(word, 11), IS(hk_ring_try_take_one(hand, 3, NULL), HK_E_NULL);
    hk_hand_free(hand);
}

/* What has to be on each ring. */
struct model {
    uint64_t words[MAX_OF_MODEL];
    size_t count, room;
};

static bool was_put(struct model *model, int64_t code, uint64_t word) {
    if (model->count == model->room) return code == HK_E_NOROOM;
    model->words[model->count++] = word;
    return code == 1;
}

static bool was_taken(struct model *model, int64_t code, uint64_t word) {
    if (model->count == 0) return code == HK_E_NOROOM && word == 0;
    bool same = word == model->words[0];
    memmove(model->words, model->words + 1, --model->count * sizeof *model->words);
    return code == 1 && same;
}

/* Two hands on random rings of the four. */
static void beside_a_model(unsigned seed) {
    struct model models[RINGS] = {{{0}, 0, 3}, {{0}, 0, 5}, {{0}, 0, 1}, {{0}, 0, 7}};
    hk_hand *hands[2] = {open_rings(), NULL};
    IS(hk_hand_split(hands[0], &hands[1]), HK_OK);
    int64_t wrong = 0;
    srand(seed);
    for (int step = 1; step <= STEPS; step++) {
        size_t ring = (size_t)rand() % RINGS;
        hk_hand *hand = hands[rand() % 2];
        uint64_t word = 0;
        if (rand() % 2) {
            int64_t code = hk_ring_try_put_one(hand, ring, (uint64_t)step);
            wrong += !was_put(&models[ring], code, (uint64_t)step);
        } else {
            int64_t code = hk_ring_try_take_one(hand, ring, &word);
            wrong += !was_taken(&models[ring], code, word);
        }
    }
    IS(wrong, 0);
    hk_hand_free(hands[0]), hk_hand_free(hands[1]);
}

/* Threads that put and take on a ring each way, of both modes. */
struct job {
    hk_hand *hand;
    uint64_t first, sum;
};

static const size_t ways[2] = {0, 1};

static void *puts_words(void *at) {
    struct job *job = at;
    for (uint64_t i = 0; i < WORDS; i++) {
        size_t ring = ways[i % 2];
        int64_t code = hk_ring_try_put_one(job->hand, ring, job->first + i);
        uint64_t word = job->first + i;
        for (; code < 0; code = code == HK_E_PENDING ? hk_ring_finish_put(job->hand, &word, 1)
                                                     : hk_ring_try_put_one(job->hand, ring, word)) sched_yield();
    }
    return NULL;
}

/* Both takers see the words of each putter on a ring in their order. */
static void *takes_words(void *at) {
    struct job *job = at;
    uint64_t last[2][2] = {{0, 0}, {0, 0}}, word = 0;
    for (uint64_t i = 0; i < WORDS; i++) {
        size_t way = i % 2;
        int64_t code = hk_ring_try_take_one(job->hand, ways[way], &word);
        for (; code < 0; code = code == HK_E_PENDING ? hk_ring_finish_take(job->hand, 1)
                                                     : hk_ring_try_take_one(job->hand, ways[way], &word)) sched_yield();
        size_t from = word > WORDS;
        if (word <= last[way][from]) return at;
        last[way][from] = word;
        job->sum += word;
    }
    return NULL;
}

static void threads(void) {
    struct job jobs[4] = {{open_rings(), 1, 0}, {NULL, 1 + WORDS, 0}, {NULL, 0, 0}, {NULL, 0, 0}};
    pthread_t made[4];
    void *failed;
    for (int i = 1; i < 4; i++) IS(hk_hand_split(jobs[0].hand, &jobs[i].hand), HK_OK);
    for (int i = 0; i < 4; i++) IS(pthread_create(&made[i], NULL, i < 2 ? puts_words : takes_words, &jobs[i]), 0);
    for (int i = 0; i < 4; i++) IS(pthread_join(made[i], &failed), 0), IS(failed == NULL, 1);
    IS(jobs[2].sum + jobs[3].sum, (uint64_t)WORDS * (2 * WORDS + 1));
    for (int i = 0; i < 4; i++) hk_hand_free(jobs[i].hand);
}

int main(void) {
    one_by_one();
    for (unsigned seed = 0; seed < 12; seed++) beside_a_model(seed);
    threads();
    return hk_count_up("ones");
}
