/* Handles that come and go: 8 threads split a hand or a pool's handle off their own, use it and free it. Nothing is
 * lost. Then handles that are each split off the one before. The number of handles in all is the argument; without one
 * it is more than a million. */
#include "tests.h"

#include <pthread.h>
#include <sched.h>
#include <stdatomic.h>
#include <stdlib.h>

enum { THREADS = 8, NUMBERS = 64, DEEP = 1000 };

static uint64_t each = 500000 / THREADS;
static _Atomic uint64_t wrong;

struct job {
    hk_hand *hand;
    hk_pool *pool;
    uint64_t who, put, taken;
};

/* A code that time doesn't cure is wrong. */
static int is_again(int64_t code) {
    if (code != HK_E_AGAIN && code != HK_E_NOROOM && code < 0) wrong++;
    if (code < 0) sched_yield();
    return code < 0 && !wrong;
}

static void take(struct job *job, hk_hand *hand) {
    uint64_t word;
    int64_t code = hk_ring_try_take_one(hand, 0, &word);
    while (code == HK_E_PENDING) sched_yield(), code = hk_ring_finish_take(hand, 1);
    if (!is_again(code) && !wrong) job->taken += word;
}

/* A hand that was just split off puts a word, and another takes one. */
static void *hands(void *at) {
    struct job *job = at;
    for (uint64_t i = 0; i < each && !wrong; i++) {
        hk_hand *hand = NULL;
        uint64_t word = job->who * each + i;
        while (is_again(hk_hand_split(job->hand, &hand))) continue;
        if (wrong) break;
        while (is_again(hk_ring_try_put_one(hand, 0, word))) take(job, job->hand);
        job->put += word;
        take(job, hand);
        hk_hand_free(hand);
    }
    return NULL;
}

/* A handle that was just split off gets numbers, and puts all of them back before it is freed. It flushes itself, since
 * a free tries one flush only, and other threads may come first then. */
static void *pools(void *at) {
    struct job *job = at;
    for (uint64_t i = 0; i < each && !wrong; i++) {
        hk_pool *pool = NULL;
        uint32_t numbers[3];
        while (is_again(hk_pool_split(job->pool, &pool))) continue;
        if (wrong) break;
        while (is_again(hk_pool_try_get_bulk(pool, numbers, 3))) continue;
        while (is_again(hk_pool_try_put_bulk(pool, numbers, 3))) continue;
        while (is_again(hk_pool_try_flush(pool))) continue;
        hk_pool_free(pool);
    }
    return NULL;
}

static void in_threads(struct job *jobs, void *(*work)(void *)) {
    pthread_t threads[THREADS];
    for (int i = 0; i < THREADS; i++) IS(pthread_create(&threads[i], NULL, work, &jobs[i]), 0);
    for (int i = 0; i < THREADS; i++) IS(pthread_join(threads[i], NULL), 0);
    IS(wrong, 0);
}

static void on_rings(uint32_t mode) {
    hk_hand *first = NULL;
    hk_ring_plan plan = {64, 1, HK_HTS, mode, 0, 0};
    struct job jobs[THREADS] = {{0}};
    uint64_t put = 0, taken = 0, word;
    IS(hk_hand_open(&first, &plan, 1), HK_OK);
    for (uint64_t i = 0; i < THREADS; i++) {
        jobs[i].who = i;
        IS(hk_hand_split(first, &jobs[i].hand), HK_OK);
    }
    in_threads(jobs, hands);
    while (hk_ring_try_take_one(first, 0, &word) == 1) taken += word;
    for (int i = 0; i < THREADS; i++) put += jobs[i].put, taken += jobs[i].taken, hk_hand_free(jobs[i].hand);
    IS(taken, put);
    IS(hk_hand_close(first), HK_OK);
    hk_hand_free(first);
}

static void on_pools(void) {
    hk_pool *first = NULL;
    struct job jobs[THREADS] = {{0}};
    uint32_t numbers[NUMBERS], met[NUMBERS] = {0};
    IS(hk_pool_open(&first, NUMBERS, 4, 0), HK_OK);
    for (int i = 0; i < THREADS; i++) IS(hk_pool_split(first, &jobs[i].pool), HK_OK);
    in_threads(jobs, pools);
    for (int i = 0; i < THREADS; i++) hk_pool_free(jobs[i].pool);
    IS(hk_pool_try_get_bulk(first, numbers, NUMBERS), NUMBERS);
    for (int i = 0; i < NUMBERS; i++) IS(met[numbers[i]]++, 0);
    hk_pool_free(first);
}

/* Each handle is split off the one before. */
static void deep(void) {
    static hk_hand *line[DEEP];
    static hk_pool *ways[DEEP];
    hk_ring_plan plan = {8, 0, HK_MULTI, HK_HTS, 0, 0};
    uint64_t word = 0;
    uint32_t number;
    IS(hk_hand_open(&line[0], &plan, 1), HK_OK), IS(hk_pool_open(&ways[0], NUMBERS, 0, 0), HK_OK);
    for (int i = 1; i < DEEP; i++) {
        IS(hk_hand_split(line[i - 1], &line[i]), HK_OK);
        IS(hk_pool_split(ways[i - 1], &ways[i]), HK_OK);
    }
    IS(hk_ring_try_put_one(line[DEEP - 1], 0, 17), 1);
    IS(hk_ring_try_take_one(line[0], 0, &word), 1), IS(word, 17);
    IS(hk_pool_try_get_bulk(ways[DEEP - 1], &number, 1), 1), IS(hk_pool_try_put_bulk(ways[DEEP - 1], &number, 1), 1);
    for (int i = 0; i < DEEP; i++) hk_hand_free(line[i]), hk_pool_free(ways[i]);
}

int main(int argc, char **argv) {
    if (argc > 1) each = strtoull(argv[1], NULL, 10) / (2 * THREADS);
    on_rings(HK_HTS);
    on_pools();
    each /= 10;
    on_rings(HK_MULTI);
    deep();
    return hk_count_up("handles");
}
