/* Four threads get numbers of one pool, pass some on to their neighbours and put all back. Each number has one owner at
 * a time: the thread that has it writes its own name into an array and finds it there. In the end all numbers are free.
 * With a number as its argument the four make that many rounds together; without one each makes 500,000. */
#include "tests.h"

#include <pthread.h>
#include <sched.h>
#include <stdatomic.h>
#include <stdlib.h>

enum { THREADS = 4, NUMBERS = 1000, LONGEST = 32 };

static uint64_t rounds = 500000;
static uint32_t owner[NUMBERS];
static _Atomic uint64_t wrong, moved;

struct job {
    hk_pool *pool;
    uint32_t who;
};

/* Whether a call moved something; any code but that of an empty ring or of other threads that came first is wrong. */
static int is_done(int64_t code) {
    if (code < 0 && code != HK_E_NOROOM && code != HK_E_AGAIN) wrong++;
    if (code == HK_E_AGAIN) sched_yield();
    return code > 0;
}

static void sign(struct job *job, const uint32_t *numbers, size_t n) {
    for (size_t i = 0; i < n; i++) owner[numbers[i]] = job->who;
}

static void check(struct job *job, const uint32_t *numbers, size_t n) {
    for (size_t i = 0; i < n; i++) wrong += owner[numbers[i]] != job->who;
}

static void put_back(struct job *job, const uint32_t *numbers, size_t n) {
    check(job, numbers, n);
    while (!is_done(hk_pool_try_put_bulk(job->pool, numbers, n)) && !wrong) sched_yield();
}

/* Passes all numbers on, by bulk or by burst, or none. */
static int pass(struct job *job, uint64_t round, const uint32_t *numbers, size_t n) {
    size_t ring = (job->who + 1) % THREADS;
    int64_t code = round % 2 ? hk_pool_try_send_bulk(job->pool, ring, numbers, n)
                             : hk_pool_try_send_burst(job->pool, ring, numbers, n);
    wrong += code > 0 && code != (int64_t)n;
    return is_done(code);
}

/* Counts are those of numbers of the pool, whatever the others do meanwhile. */
static void count(struct job *job) {
    int64_t counts[3] = {hk_pool_ring_count(job->pool, job->who), hk_pool_ring_room(job->pool, job->who),
                         hk_pool_free_count(job->pool)};
    for (int i = 0; i < 3; i++) wrong += counts[i] < 0 || counts[i] > NUMBERS;
}

static void one_round(struct job *job, uint64_t round) {
    uint32_t numbers[LONGEST];
    size_t n = 1 + (round * 7 + job->who) % LONGEST;
    if (is_done(hk_pool_try_get_bulk(job->pool, numbers, n))) {
        sign(job, numbers, n);
        moved += n;
        if (round % 3 != 0 || !pass(job, round, numbers, n)) put_back(job, numbers, n);
    }
    int64_t code = round % 2 ? hk_pool_try_receive_bulk(job->pool, job->who, numbers, 1)
                             : hk_pool_try_receive_burst(job->pool, job->who, numbers, LONGEST);
    if (is_done(code)) {
        sign(job, numbers, (size_t)code);
        put_back(job, numbers, (size_t)code);
    }
    count(job);
}

static void *work(void *at) {
    struct job *job = at;
    for (uint64_t round = 0; round < rounds && !wrong; round++) one_round(job, round);
    return NULL;
}

/* Takes over what is left for a thread, and puts all back. The threads have ended, so nothing refuses the flush that a
 * free begins with. */
static void end(struct job *job) {
    uint32_t number;
    while (hk_pool_try_receive_bulk(job->pool, job->who, &number, 1) == 1) {
        IS(hk_pool_try_put_bulk(job->pool, &number, 1), 1);
    }
    hk_pool_free(job->pool);
}

static void share(uint32_t cache) {
    hk_pool *pool = NULL;
    pthread_t threads[THREADS];
    struct job jobs[THREADS];
    wrong = moved = 0;
    IS(hk_pool_open(&pool, NUMBERS, cache, THREADS), HK_OK);
    for (uint32_t i = 0; i < THREADS; i++) {
        jobs[i] = (struct job){NULL, i};
        IS(hk_pool_split(pool, &jobs[i].pool), HK_OK);
    }
    for (int i = 0; i < THREADS; i++) IS(pthread_create(&threads[i], NULL, work, &jobs[i]), 0);
    for (int i = 0; i < THREADS; i++) IS(pthread_join(threads[i], NULL), 0);
    for (int i = 0; i < THREADS; i++) end(&jobs[i]);
    IS(wrong, 0);
    IS(moved > 0, 1);
    IS(hk_pool_free_count(pool), NUMBERS);
    uint32_t once = 0;
    static unsigned char met[NUMBERS];
    for (int i = 0; i < NUMBERS; i++) met[i] = 0;
    for (uint32_t number; hk_pool_try_get_bulk(pool, &number, 1) == 1;) once += met[number]++ == 0;
    IS(once, NUMBERS);
    hk_pool_free(pool);
}

int main(int argc, char **argv) {
    if (argc > 1) rounds = strtoull(argv[1], NULL, 10) / 4;
    share(0);
    share(8);
    share(128);
    return hk_count_up("pool_threads");
}
