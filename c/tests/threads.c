/* Two threads put 10,000,000 words on a ring and two take them, each word once and those of one sender in their order,
 * in each pair of modes; on multi sides also by calls that are longer than those of a head/tail-sync side. An argument
 * is another number of words for each sender. */
#include "tests.h"

#include <pthread.h>
#include <sched.h>
#include <stdatomic.h>
#include <stdlib.h>

enum { SENDERS = 2, TAKERS = 2, BURST = 32, LONGEST = 2 * HK_MAX_WORDS };

static uint64_t each = 5000000;
static unsigned char *met;
static _Atomic uint64_t gone, pending, wrong;

struct job {
    hk_hand *hand;
    uint64_t who;
    size_t burst;
};

/* A thread's words. */
static uint64_t places[SENDERS + TAKERS][LONGEST];

static void *send_all(void *at) {
    struct job *job = at;
    uint64_t *words = places[job->who], next = 0;
    while (next < each) {
        size_t n = 0;
        for (; n < job->burst && next + n < each; n++) words[n] = job->who * each + next + n;
        int64_t count = hk_ring_try_put_burst(job->hand, 0, words, n);
        while (count == HK_E_PENDING) {
            pending++;
            sched_yield();
            count = hk_ring_finish_put(job->hand, words, n);
        }
        if (count > 0) next += (uint64_t)count;
        else if (count == HK_E_NOROOM || count == HK_E_AGAIN) sched_yield();
        else {
            wrong++;
            next = each;
        }
    }
    hk_hand_free(job->hand);
    return NULL;
}

static void *take_all(void *at) {
    struct job *job = at;
    uint64_t *words = places[job->who], last[SENDERS] = {0};
    while (gone < SENDERS * each && !wrong) {
        int64_t count = hk_ring_try_take_burst(job->hand, 0, words, job->burst);
        while (count == HK_E_PENDING) {
            pending++;
            sched_yield();
            count = hk_ring_finish_take(job->hand, job->burst);
        }
        for (int64_t i = 0; i < count; i++) {
            uint64_t who = words[i] / each, place = words[i] % each + 1;
            if (who >= SENDERS || place <= last[who]) wrong++;
            else last[who] = place, met[words[i]]++;
        }
        if (count > 0) gone += (uint64_t)count;
        else if (count == HK_E_NOROOM || count == HK_E_AGAIN) sched_yield();
        else wrong++;
    }
    hk_hand_free(job->hand);
    return NULL;
}

static void cross(uint32_t size, uint32_t put, uint32_t take, size_t burst) {
    hk_hand *hand = NULL;
    hk_ring_plan plan = {size, 1, put, take, 0, 0};
    pthread_t threads[SENDERS + TAKERS];
    struct job jobs[SENDERS + TAKERS];
    met = calloc(SENDERS * each, 1);
    gone = pending = wrong = 0;
    IS(met != NULL, 1);
    IS(hk_hand_open(&hand, &plan, 1), HK_OK);
    for (uint64_t i = 0; i < SENDERS + TAKERS; i++) {
        jobs[i] = (struct job){NULL, i, burst};
        IS(hk_hand_split(hand, &jobs[i].hand), HK_OK);
    }
    for (int i = 0; i < SENDERS + TAKERS; i++) {
        IS(pthread_create(&threads[i], NULL, i < SENDERS ? send_all : take_all, &jobs[i]), 0);
    }
    for (int i = 0; i < SENDERS + TAKERS; i++) IS(pthread_join(threads[i], NULL), 0);
    uint64_t once = 0;
    for (uint64_t i = 0; i < SENDERS * each; i++) once += met[i] == 1;
    IS(wrong, 0);
    IS(once, SENDERS * each);
    IS(hk_ring_count(hand, 0), 0);
    IS(hk_hand_close(hand), HK_OK);
    hk_hand_free(hand);
    free(met);
}

int main(int argc, char **argv) {
    if (argc > 1) each = strtoull(argv[1], NULL, 10) / 4;
    for (uint32_t pair = 0; pair < 4; pair++) {
        cross(100, pair & 1, pair >> 1, 1);
        cross(100, pair & 1, pair >> 1, BURST);
    }
    cross(3 * LONGEST, HK_MULTI, HK_MULTI, LONGEST);
    return hk_count_up("threads");
}
