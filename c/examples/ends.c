/* Two threads and a ring: one puts the numbers from 1 to 1,000,000 on it word by word, the other takes them and adds
 * them up. Each has a hand, and an end that holds its side. */
#include <hokhtura.h>
#include <pthread.h>
#include <sched.h>
#include <stdio.h>

enum { WORDS = 1000000, HELD = 64 };

struct job {
    hk_hand *hand;
    uint64_t sum;
    int64_t code;
};

/* No room, or another thread holds the side: that changes. */
static int is_early(int64_t code) {
    return code == HK_E_NOROOM || code == HK_E_AGAIN;
}

static void *put(void *at) {
    struct job *job = at;
    hk_producer *end = NULL;
    job->code = hk_producer_open(&end, job->hand, 0);
    if (job->code >= 0) job->code = hk_producer_hold(end, HELD);
    for (uint64_t word = 1; word <= WORDS && job->code >= 0; word++) {
        while (is_early(job->code = hk_producer_put(end, word))) sched_yield();
    }
    hk_producer_free(end);
    return NULL;
}

static void *take(void *at) {
    struct job *job = at;
    hk_consumer *end = NULL;
    uint64_t word = 0;
    job->code = hk_consumer_open(&end, job->hand, 0);
    if (job->code >= 0) job->code = hk_consumer_hold(end, HELD);
    for (int i = 0; i < WORDS && job->code >= 0; i++) {
        while (is_early(job->code = hk_consumer_take(end, &word))) sched_yield();
        job->sum += word;
    }
    hk_consumer_free(end);
    return NULL;
}

int main(void) {
    hk_ring_plan plan = {.size = 1000, .exact = 1, .put = HK_HTS, .take = HK_HTS};
    struct job puts = {NULL, 0, 0}, takes = {NULL, 0, 0};
    pthread_t threads[2];
    if (hk_hand_open(&puts.hand, &plan, 1) < 0 || hk_hand_split(puts.hand, &takes.hand) < 0) return 1;
    if (pthread_create(&threads[0], NULL, put, &puts) || pthread_create(&threads[1], NULL, take, &takes)) return 1;
    for (int i = 0; i < 2; i++) (void)pthread_join(threads[i], NULL);
    hk_hand_free(puts.hand), hk_hand_free(takes.hand);
    if (puts.code < 0 || takes.code < 0) return 1;
    printf("the sum is %llu\n", (unsigned long long)takes.sum);
}
