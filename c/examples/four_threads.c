/* Four threads and a ring: two put the numbers from 1 to 2,000,000 on it, two take them and add them up. */
#include <hokhtura.h>
#include <hokhtura_wait.h>
#include <pthread.h>
#include <stdio.h>

enum { PAIRS = 2, EACH = 1000000, BURST = 32 };

struct job {
    hk_hand *hand;
    uint64_t first, sum;
    int64_t code;
};

static void *put(void *at) {
    struct job *job = at;
    uint64_t words[BURST];
    for (uint64_t done = 0; done < EACH && job->code >= 0; done += BURST) {
        for (uint64_t i = 0; i < BURST; i++) words[i] = job->first + done + i;
        job->code = hk_ring_put(job->hand, 0, words, BURST, hk_relax_yield);
    }
    return NULL;
}

static void *take(void *at) {
    struct job *job = at;
    uint64_t words[BURST];
    for (uint64_t done = 0; done < EACH && job->code >= 0; done += BURST) {
        job->code = hk_ring_take(job->hand, 0, words, BURST, hk_relax_yield);
        for (int64_t i = 0; i < job->code; i++) job->sum += words[i];
    }
    return NULL;
}

int main(void) {
    hk_hand *hand;
    hk_ring_plan plan = {.size = 1000, .exact = 1, .put = HK_MULTI, .take = HK_MULTI};
    struct job jobs[2 * PAIRS] = {{.first = 1}, {.first = 1 + EACH}};
    pthread_t threads[2 * PAIRS];
    int64_t code = hk_hand_open(&hand, &plan, 1);
    for (int i = 0; i < 2 * PAIRS && code >= 0; i++) code = hk_hand_split(hand, &jobs[i].hand);
    if (code < 0) return fprintf(stderr, "four_threads: %s\n", hk_strerror(code)), 1;
    for (int i = 0; i < 2 * PAIRS; i++) {
        if (pthread_create(&threads[i], NULL, i < PAIRS ? put : take, &jobs[i])) return 1;
    }
    uint64_t sum = 0;
    for (int i = 0; i < 2 * PAIRS; i++) {
        pthread_join(threads[i], NULL);
        if (jobs[i].code < 0) code = jobs[i].code;
        sum += jobs[i].sum;
        hk_hand_free(jobs[i].hand);
    }
    hk_hand_free(hand);
    if (code < 0) return fprintf(stderr, "four_threads: %s\n", hk_strerror(code)), 1;
    printf("the sum is %llu\n", (unsigned long long)sum);
}
