/* Pointers pass over rings, with plain memory behind them: two threads lend out messages, two answer them and send
 * them back over a second ring. A message is with one thread at a time, so nothing of it is atomic, and no other atomic
 * orders the threads. In each pair of modes by puts and takes, and by peeks on head/tail-sync sides. The sanitizers
 * have to find nothing. An argument is another number of messages for all threads together. */
#include "tests.h"

#include <pthread.h>
#include <sched.h>
#include <stdatomic.h>
#include <stdlib.h>

/* A lender has at most LENT messages out, and a burst more, so that neither ring is ever full. */
enum { PAIRS = 2, BURST = 8, LENT = 32, SIZE = PAIRS * (LENT + BURST), OUT = 0, BACK = 1 };

struct message {
    uint64_t number, square;
};

struct job {
    hk_hand *hand;
    int peeks;
};

static uint64_t each = 200000;
static _Atomic uint64_t wrong;

static int is_well(void) {
    return atomic_load_explicit(&wrong, memory_order_relaxed) == 0;
}

static void blame(uint64_t mistakes) {
    if (mistakes) atomic_fetch_add_explicit(&wrong, mistakes, memory_order_relaxed);
}

static int64_t put(struct job *job, size_t ring, const uint64_t *words, size_t n) {
    if (job->peeks) {
        int64_t count = hk_ring_peek_put_burst(job->hand, ring, n);
        return count > 0 ? hk_ring_finish_put(job->hand, words, (size_t)count) : count;
    }
    int64_t count = hk_ring_try_put_burst(job->hand, ring, words, n);
    while (count == HK_E_PENDING) sched_yield(), count = hk_ring_finish_put(job->hand, words, n);
    return count;
}

static int64_t take(struct job *job, size_t ring, uint64_t *words, size_t n) {
    if (job->peeks) {
        int64_t count = hk_ring_peek_take_burst(job->hand, ring, words, n);
        return count > 0 ? hk_ring_finish_take(job->hand, (size_t)count) : count;
    }
    int64_t count = hk_ring_try_take_burst(job->hand, ring, words, n);
    while (count == HK_E_PENDING) sched_yield(), count = hk_ring_finish_take(job->hand, n);
    return count;
}

/* How many words moved; a code that time doesn't cure is a mistake. */
static size_t moved(int64_t count) {
    if (count > 0) return (size_t)count;
    blame(count != HK_E_NOROOM && count != HK_E_AGAIN);
    sched_yield();
    return 0;
}

static void put_all(struct job *job, size_t ring, const uint64_t *words, size_t n) {
    for (size_t done = 0; done < n && is_well();) done += moved(put(job, ring, words + done, n - done));
}

static struct message *at(uint64_t word) {
    return (struct message *)(uintptr_t)word;
}

static size_t least(size_t n, size_t m) {
    return n < m ? n : m;
}

static size_t take_back(struct job *job, size_t n) {
    uint64_t words[BURST];
    size_t count = moved(take(job, BACK, words, n));
    for (size_t i = 0; i < count; i++) {
        blame(at(words[i])->square != at(words[i])->number * at(words[i])->number);
        free(at(words[i]));
    }
    return count;
}

static void lend_some(struct job *job, uint64_t first, size_t n) {
    uint64_t words[BURST];
    for (size_t i = 0; i < n; i++) {
        struct message *message = malloc(sizeof *message);
        if (!message) abort();
        *message = (struct message){first + i, 0};
        words[i] = (uintptr_t)message;
    }
    put_all(job, OUT, words, n);
}

/* Lends so many messages, and takes as many back, its own or another lender's. */
static void *lend(void *place) {
    struct job *job = place;
    uint64_t lent = 0, back = 0;
    while (back < each && is_well()) {
        if (lent < each && lent <= back + LENT) {
            size_t n = least(BURST, each - lent);
            lend_some(job, lent, n);
            lent += n;
        }
        back += take_back(job, least(BURST, each - back));
    }
    return NULL;
}

static void *answer(void *place) {
    struct job *job = place;
    for (uint64_t done = 0; done < each && is_well();) {
        uint64_t words[BURST];
        size_t count = moved(take(job, OUT, words, least(BURST, each - done)));
        for (size_t i = 0; i < count; i++) at(words[i])->square = at(words[i])->number * at(words[i])->number;
        put_all(job, BACK, words, count);
        done += count;
    }
    return NULL;
}

static void pass(uint32_t put_mode, uint32_t take_mode, int peeks) {
    hk_ring_plan plans[2] = {{SIZE, 1, put_mode, take_mode, 0, 0}, {SIZE, 1, put_mode, take_mode, 0, 0}};
    struct job jobs[2 * PAIRS];
    pthread_t threads[2 * PAIRS];
    hk_hand *hand = NULL;
    IS(hk_hand_open(&hand, plans, 2), HK_OK);
    for (int i = 0; i < 2 * PAIRS; i++) {
        jobs[i] = (struct job){NULL, peeks};
        IS(hk_hand_split(hand, &jobs[i].hand), HK_OK);
    }
    for (int i = 0; i < 2 * PAIRS; i++) IS(pthread_create(&threads[i], NULL, i < PAIRS ? lend : answer, &jobs[i]), 0);
    for (int i = 0; i < 2 * PAIRS; i++) IS(pthread_join(threads[i], NULL), 0);
    IS(wrong, 0), IS(hk_ring_count(hand, OUT), 0), IS(hk_ring_count(hand, BACK), 0);
    for (int i = 0; i < 2 * PAIRS; i++) hk_hand_free(jobs[i].hand);
    hk_hand_free(hand);
}

/* What a hand put before it was freed can be read once the set is closed by the last hand. */
static struct message kept = {7, 0};

static void *leave(void *place) {
    hk_hand *hand = place;
    uint64_t word = (uintptr_t)&kept;
    kept.square = 49;
    blame(hk_ring_try_put_bulk(hand, 0, &word, 1) != 1);
    hk_hand_free(hand);
    return NULL;
}

static void close_and_drain(void) {
    hk_ring_plan plan = {8, 1, HK_MULTI, HK_MULTI, 0, 0};
    hk_hand *hand = NULL, *other = NULL;
    pthread_t thread;
    uint64_t word = 0;
    IS(hk_hand_open(&hand, &plan, 1), HK_OK), IS(hk_hand_split(hand, &other), HK_OK);
    IS(pthread_create(&thread, NULL, leave, other), 0);
    int64_t code = HK_E_SHARED;
    while ((code = hk_hand_close(hand)) == HK_E_SHARED) sched_yield();
    IS(code, HK_OK), IS(hk_hand_drain(hand, 0, &word, 1), 1), IS(at(word)->square, 49);
    IS(pthread_join(thread, NULL), 0), IS(wrong, 0);
    hk_hand_free(hand);
}

int main(int argc, char **argv) {
    if (argc > 1) each = strtoull(argv[1], NULL, 10) / (2 * PAIRS);
    for (uint32_t pair = 0; pair < 4; pair++) pass(pair & 1, pair >> 1, 0);
    pass(HK_HTS, HK_HTS, 1);
    close_and_drain();
    return hk_count_up("pointers");
}
