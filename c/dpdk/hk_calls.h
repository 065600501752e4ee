/* Puts and takes as DPDK's calls make them: each goes on until it is done or there is too little room or too few words,
 * and so it may wait for a call of another thread that isn't finished yet.
 *
 * One call on a head/tail-sync side moves HK_MAX_WORDS words at most, so longer ones are made of pieces here. */
#ifndef HK_CALLS_H
#define HK_CALLS_H 1

#include "../hokhtura_wait.h"

#include <rte_branch_prediction.h>
#include <rte_common.h>
#include <rte_pause.h>

/* What follows a first try that returned a code. Apart, so that a first try that succeeds saves no registers. */
static __rte_noinline int64_t hk_put_on(hk_hand *hand, const uint64_t *words, size_t n, int bulk, int64_t code) {
    while (code == HK_E_AGAIN) {
        rte_pause();
        code = bulk ? hk_ring_try_put_bulk(hand, 0, words, n) : hk_ring_try_put_burst(hand, 0, words, n);
    }
    return hk_finish_put_after(hand, words, n, code, NULL);
}

static __rte_noinline int64_t hk_take_on(hk_hand *hand, uint64_t *words, size_t n, int bulk, int64_t code) {
    while (code == HK_E_AGAIN) {
        rte_pause();
        code = bulk ? hk_ring_try_take_bulk(hand, 0, words, n) : hk_ring_try_take_burst(hand, 0, words, n);
    }
    return hk_finish_take_after(hand, n, code, NULL);
}

/* Puts n words, as many as the side's calls move, on ring 0. Returns how many; HK_E_NOROOM, HK_E_WORN; HK_E_OPEN: the
 * hand has a peek. */
static __rte_always_inline int64_t hk_put(hk_hand *hand, const uint64_t *words, size_t n, int bulk) {
    int64_t code = bulk ? hk_ring_try_put_bulk(hand, 0, words, n) : hk_ring_try_put_burst(hand, 0, words, n);
    return likely(code >= 0) ? code : hk_put_on(hand, words, n, bulk, code);
}

static __rte_always_inline int64_t hk_take(hk_hand *hand, uint64_t *words, size_t n, int bulk) {
    int64_t code = bulk ? hk_ring_try_take_bulk(hand, 0, words, n) : hk_ring_try_take_burst(hand, 0, words, n);
    return likely(code >= 0) ? code : hk_take_on(hand, words, n, bulk, code);
}

/* The same with one word, by value. */
static __rte_noinline int64_t hk_put_one_on(hk_hand *hand, uint64_t word, int64_t code) {
    return hk_put_on(hand, &word, 1, 1, code);
}

static __rte_always_inline int64_t hk_put_one(hk_hand *hand, uint64_t word) {
    int64_t code = hk_ring_try_put_one(hand, 0, word);
    return likely(code >= 0) ? code : hk_put_one_on(hand, word, code);
}

static __rte_always_inline int64_t hk_take_one(hk_hand *hand, uint64_t *word) {
    int64_t code = hk_ring_try_take_one(hand, 0, word);
    return likely(code >= 0) ? code : hk_take_on(hand, word, 1, 1, code);
}

/* Puts n words, any number, in pieces of HK_MAX_WORDS. Returns how many were put: fewer if a piece found too little
 * room. Words of other threads may come between two pieces. */
static inline size_t hk_put_pieces(hk_hand *hand, const uint64_t *words, size_t n) {
    for (size_t done = 0; done < n;) {
        int64_t count = hk_put(hand, words + done, RTE_MIN(n - done, (size_t)HK_MAX_WORDS), 1);
        if (count < 0) return done;
        done += (size_t)count;
    }
    return n;
}

static inline size_t hk_take_pieces(hk_hand *hand, uint64_t *words, size_t n) {
    for (size_t done = 0; done < n;) {
        int64_t count = hk_take(hand, words + done, RTE_MIN(n - done, (size_t)HK_MAX_WORDS), 1);
        if (count < 0) return done;
        done += (size_t)count;
    }
    return n;
}

#endif
