/* Calls of hokhtura.h that wait until they are done, for programs that have nothing else to do meanwhile. Each is a
 * loop over a `try` call: it tries, finishes what is pending, and relaxes between two tries. It ends when the call is
 * done, or with a code that trying again doesn't change, which then means what it means for the `try` call. A count
 * that never becomes available, or memory that a forwarding table doesn't get, is waited for until relax ends the loop.
 *
 * All of it is inline here: the library has none of these names, and none of its own calls waits. */
#ifndef HOKHTURA_WAIT_H
#define HOKHTURA_WAIT_H 1

#include "hokhtura.h"

#include <sched.h>

#ifdef __cplusplus
extern "C" {
#endif

/* What a loop does between two tries. It returns 0 to go on. With any other number the loop ends at once and returns
 * the code of the last try: HK_E_NOROOM, HK_E_AGAIN, or HK_E_PENDING (of a ring: the span is still open and to be
 * finished); hk_ring_put and hk_ring_take say below what they return. It may be a null pointer, for a pause of the
 * processor. It isn't called if the first try is enough. */
typedef int (*hk_relax)(void);

/* Lets other threads run. */
static inline int hk_relax_yield(void) {
    (void)sched_yield();
    return 0;
}

static inline int hk_goes_on(hk_relax relax) {
    if (relax) return relax() == 0;
#if defined(__x86_64__)
    __builtin_ia32_pause();
#endif
    return 1;
}

/* Tries again while the code is one that may change. */
#define HK_UNTIL(code, may_change, relax, call) \
    while ((may_change) && hk_goes_on(relax)) (code) = (call)

#define HK_MAY_CHANGE(code) ((code) == HK_E_NOROOM || (code) == HK_E_AGAIN)

/* Goes on with the put or the take that the hand has open, after a call on it returned a code. */
static inline int64_t hk_finish_put_after(hk_hand *hand, const uint64_t *words, size_t n, int64_t code,
                                          hk_relax relax) {
    HK_UNTIL(code, code == HK_E_PENDING, relax, hk_ring_finish_put(hand, words, n));
    return code;
}

static inline int64_t hk_finish_take_after(hk_hand *hand, size_t n, int64_t code, hk_relax relax) {
    HK_UNTIL(code, code == HK_E_PENDING, relax, hk_ring_finish_take(hand, n));
    return code;
}

/* Waits until there is room for n words, and then puts them next to each other on a ring. n has the range of
 * hk_ring_try_put_bulk. Returns n. On a ring that holds fewer it waits until relax ends it. */
static inline int64_t hk_ring_put_bulk(hk_hand *hand, size_t ring, const uint64_t *words, size_t n, hk_relax relax) {
    int64_t code = hk_ring_try_put_bulk(hand, ring, words, n);
    HK_UNTIL(code, HK_MAY_CHANGE(code), relax, hk_ring_try_put_bulk(hand, ring, words, n));
    return hk_finish_put_after(hand, words, n, code, relax);
}

/* Waits until there is room for a word, and then puts up to n words. n has the range of hk_ring_try_put_burst. Returns
 * how many were put. */
static inline int64_t hk_ring_put_burst(hk_hand *hand, size_t ring, const uint64_t *words, size_t n, hk_relax relax) {
    int64_t code = hk_ring_try_put_burst(hand, ring, words, n);
    HK_UNTIL(code, HK_MAY_CHANGE(code), relax, hk_ring_try_put_burst(hand, ring, words, n));
    return hk_finish_put_after(hand, words, n, code, relax);
}

/* Waits until n words are queued, and then takes them. n has the range of hk_ring_try_take_bulk. Returns n. On a ring
 * that holds fewer it waits until relax ends it. */
static inline int64_t hk_ring_take_bulk(hk_hand *hand, size_t ring, uint64_t *words, size_t n, hk_relax relax) {
    int64_t code = hk_ring_try_take_bulk(hand, ring, words, n);
    HK_UNTIL(code, HK_MAY_CHANGE(code), relax, hk_ring_try_take_bulk(hand, ring, words, n));
    return hk_finish_take_after(hand, n, code, relax);
}

/* Waits until a word is queued, and then takes up to n words. n has the range of hk_ring_try_take_burst. Returns how
 * many were taken. */
static inline int64_t hk_ring_take_burst(hk_hand *hand, size_t ring, uint64_t *words, size_t n, hk_relax relax) {
    int64_t code = hk_ring_try_take_burst(hand, ring, words, n);
    HK_UNTIL(code, HK_MAY_CHANGE(code), relax, hk_ring_try_take_burst(hand, ring, words, n));
    return hk_finish_take_after(hand, n, code, relax);
}

/* Puts n words, any number from 1 on, in their order, as there is room; other threads' words may come between them.
 * Returns n. If it ends before that, it returns how many were put, or the code if none was; hk_hand_span says whether a
 * put is pending then: that of the next words, HK_MAX_WORDS of them or as many as there are. */
static inline int64_t hk_ring_put(hk_hand *hand, size_t ring, const uint64_t *words, size_t n, hk_relax relax) {
    size_t done = 0;
    int64_t code = HK_OK;
    do {
        size_t next = n - done < HK_MAX_WORDS ? n - done : HK_MAX_WORDS;
        code = hk_ring_put_burst(hand, ring, words ? words + done : words, next, relax);
        if (code > 0) done += (size_t)code;
    } while (code > 0 && done < n);
    return done > 0 ? (int64_t)done : code;
}

/* Takes n words, any number from 1 on, as they come. Returns n. If it ends before that, it returns how many were taken,
 * or the code if none was; hk_hand_span says whether a take is pending then, for the next places of the array,
 * HK_MAX_WORDS of them or as many as there are. */
static inline int64_t hk_ring_take(hk_hand *hand, size_t ring, uint64_t *words, size_t n, hk_relax relax) {
    size_t done = 0;
    int64_t code = HK_OK;
    do {
        size_t next = n - done < HK_MAX_WORDS ? n - done : HK_MAX_WORDS;
        code = hk_ring_take_burst(hand, ring, words ? words + done : words, next, relax);
        if (code > 0) done += (size_t)code;
    } while (code > 0 && done < n);
    return done > 0 ? (int64_t)done : code;
}

/* Gets n numbers, 1 to HK_MAX_NUMBERS, once cache and free ring have as many. Returns n. */
static inline int64_t hk_pool_get_bulk(hk_pool *pool, uint32_t *numbers, size_t n, hk_relax relax) {
    int64_t code = hk_pool_try_get_bulk(pool, numbers, n);
    HK_UNTIL(code, HK_MAY_CHANGE(code), relax, hk_pool_try_get_bulk(pool, numbers, n));
    return code;
}

/* Puts n numbers back, 1 to HK_MAX_NUMBERS. Returns n. */
static inline int64_t hk_pool_put_bulk(hk_pool *pool, const uint32_t *numbers, size_t n, hk_relax relax) {
    int64_t code = hk_pool_try_put_bulk(pool, numbers, n);
    HK_UNTIL(code, HK_MAY_CHANGE(code), relax, hk_pool_try_put_bulk(pool, numbers, n));
    return code;
}

/* Puts all that is cached on the free ring. Returns how many. */
static inline int64_t hk_pool_flush(hk_pool *pool, hk_relax relax) {
    int64_t code = hk_pool_try_flush(pool);
    HK_UNTIL(code, HK_MAY_CHANGE(code), relax, hk_pool_try_flush(pool));
    return code;
}

/* Puts n numbers, 1 to HK_MAX_NUMBERS, on a ring of the pool. Returns n. */
static inline int64_t hk_pool_send_bulk(hk_pool *pool, size_t ring, const uint32_t *numbers, size_t n, hk_relax relax) {
    int64_t code = hk_pool_try_send_bulk(pool, ring, numbers, n);
    HK_UNTIL(code, HK_MAY_CHANGE(code), relax, hk_pool_try_send_bulk(pool, ring, numbers, n));
    return code;
}

/* Puts as many of n numbers, 1 to HK_MAX_NUMBERS, on a ring of the pool as there is room for, which are all. Returns
 * how many. */
static inline int64_t hk_pool_send_burst(hk_pool *pool, size_t ring, const uint32_t *numbers, size_t n,
                                         hk_relax relax) {
    int64_t code = hk_pool_try_send_burst(pool, ring, numbers, n);
    HK_UNTIL(code, HK_MAY_CHANGE(code), relax, hk_pool_try_send_burst(pool, ring, numbers, n));
    return code;
}

/* Takes n numbers, 1 to HK_MAX_NUMBERS, from a ring of the pool, once as many are there. Returns n. */
static inline int64_t hk_pool_receive_bulk(hk_pool *pool, size_t ring, uint32_t *numbers, size_t n, hk_relax relax) {
    int64_t code = hk_pool_try_receive_bulk(pool, ring, numbers, n);
    HK_UNTIL(code, HK_MAY_CHANGE(code), relax, hk_pool_try_receive_bulk(pool, ring, numbers, n));
    return code;
}

/* Waits until a number is queued on a ring of the pool, and then takes up to n, 1 to HK_MAX_NUMBERS. Returns how many
 * were taken. */
static inline int64_t hk_pool_receive_burst(hk_pool *pool, size_t ring, uint32_t *numbers, size_t n, hk_relax relax) {
    int64_t code = hk_pool_try_receive_burst(pool, ring, numbers, n);
    HK_UNTIL(code, HK_MAY_CHANGE(code), relax, hk_pool_try_receive_burst(pool, ring, numbers, n));
    return code;
}

/* Settles the last version, once no reader uses or holds the one before. Until the next hk_fib_publish no change
 * returns HK_E_PENDING then. */
static inline int64_t hk_fib_settle_wait(hk_fib *fib, hk_relax relax) {
    int64_t code = hk_fib_settle(fib);
    HK_UNTIL(code, code == HK_E_PENDING, relax, hk_fib_settle(fib));
    return code;
}

/* Publishes all prepared changes, once the last version is settled. HK_E_MEMORY: it couldn't be settled, or nothing was
 * published. */
static inline int64_t hk_fib_publish_wait(hk_fib *fib, hk_relax relax) {
    int64_t code = hk_fib_settle_wait(fib, relax);
    return code < 0 ? code : hk_fib_publish(fib);
}

#undef HK_UNTIL
#undef HK_MAY_CHANGE

#ifdef __cplusplus
}
#endif
#endif
