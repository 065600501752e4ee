/* A put that is finished before it returns: how many words, or a code other than HK_E_PENDING. */
#include <hokhtura.h>
#include <sched.h>

static int64_t put(hk_hand *hand, const uint64_t *words, size_t n) {
    int64_t count = hk_ring_try_put_burst(hand, 0, words, n);
    while (count == HK_E_PENDING) {
        sched_yield();
        count = hk_ring_finish_put(hand, words, n);
    }
    return count;
}
