/* A driver of rte_mempool: the common pool of a mempool is a ring of the library, whose words are pointers to
 * objects.
 *
 * The ops `hokhtura` have a ring with any number of producers and consumers, `hokhtura_hts` one with head/tail sync.
 * Built with HK_FOR_ALL_POOLS, for preloading, the driver has no names of its own: it takes the place of DPDK's ring
 * driver when that registers its names.
 *
 * A ring is private memory of the primary process, so a mempool holds the number of its ring, which leads nowhere in
 * a secondary process. */
#define _GNU_SOURCE /* for RTLD_NEXT */
#define HK_THREADS_STORAGE static
#include "hk_calls.h"
#include "hk_hands.h"

#include <dlfcn.h>
#include <stdatomic.h>

#include <rte_eal.h>
#include <rte_errno.h>
#include <rte_log.h>
#include <rte_malloc.h>
#include <rte_mempool.h>

_Static_assert(sizeof(void *) == sizeof(uint64_t), "a pointer is a word");

#define SAY(level, ...) RTE_LOG(level, MEMPOOL, "hokhtura: " __VA_ARGS__)

/* The most objects: one slot of 2^20 stays free. */
#define MAX_OBJECTS ((1u << 20) - 1)

/* The rings of this process by their numbers. There are no more mempools than memzones. A mempool whose ring was
 * refused has the number 0, and is freed with it. */
static struct hk_handles *rings[1 + RTE_MAX_MEMZONE];
static pthread_mutex_t of_rings = PTHREAD_MUTEX_INITIALIZER;

/* The hands of lcores that have called, by the numbers of rings: a call finds its own by one load. */
static hk_hand *of_lcores[RTE_DIM(rings)][RTE_MAX_LCORE];

/* ---- Memory of the rings: DPDK's, on the socket of the mempool ----------------------------------------------------*/

static __thread int socket_id = SOCKET_ID_ANY;

static void *allocate(size_t size) { return rte_malloc_socket("hokhtura", size, RTE_CACHE_LINE_SIZE, socket_id); }

static const hk_allocator of_dpdk = {.allocate = allocate, .resize = NULL, .release = rte_free};

/* ---- The ring of a mempool ----------------------------------------------------------------------------------------*/

static inline struct hk_handles *ring_of(const struct rte_mempool *mp) {
    return mp->pool_id < RTE_DIM(rings) ? rings[mp->pool_id] : NULL;
}

static __rte_noinline int no_ring(void) {
    static atomic_flag said = ATOMIC_FLAG_INIT;
    if (!atomic_flag_test_and_set(&said)) SAY(ERR, "only the process that made a mempool can use it\n");
    return -E_RTE_SECONDARY;
}

/* A free number for these hands, or 0. */
static uint64_t number_of(struct hk_handles *hands) {
    uint64_t number = 1;
    pthread_mutex_lock(&of_rings);
    while (number < RTE_DIM(rings) && rings[number]) number++;
    if (number < RTE_DIM(rings)) rings[number] = hands;
    pthread_mutex_unlock(&of_rings);
    return number < RTE_DIM(rings) ? number : 0;
}

static int open_ring(struct hk_handles *hands, const struct rte_mempool *mp, uint32_t mode) {
    hk_ring_plan plan = {.size = mp->size, .exact = 1, .put = mode, .take = mode};
    hk_hand *first;
    (void)!hk_set_allocator(&of_dpdk); /* HK_E_BEGUN after the first ring */
    socket_id = mp->socket_id;
    int64_t code = hk_hand_open(&first, &plan, 1);
    socket_id = SOCKET_ID_ANY;
    if (code < 0) return code == HK_E_MEMORY ? -ENOMEM : -EINVAL;
    if (hk_hands_open(hands, first)) return 0;
    hk_hand_free(first);
    return -ENOMEM;
}

static int make(struct rte_mempool *mp, uint32_t mode) {
    int code = -ENOMEM;
    if (rte_eal_process_type() != RTE_PROC_PRIMARY) {
        SAY(ERR, "%s: a secondary process can't make a mempool\n", mp->name);
        return -E_RTE_SECONDARY;
    }
    if (mp->size > MAX_OBJECTS) {
        SAY(ERR, "%s: %u objects, and a ring holds %u\n", mp->name, mp->size, MAX_OBJECTS);
        return -EINVAL;
    }
    struct hk_handles *hands = rte_zmalloc_socket("hokhtura", sizeof *hands, RTE_CACHE_LINE_SIZE, mp->socket_id);
    if (hands) code = open_ring(hands, mp, mode);
    if (code == 0 && (mp->pool_id = number_of(hands)) == 0) {
        hk_handles_close(hands);
        code = -ENOSPC;
    }
    if (code == 0) return 0;
    rte_free(hands);
    SAY(ERR, "%s: no ring for %u objects: %s\n", mp->name, mp->size, rte_strerror(-code));
    return code;
}

static int make_multi(struct rte_mempool *mp) { return make(mp, HK_MULTI); }
static int make_hts(struct rte_mempool *mp) { return make(mp, HK_HTS); }

static void end(struct rte_mempool *mp) {
    struct hk_handles *hands = ring_of(mp);
    if (!hands) return;
    memset(of_lcores[mp->pool_id], 0, sizeof of_lcores[0]);
    pthread_mutex_lock(&of_rings);
    rings[mp->pool_id] = NULL;
    pthread_mutex_unlock(&of_rings);
    mp->pool_id = 0;
    hk_handles_close(hands);
    rte_free(hands);
}

/* ---- Objects ------------------------------------------------------------------------------------------------------*/

/* The hand that this lcore has called with; null if it hasn't, and for another thread. */
static __rte_always_inline hk_hand *hand_at_once(const struct rte_mempool *mp) {
    unsigned lcore = rte_lcore_id();
    return likely(lcore < RTE_MAX_LCORE && mp->pool_id < RTE_DIM(rings)) ? of_lcores[mp->pool_id][lcore] : NULL;
}

/* The hand of this thread on a ring, or null if there is no memory for it. */
static hk_hand *hand_of(const struct rte_mempool *mp, struct hk_handles *hands) {
    unsigned lcore = rte_lcore_id();
    hk_hand *hand = hk_hands_mine(hands);
    if (lcore < RTE_MAX_LCORE) of_lcores[mp->pool_id][lcore] = hand;
    return hand;
}

/* What a call needs to go on after its first try. It is in memory, so that a first try that succeeds saves no
 * registers. */
struct put_call {
    hk_hand *hand;
    const uint64_t *words;
    unsigned n;
};

struct take_call {
    hk_hand *hand;
    uint64_t *words;
    unsigned n;
};

/* The first try. A count that isn't one of the library's is refused before anything else. */
static __rte_always_inline int64_t try_put(const struct put_call *call) {
    return call->n == 1 ? hk_ring_try_put_one(call->hand, 0, call->words[0])
                        : hk_ring_try_put_bulk(call->hand, 0, call->words, call->n);
}

static __rte_always_inline int64_t try_take(const struct take_call *call) {
    return call->n == 1 ? hk_ring_try_take_one(call->hand, 0, call->words)
                        : hk_ring_try_take_bulk(call->hand, 0, call->words, call->n);
}

/* Goes on after a first try that returned a code. */
static __rte_noinline int put_on(const struct put_call *call, int64_t code) {
    if (code == HK_E_COUNT) return hk_put_pieces(call->hand, call->words, call->n) == call->n ? 0 : -ENOBUFS;
    return hk_put_on(call->hand, call->words, call->n, 1, code) >= 0 ? 0 : -ENOBUFS;
}

/* All or none: what was taken of too few objects goes back. There is room for it, since there is for all objects. */
static int take_long(const struct take_call *call) {
    size_t got = hk_take_pieces(call->hand, call->words, call->n);
    if (got == call->n) return 0;
    (void)hk_put_pieces(call->hand, call->words, got);
    return -ENOBUFS;
}

static __rte_noinline int take_on(const struct take_call *call, int64_t code) {
    if (code == HK_E_COUNT) return take_long(call);
    return hk_take_on(call->hand, call->words, call->n, 1, code) >= 0 ? 0 : -ENOBUFS;
}

static __rte_always_inline int put(const struct put_call *call) {
    int64_t code = try_put(call);
    return likely(code >= 0) ? 0 : put_on(call, code);
}

static __rte_always_inline int take(const struct take_call *call) {
    int64_t code = try_take(call);
    return likely(code >= 0) ? 0 : take_on(call, code);
}

/* rte_mempool doesn't look at what an enqueue returns, so it mustn't fail: a thread that has no memory for a hand of
 * its own borrows one. */
static __rte_noinline int put_otherwise(const struct rte_mempool *mp, const uint64_t *words, unsigned n) {
    struct hk_handles *hands = ring_of(mp);
    if (!hands) return no_ring();
    hk_hand *hand = hand_of(mp, hands);
    int code = put(&(struct put_call){hand ? hand : hk_hands_borrow(hands), words, n});
    if (!hand) hk_handles_return(hands);
    return code;
}

static __rte_noinline int take_otherwise(const struct rte_mempool *mp, uint64_t *words, unsigned n) {
    struct hk_handles *hands = ring_of(mp);
    if (!hands) return no_ring();
    hk_hand *hand = hand_of(mp, hands);
    int code = take(&(struct take_call){hand ? hand : hk_hands_borrow(hands), words, n});
    if (!hand) hk_handles_return(hands);
    return code;
}

static int enqueue(struct rte_mempool *mp, void *const *objects, unsigned n) {
    const uint64_t *words = (const uint64_t *)(const void *)objects;
    hk_hand *hand = hand_at_once(mp);
    return likely(hand != NULL) ? put(&(struct put_call){hand, words, n}) : put_otherwise(mp, words, n);
}

static int dequeue(struct rte_mempool *mp, void **objects, unsigned n) {
    uint64_t *words = (uint64_t *)(void *)objects;
    hk_hand *hand = hand_at_once(mp);
    return likely(hand != NULL) ? take(&(struct take_call){hand, words, n}) : take_otherwise(mp, words, n);
}

static unsigned get_count(const struct rte_mempool *mp) {
    struct hk_handles *hands = ring_of(mp);
    if (!hands) return no_ring(), 0;
    hk_hand *hand = hk_hands_mine(hands);
    int64_t count = hk_ring_count(hand ? hand : hk_hands_borrow(hands), 0);
    if (!hand) hk_handles_return(hands);
    return count < 0 ? 0 : (unsigned)count;
}

/* ---- Names --------------------------------------------------------------------------------------------------------*/

#define OPS(text, how) \
    {.name = text, .alloc = how, .free = end, .enqueue = enqueue, .dequeue = dequeue, .get_count = get_count}

#ifdef HK_FOR_ALL_POOLS
static const struct rte_mempool_ops of_ring_driver[] = {
    OPS("ring_mp_mc", make_multi), OPS("ring_sp_sc", make_multi),  OPS("ring_mp_sc", make_multi),
    OPS("ring_sp_mc", make_multi), OPS("ring_mt_rts", make_multi), OPS("ring_mt_hts", make_hts),
};

/* Comes before rte_mempool's own, which has places for 16 ops in all. */
__attribute__((visibility("default"))) int rte_mempool_register_ops(const struct rte_mempool_ops *ops) {
    int (*next)(const struct rte_mempool_ops *) =
        (int (*)(const struct rte_mempool_ops *))dlsym(RTLD_NEXT, "rte_mempool_register_ops");
    if (!next) return -ENOTSUP;
    for (size_t i = 0; i < RTE_DIM(of_ring_driver); i++)
        if (!strcmp(ops->name, of_ring_driver[i].name)) {
            ops = &of_ring_driver[i];
            SAY(NOTICE, "in place of %s\n", ops->name);
        }
    return next(ops);
}
#else
static const struct rte_mempool_ops multi = OPS("hokhtura", make_multi), hts = OPS("hokhtura_hts", make_hts);
RTE_MEMPOOL_REGISTER_OPS(multi)
RTE_MEMPOOL_REGISTER_OPS(hts)
#endif
