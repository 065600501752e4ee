/* rte_ring's peeks, part of hokhtura_rte.h. A peek of more than HK_MAX_WORDS elements is refused if it is a bulk, and
 * has fewer if it is a burst. Zero copy shows the places of elements that have places. Words are on an array beside the
 * ring, and so are copied once. */
#ifndef HK_RTE_PEEKS_H
#define HK_RTE_PEEKS_H 1

#ifdef __cplusplus
extern "C" {
#endif

struct rte_ring_zc_data {
    void *ptr1;      /* the first elements */
    void *ptr2;      /* the others, or null if there are none */
    unsigned int n1; /* how many are at ptr1 */
} __rte_cache_aligned;

/* How many elements to peek at for n, or 0 if none: a side of many threads has no peeks, as in rte_ring. */
static inline size_t hkr_peeked(const struct rte_ring *r, enum rte_ring_sync_type sync, unsigned int esize,
                                unsigned int n, int bulk) {
    if (esize != r->esize || !hkr_peeks(sync)) return 0;
    return n <= HK_MAX_WORDS ? n : bulk ? 0 : HK_MAX_WORDS;
}

static inline unsigned int hkr_peek_put(struct rte_ring *r, unsigned int esize, unsigned int n, int bulk,
                                        unsigned int *left) {
    hk_hand *hand = hk_hands_mine(&r->put->hands);
    size_t most = hkr_peeked(r, r->prod_sync, esize, n, bulk);
    if (left) *left = 0;
    if (!hand || most == 0) return 0;
    int64_t count = hkr_reserve_put(r, hand, most, bulk);
    if (count > 0) r->put->open = (uint64_t)count;
    if (left) *left = hkr_elements(hk_hand_left(hand));
    return hkr_elements(count);
}

/* Shows words in the side's own room, which is this thread's until it finishes. */
static inline unsigned int hkr_peek_take(struct rte_ring *r, unsigned int esize, unsigned int n, int bulk,
                                         unsigned int *left) {
    hk_hand *hand = hk_hands_mine(&r->take->hands);
    size_t most = hkr_peeked(r, r->cons_sync, esize, n, bulk);
    if (left) *left = 0;
    if (!hand || most == 0) return 0;
    int64_t count = hkr_reserve_take(r, hand, most, bulk);
    if (left) *left = hkr_elements(hk_hand_left(hand));
    return hkr_elements(count);
}

/* The elements that a peek shows. */
static inline void hkr_copy_shown(const struct rte_ring *r, void *table, unsigned int n) {
    if (r->elements) hkr_copy_out(r, r->take->room[0], table, n);
    else memcpy(table, r->take->room, n * sizeof(uint64_t));
}

/* Puts the first n elements of a peek: those of a table, or those that are in their places, if it is null. A peek that
 * this thread hasn't open isn't finished. */
static inline void hkr_finish_put(struct rte_ring *r, const void *table, unsigned int n) {
    hk_hand *hand = hk_hands_mine(&r->put->hands);
    if (!hand || hk_hand_span(hand) != 1 || !r->put->room || n > r->put->open) return;
    if (r->elements) {
        if (table) hkr_copy_in(r, r->put->next, table, n);
        hkr_put_places(r, hand, n);
    } else {
        if (table) memcpy(r->put->room, table, n * sizeof(uint64_t));
        hkr_finishes(r);
        (void)!hk_ring_finish_put(hand, r->put->room, n);
    }
}

static inline void hkr_finish_take(struct rte_ring *r, unsigned int n) {
    hk_hand *hand = hk_hands_mine(&r->take->hands);
    hkr_finishes(r);
    if (hand) (void)!hk_ring_finish_take(hand, n);
}

/* Shows n elements from a place on, or n words. */
static inline void hkr_show(const struct rte_ring *r, struct hkr_side *side, uint64_t place, unsigned int n,
                            struct rte_ring_zc_data *zcd) {
    zcd->n1 = r->elements ? (unsigned int)hkr_before_end(r, place, n) : n;
    zcd->ptr1 = r->elements ? (void *)hkr_at(r, place) : side->room;
    zcd->ptr2 = zcd->n1 < n ? r->elements : NULL;
}

#define HKR_PEEKS(how, bulk)                                                                                        \
    static inline unsigned int rte_ring_enqueue_##how##_elem_start(struct rte_ring *r, unsigned int n,              \
                                                                   unsigned int *left) {                            \
        return hkr_peek_put(r, r->esize, n, bulk, left);                                                            \
    }                                                                                                               \
    static inline unsigned int rte_ring_enqueue_##how##_start(struct rte_ring *r, unsigned int n,                   \
                                                              unsigned int *left) {                                 \
        return hkr_peek_put(r, sizeof(void *), n, bulk, left);                                                      \
    }                                                                                                               \
    static inline unsigned int rte_ring_dequeue_##how##_elem_start(struct rte_ring *r, void *table,                 \
                                                                   unsigned int esize, unsigned int n,              \
                                                                   unsigned int *left) {                            \
        n = hkr_peek_take(r, esize, n, bulk, left);                                                                 \
        if (n != 0) hkr_copy_shown(r, table, n);                                                                    \
        return n;                                                                                                   \
    }                                                                                                               \
    static inline unsigned int rte_ring_dequeue_##how##_start(struct rte_ring *r, void **table, unsigned int n,     \
                                                              unsigned int *left) {                                 \
        return rte_ring_dequeue_##how##_elem_start(r, table, sizeof(void *), n, left);                              \
    }                                                                                                               \
    static inline unsigned int rte_ring_enqueue_zc_##how##_elem_start(                                              \
        struct rte_ring *r, unsigned int esize, unsigned int n, struct rte_ring_zc_data *zcd, unsigned int *left) { \
        n = hkr_peek_put(r, esize, n, bulk, left);                                                                  \
        hkr_show(r, r->put, r->put->next, n, zcd);                                                                  \
        return n;                                                                                                   \
    }                                                                                                               \
    static inline unsigned int rte_ring_enqueue_zc_##how##_start(                                                   \
        struct rte_ring *r, unsigned int n, struct rte_ring_zc_data *zcd, unsigned int *left) {                     \
        return rte_ring_enqueue_zc_##how##_elem_start(r, sizeof(void *), n, zcd, left);                             \
    }                                                                                                               \
    static inline unsigned int rte_ring_dequeue_zc_##how##_elem_start(                                              \
        struct rte_ring *r, unsigned int esize, unsigned int n, struct rte_ring_zc_data *zcd, unsigned int *left) { \
        n = hkr_peek_take(r, esize, n, bulk, left);                                                                 \
        hkr_show(r, r->take, n != 0 ? r->take->room[0] : 0, n, zcd);                                                \
        return n;                                                                                                   \
    }                                                                                                               \
    static inline unsigned int rte_ring_dequeue_zc_##how##_start(                                                   \
        struct rte_ring *r, unsigned int n, struct rte_ring_zc_data *zcd, unsigned int *left) {                     \
        return rte_ring_dequeue_zc_##how##_elem_start(r, sizeof(void *), n, zcd, left);                             \
    }

HKR_PEEKS(bulk, 1)
HKR_PEEKS(burst, 0)
#undef HKR_PEEKS

static inline void rte_ring_enqueue_elem_finish(struct rte_ring *r, const void *table, unsigned int esize,
                                                unsigned int n) {
    if (esize == r->esize) hkr_finish_put(r, table, n);
}

static inline void rte_ring_enqueue_finish(struct rte_ring *r, void *const *table, unsigned int n) {
    rte_ring_enqueue_elem_finish(r, table, sizeof(void *), n);
}

static inline void rte_ring_dequeue_elem_finish(struct rte_ring *r, unsigned int n) { hkr_finish_take(r, n); }

static inline void rte_ring_dequeue_finish(struct rte_ring *r, unsigned int n) { hkr_finish_take(r, n); }

static inline void rte_ring_enqueue_zc_elem_finish(struct rte_ring *r, unsigned int n) { hkr_finish_put(r, NULL, n); }

static inline void rte_ring_enqueue_zc_finish(struct rte_ring *r, unsigned int n) {
    rte_ring_enqueue_zc_elem_finish(r, n);
}

static inline void rte_ring_dequeue_zc_elem_finish(struct rte_ring *r, unsigned int n) { hkr_finish_take(r, n); }

static inline void rte_ring_dequeue_zc_finish(struct rte_ring *r, unsigned int n) { hkr_finish_take(r, n); }

#ifdef __cplusplus
}
#endif
#endif
