/* What rte_ring says of a ring, part of hokhtura_rte.h. */
#ifndef HK_RTE_LOOKS_H
#define HK_RTE_LOOKS_H 1

#ifdef __cplusplus
extern "C" {
#endif

/* How many elements are queued, also while this thread or another one has a peek open. */
static inline unsigned int rte_ring_count(const struct rte_ring *r) {
    hk_hand *mine = hk_hands_mine(&r->take->hands), *hand = mine ? mine : hk_hands_borrow(&r->take->hands);
    int64_t count = hk_ring_count(hand, 0);
    if (!mine) hk_handles_return(&r->take->hands);
    return hkr_elements(count);
}

static inline unsigned int rte_ring_free_count(const struct rte_ring *r) { return r->capacity - rte_ring_count(r); }

static inline int rte_ring_full(const struct rte_ring *r) { return rte_ring_free_count(r) == 0; }

static inline int rte_ring_empty(const struct rte_ring *r) { return rte_ring_count(r) == 0; }

static inline unsigned int rte_ring_get_size(const struct rte_ring *r) { return r->size; }

static inline unsigned int rte_ring_get_capacity(const struct rte_ring *r) { return r->capacity; }

static inline enum rte_ring_sync_type rte_ring_get_prod_sync_type(const struct rte_ring *r) { return r->prod_sync; }

static inline enum rte_ring_sync_type rte_ring_get_cons_sync_type(const struct rte_ring *r) { return r->cons_sync; }

static inline int rte_ring_is_prod_single(const struct rte_ring *r) { return r->prod_sync == RTE_RING_SYNC_ST; }

static inline int rte_ring_is_cons_single(const struct rte_ring *r) { return r->cons_sync == RTE_RING_SYNC_ST; }

/* Takes all that is queued. */
static inline void rte_ring_reset(struct rte_ring *r) {
    hk_hand *mine = hk_hands_mine(&r->take->hands), *hand = mine ? mine : hk_hands_borrow(&r->take->hands);
    uint64_t words[HKR_PIECE];
    while (hk_take(hand, words, HKR_PIECE, 0) > 0) continue;
    if (!mine) hk_handles_return(&r->take->hands);
}

static inline void rte_ring_dump(FILE *f, const struct rte_ring *r) {
    unsigned int used = rte_ring_count(r);
    fprintf(f, "ring <%s>@%p (hokhtura)\n  flags=%x\n  size=%u\n  capacity=%u\n  used=%u\n  avail=%u\n", r->name,
            (const void *)r, (unsigned int)r->flags, r->size, r->capacity, used, r->capacity - used);
}

static inline void rte_ring_list_dump(FILE *f) {
    pthread_mutex_lock(&hkr_names.lock);
    for (const struct rte_ring *r = hkr_names.first; r; r = r->next) rte_ring_dump(f, r);
    pthread_mutex_unlock(&hkr_names.lock);
}

#ifdef __cplusplus
}
#endif
#endif
