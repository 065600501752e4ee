/* rte_ring's enqueues and dequeues, part of hokhtura_rte.h. The ring's mode decides how threads are kept apart,
 * whichever name a call has: rte_ring_sp_enqueue on a ring of many producers is safe. */
#ifndef HK_RTE_CALLS_H
#define HK_RTE_CALLS_H 1

#ifdef __cplusplus
extern "C" {
#endif

/* Whether an array of elements is an array of words. */
static __rte_always_inline int hkr_is_words(const struct rte_ring *r, const void *table) {
    return r->esize == sizeof(uint64_t) && (uintptr_t)table % sizeof(uint64_t) == 0;
}

/* How many elements a count stands for: none if it is a code. */
static __rte_always_inline unsigned int hkr_elements(int64_t count) {
    return likely(count > 0) ? (unsigned int)count : 0;
}

/* ---- Calls whose elements aren't words, long calls, and calls of a thread without a hand ------------------------- */

/* How many elements are in one piece of a call on a side: fewer if they are copied to words. A multi side moves all. */
static inline size_t hkr_piece(const struct rte_ring *r, enum rte_ring_sync_type sync, const void *table) {
    if (!r->elements && !hkr_is_words(r, table)) return HKR_PIECE;
    return hkr_mode(r, sync) == HK_MULTI ? HK_MAX_WORDS_MULTI : HK_MAX_WORDS;
}

static inline int64_t hkr_put_piece(struct rte_ring *r, hk_hand *hand, const void *table, size_t n, int bulk) {
    uint64_t words[HKR_PIECE];
    if (r->elements) return hkr_put_elements(r, hand, table, n, bulk);
    if (hkr_is_words(r, table)) return hk_put(hand, (const uint64_t *)table, n, bulk);
    memcpy(words, table, n * sizeof words[0]);
    return hk_put(hand, words, n, bulk);
}

static inline int64_t hkr_take_piece(struct rte_ring *r, hk_hand *hand, void *table, size_t n, int bulk) {
    uint64_t words[HKR_PIECE];
    if (r->elements) return hkr_take_elements(r, hand, table, n, bulk);
    if (hkr_is_words(r, table)) return hk_take(hand, (uint64_t *)table, n, bulk);
    int64_t count = hk_take(hand, words, n, bulk);
    memcpy(table, words, hkr_elements(count) * sizeof words[0]);
    return count;
}

/* Enqueues in pieces. Elements of other threads may come between two pieces, or use room that they had reserved already
 * when it was looked at: a bulk, which may not stop in the middle, then waits for room. */
static inline unsigned int hkr_put_pieces(struct rte_ring *r, hk_hand *hand, const void *table, size_t n, int bulk) {
    size_t most = hkr_piece(r, r->prod_sync, table), done = 0;
    while (done < n) {
        size_t next = RTE_MIN(n - done, most);
        int64_t count = hkr_put_piece(r, hand, (const char *)table + done * r->esize, next, bulk);
        done += hkr_elements(count);
        if (count == (int64_t)next) continue;
        if (!bulk || done == 0 || count != HK_E_NOROOM) break;
        rte_pause();
    }
    return (unsigned int)done;
}

static inline unsigned int hkr_take_pieces(struct rte_ring *r, hk_hand *hand, void *table, size_t n, int bulk) {
    size_t most = hkr_piece(r, r->cons_sync, table), done = 0;
    while (done < n) {
        size_t next = RTE_MIN(n - done, most);
        int64_t count = hkr_take_piece(r, hand, (char *)table + done * r->esize, next, bulk);
        done += hkr_elements(count);
        if (count == (int64_t)next) continue;
        if (!bulk || done == 0 || count != HK_E_NOROOM) break;
        rte_pause();
    }
    return (unsigned int)done;
}

/* All of a call that isn't a single call of the library. A bulk of more than one piece first looks whether there is
 * enough; so does a call for no elements, which only says how much there is. */
static __rte_noinline unsigned int hkr_put_otherwise(struct rte_ring *r, const void *table, unsigned int esize,
                                                     unsigned int n, int bulk, unsigned int *left) {
    hk_hand *mine = hk_hands_mine(&r->put->hands), *hand = mine ? mine : hk_hands_borrow(&r->put->hands);
    int is_long = bulk && n > hkr_piece(r, r->prod_sync, table), looks = is_long || n == 0;
    unsigned int done = 0;
    int64_t room = 0;
    if (esize == r->esize) {
        if (is_long) pthread_mutex_lock(&r->put->of_long);
        if (looks) room = hk_ring_room(hand, 0);
        if (n != 0 && (!looks || room >= (int64_t)n)) {
            done = hkr_put_pieces(r, hand, table, n, bulk);
            room = hk_hand_left(hand);
        }
        if (is_long) pthread_mutex_unlock(&r->put->of_long);
    }
    if (left) *left = hkr_elements(room);
    if (!mine) hk_handles_return(&r->put->hands);
    return done;
}

static __rte_noinline unsigned int hkr_take_otherwise(struct rte_ring *r, void *table, unsigned int esize,
                                                      unsigned int n, int bulk, unsigned int *left) {
    hk_hand *mine = hk_hands_mine(&r->take->hands), *hand = mine ? mine : hk_hands_borrow(&r->take->hands);
    int is_long = bulk && n > hkr_piece(r, r->cons_sync, table), looks = is_long || n == 0;
    unsigned int done = 0;
    int64_t queued = 0;
    if (esize == r->esize) {
        if (is_long) pthread_mutex_lock(&r->take->of_long);
        if (looks) queued = hk_ring_count(hand, 0);
        if (n != 0 && (!looks || queued >= (int64_t)n)) {
            done = hkr_take_pieces(r, hand, table, n, bulk);
            queued = hk_hand_left(hand);
        }
        if (is_long) pthread_mutex_unlock(&r->take->of_long);
    }
    if (left) *left = hkr_elements(queued);
    if (!mine) hk_handles_return(&r->take->hands);
    return done;
}

/* ---- Calls ------------------------------------------------------------------------------------------------------- */

/* Whether one call of the library does: with a hand, for elements of the ring's size that are words, and not too many
 * or none. */
static __rte_always_inline int hkr_is_usual(const struct rte_ring *r, const hk_hand *hand, const void *table,
                                            unsigned int esize, unsigned int n) {
    return likely(hand != NULL && esize == r->esize && hkr_is_words(r, table) && n - 1 < HK_MAX_WORDS);
}

/* Whether one peek of the library does: for elements that have places. */
static __rte_always_inline int hkr_is_placed(const struct rte_ring *r, const hk_hand *hand, unsigned int esize,
                                             unsigned int n) {
    return esize != sizeof(uint64_t) && hand != NULL && esize == r->esize && n - 1 < HK_MAX_WORDS;
}

static __rte_noinline unsigned int hkr_put_placed(struct rte_ring *r, hk_hand *hand, const void *table, unsigned int n,
                                                  int bulk, unsigned int *left) {
    int64_t count = hkr_put_elements(r, hand, table, n, bulk);
    if (left) *left = (unsigned int)hk_hand_left(hand);
    return hkr_elements(count);
}

static __rte_noinline unsigned int hkr_take_placed(struct rte_ring *r, hk_hand *hand, void *table, unsigned int n,
                                                   int bulk, unsigned int *left) {
    int64_t count = hkr_take_elements(r, hand, table, n, bulk);
    if (left) *left = (unsigned int)hk_hand_left(hand);
    return hkr_elements(count);
}

/* A single call, which the compiler sees: its word is passed by value. */
#define HKR_IS_ONE(n) (__builtin_constant_p(n) && (n) == 1)

static __rte_always_inline int64_t hkr_put_words(hk_hand *hand, const void *table, unsigned int n, int bulk) {
    uint64_t word;
    if (!HKR_IS_ONE(n)) return hk_put(hand, (const uint64_t *)table, n, bulk);
    memcpy(&word, table, sizeof word);
    return hk_put_one(hand, word);
}

static __rte_always_inline int64_t hkr_take_words(hk_hand *hand, void *table, unsigned int n, int bulk) {
    return HKR_IS_ONE(n) ? hk_take_one(hand, (uint64_t *)table) : hk_take(hand, (uint64_t *)table, n, bulk);
}

static __rte_always_inline unsigned int hkr_enqueue(struct rte_ring *r, const void *table, unsigned int esize,
                                                    unsigned int n, int bulk, unsigned int *left) {
    hk_hand *hand = hk_hands_mine(&r->put->hands);
    if (hkr_is_placed(r, hand, esize, n)) return hkr_put_placed(r, hand, table, n, bulk, left);
    if (!hkr_is_usual(r, hand, table, esize, n)) return hkr_put_otherwise(r, table, esize, n, bulk, left);
    int64_t count = hkr_put_words(hand, table, n, bulk);
    if (left) *left = (unsigned int)hk_hand_left(hand);
    return hkr_elements(count);
}

static __rte_always_inline unsigned int hkr_dequeue(struct rte_ring *r, void *table, unsigned int esize,
                                                    unsigned int n, int bulk, unsigned int *left) {
    hk_hand *hand = hk_hands_mine(&r->take->hands);
    if (hkr_is_placed(r, hand, esize, n)) return hkr_take_placed(r, hand, table, n, bulk, left);
    if (!hkr_is_usual(r, hand, table, esize, n)) return hkr_take_otherwise(r, table, esize, n, bulk, left);
    int64_t count = hkr_take_words(hand, table, n, bulk);
    if (left) *left = (unsigned int)hk_hand_left(hand);
    return hkr_elements(count);
}

/* The six calls of rte_ring for each of these prefixes. */
#define HKR_ENQUEUES(prefix)                                                                                      \
    static __rte_always_inline unsigned int rte_ring_##prefix##enqueue_bulk_elem(                                 \
        struct rte_ring *r, const void *table, unsigned int esize, unsigned int n, unsigned int *left) {          \
        return hkr_enqueue(r, table, esize, n, 1, left);                                                          \
    }                                                                                                             \
    static __rte_always_inline unsigned int rte_ring_##prefix##enqueue_burst_elem(                                \
        struct rte_ring *r, const void *table, unsigned int esize, unsigned int n, unsigned int *left) {          \
        return hkr_enqueue(r, table, esize, n, 0, left);                                                          \
    }                                                                                                             \
    static __rte_always_inline int rte_ring_##prefix##enqueue_elem(struct rte_ring *r, void *element,             \
                                                                   unsigned int esize) {                          \
        return hkr_enqueue(r, element, esize, 1, 1, NULL) ? 0 : -ENOBUFS;                                         \
    }                                                                                                             \
    static __rte_always_inline unsigned int rte_ring_##prefix##enqueue_bulk(                                      \
        struct rte_ring *r, void *const *table, unsigned int n, unsigned int *left) {                             \
        return hkr_enqueue(r, table, sizeof(void *), n, 1, left);                                                 \
    }                                                                                                             \
    static __rte_always_inline unsigned int rte_ring_##prefix##enqueue_burst(                                     \
        struct rte_ring *r, void *const *table, unsigned int n, unsigned int *left) {                             \
        return hkr_enqueue(r, table, sizeof(void *), n, 0, left);                                                 \
    }                                                                                                             \
    static __rte_always_inline int rte_ring_##prefix##enqueue(struct rte_ring *r, void *object) {                 \
        return hkr_enqueue(r, &object, sizeof(void *), 1, 1, NULL) ? 0 : -ENOBUFS;                                \
    }

#define HKR_DEQUEUES(prefix)                                                                                      \
    static __rte_always_inline unsigned int rte_ring_##prefix##dequeue_bulk_elem(                                 \
        struct rte_ring *r, void *table, unsigned int esize, unsigned int n, unsigned int *left) {                \
        return hkr_dequeue(r, table, esize, n, 1, left);                                                          \
    }                                                                                                             \
    static __rte_always_inline unsigned int rte_ring_##prefix##dequeue_burst_elem(                                \
        struct rte_ring *r, void *table, unsigned int esize, unsigned int n, unsigned int *left) {                \
        return hkr_dequeue(r, table, esize, n, 0, left);                                                          \
    }                                                                                                             \
    static __rte_always_inline int rte_ring_##prefix##dequeue_elem(struct rte_ring *r, void *element,             \
                                                                   unsigned int esize) {                          \
        return hkr_dequeue(r, element, esize, 1, 1, NULL) ? 0 : -ENOENT;                                          \
    }                                                                                                             \
    static __rte_always_inline unsigned int rte_ring_##prefix##dequeue_bulk(                                      \
        struct rte_ring *r, void **table, unsigned int n, unsigned int *left) {                                   \
        return hkr_dequeue(r, table, sizeof(void *), n, 1, left);                                                 \
    }                                                                                                             \
    static __rte_always_inline unsigned int rte_ring_##prefix##dequeue_burst(                                     \
        struct rte_ring *r, void **table, unsigned int n, unsigned int *left) {                                   \
        return hkr_dequeue(r, table, sizeof(void *), n, 0, left);                                                 \
    }                                                                                                             \
    static __rte_always_inline int rte_ring_##prefix##dequeue(struct rte_ring *r, void **object) {                \
        return hkr_dequeue(r, object, sizeof(void *), 1, 1, NULL) ? 0 : -ENOENT;                                  \
    }

HKR_ENQUEUES()
HKR_ENQUEUES(sp_)
HKR_ENQUEUES(mp_)
HKR_ENQUEUES(mp_hts_)
HKR_ENQUEUES(mp_rts_)
HKR_DEQUEUES()
HKR_DEQUEUES(sc_)
HKR_DEQUEUES(mc_)
HKR_DEQUEUES(mc_hts_)
HKR_DEQUEUES(mc_rts_)
#undef HKR_ENQUEUES
#undef HKR_DEQUEUES

#ifdef __cplusplus
}
#endif
#endif
