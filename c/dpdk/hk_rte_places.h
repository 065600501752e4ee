/* Elements of another size than 8 bytes, part of hokhtura_rte.h. They lie in an array beside the ring, which has a
 * place for each element that the ring holds. A word on the ring is the number of such a place. The places are used in
 * turn, as the slots of rte_ring are: so the elements of one call are next to each other, and go on at the first place
 * after the last one.
 *
 * Each call first reserves positions, so both sides are head/tail-sync. Whoever has reserved positions of a put has the
 * places that follow, until it puts their numbers; whoever sees numbers by a take has those places, until it takes
 * them. A place comes up again only when the ring has room for it, and by then its element was taken. */
#ifndef HK_RTE_PLACES_H
#define HK_RTE_PLACES_H 1

#ifdef __cplusplus
extern "C" {
#endif

/* ThreadSanitizer doesn't see the steps of the library that order two threads here: what one did before it finished a
 * put or a take comes before what another one does that reserves positions after it. */
#if defined(__SANITIZE_THREAD__)
#define HKR_MARKS 1
#elif defined(__has_feature)
#if __has_feature(thread_sanitizer)
#define HKR_MARKS 1
#endif
#endif
#ifdef HKR_MARKS
void __tsan_acquire(void *at);
void __tsan_release(void *at);
static inline void hkr_has_reserved(struct rte_ring *r) { __tsan_acquire(r); }
static inline void hkr_finishes(struct rte_ring *r) { __tsan_release(r); }
#else
static inline void hkr_has_reserved(struct rte_ring *r) { (void)r; }
static inline void hkr_finishes(struct rte_ring *r) { (void)r; }
#endif

/* Reserves positions for n elements, 1 to HK_MAX_WORDS, and goes on while another thread has some. Returns how many. */
static inline int64_t hkr_reserve_put(struct rte_ring *r, hk_hand *hand, size_t n, int bulk) {
    int64_t count;
    while ((count = bulk ? hk_ring_peek_put_bulk(hand, 0, n) : hk_ring_peek_put_burst(hand, 0, n)) == HK_E_AGAIN)
        rte_pause();
    hkr_has_reserved(r);
    return count;
}

/* The words are in the room of the side. */
static inline int64_t hkr_reserve_take(struct rte_ring *r, hk_hand *hand, size_t n, int bulk) {
    uint64_t *room = r->take->room;
    int64_t count;
    while ((count = bulk ? hk_ring_peek_take_bulk(hand, 0, room, n)
                         : hk_ring_peek_take_burst(hand, 0, room, n)) == HK_E_AGAIN)
        rte_pause();
    hkr_has_reserved(r);
    return count;
}

/* How many of n places lie before the end of the array. */
static inline size_t hkr_before_end(const struct rte_ring *r, uint64_t place, size_t n) {
    return RTE_MIN(n, (size_t)(r->capacity - place));
}

static inline char *hkr_at(const struct rte_ring *r, uint64_t place) { return r->elements + place * r->esize; }

static inline void hkr_copy_in(const struct rte_ring *r, uint64_t place, const void *table, size_t n) {
    size_t bytes = n * r->esize, first = hkr_before_end(r, place, n) * r->esize;
    memcpy(hkr_at(r, place), table, first);
    if (first < bytes) memcpy(r->elements, (const char *)table + first, bytes - first);
}

static inline void hkr_copy_out(const struct rte_ring *r, uint64_t place, void *table, size_t n) {
    size_t bytes = n * r->esize, first = hkr_before_end(r, place, n) * r->esize;
    memcpy(table, hkr_at(r, place), first);
    if (first < bytes) memcpy((char *)table + first, r->elements, bytes - first);
}

/* Puts the first n of the places that are reserved, and gives up the others. The next place has to be there before the
 * put, since another thread reserves after it. */
static inline void hkr_put_places(struct rte_ring *r, hk_hand *hand, size_t n) {
    uint64_t place = r->put->next, next = place + n;
    r->put->next = next < r->capacity ? next : next - r->capacity;
    hkr_finishes(r);
    (void)!hk_ring_finish_put(hand, r->places + place, n);
}

/* Puts n elements, 1 to HK_MAX_WORDS. Returns how many, or a code. */
static inline int64_t hkr_put_elements(struct rte_ring *r, hk_hand *hand, const void *table, size_t n, int bulk) {
    int64_t count = hkr_reserve_put(r, hand, n, bulk);
    if (count <= 0) return count;
    hkr_copy_in(r, r->put->next, table, (size_t)count);
    hkr_put_places(r, hand, (size_t)count);
    return count;
}

static inline int64_t hkr_take_elements(struct rte_ring *r, hk_hand *hand, void *table, size_t n, int bulk) {
    int64_t count = hkr_reserve_take(r, hand, n, bulk);
    if (count <= 0) return count;
    hkr_copy_out(r, r->take->room[0], table, (size_t)count);
    hkr_finishes(r);
    return hk_ring_finish_take(hand, (size_t)count);
}

#ifdef __cplusplus
}
#endif
#endif
