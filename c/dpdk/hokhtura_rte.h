/* rte_ring's calls over the rings of the library. It stands for rte_ring.h and its parts: compile a program with
 * -include hokhtura_rte.h, or include it before any header of DPDK.
 *
 * An element of 8 bytes is a word of a ring of the library. Elements of another size are in an array beside the ring,
 * and its words say where (hk_rte_places.h). A ring holds 2^20 - 1 elements at most, and is private memory of its
 * process. docs/DPDK.md has what differs from rte_ring otherwise; what has no counterpart here doesn't compile
 * (hk_rte_refused.h). */
#ifndef HOKHTURA_RTE_H
#define HOKHTURA_RTE_H 1

#if defined(_RTE_RING_H_) || defined(_RTE_RING_CORE_H_)
#error "include hokhtura_rte.h before rte_ring.h, or compile with -include hokhtura_rte.h"
#endif
/* The headers that this one stands for say that they were included. */
#define _RTE_RING_H_
#define _RTE_RING_CORE_H_
#define _RTE_RING_ELEM_H_
#define _RTE_RING_PEEK_H_
#define _RTE_RING_PEEK_ZC_H_
#define _RTE_RING_HTS_H_
#define _RTE_RING_RTS_H_

#include <errno.h>
#include <stdio.h>
#include <sys/queue.h>

#include <rte_common.h>
#include <rte_config.h>
#include <rte_debug.h>
#include <rte_errno.h>
#include <rte_log.h>
#include <rte_memory.h>
#include <rte_memzone.h>

#include "hk_calls.h"
#include "hk_hands.h"

#ifdef __cplusplus
extern "C" {
#endif

#define RTE_TAILQ_RING_NAME "RTE_RING"
#define RTE_RING_MZ_PREFIX "RG_"
#define RTE_RING_NAMESIZE (RTE_MEMZONE_NAMESIZE - sizeof(RTE_RING_MZ_PREFIX) + 1)
#define RTE_RING_SZ_MASK 0x7fffffffU

#define RING_F_SP_ENQ 0x0001
#define RING_F_SC_DEQ 0x0002
#define RING_F_EXACT_SZ 0x0004
#define RING_F_MP_RTS_ENQ 0x0008
#define RING_F_MC_RTS_DEQ 0x0010
#define RING_F_MP_HTS_ENQ 0x0020
#define RING_F_MC_HTS_DEQ 0x0040
#define HKR_FLAGS 0x007f

enum rte_ring_queue_behavior { RTE_RING_QUEUE_FIXED = 0, RTE_RING_QUEUE_VARIABLE };

enum rte_ring_sync_type { RTE_RING_SYNC_MT, RTE_RING_SYNC_ST, RTE_RING_SYNC_MT_RTS, RTE_RING_SYNC_MT_HTS };

/* The most elements of a ring, and of one piece of a call whose elements are copied to words. */
#define HKR_ELEMENTS ((1u << 20) - 1)
#define HKR_PIECE 512u

/* One side of a ring. What is below `of_long` belongs to the thread that has reserved positions there, and only one
 * has, since all of it is for head/tail-sync sides. */
struct hkr_side {
    struct hk_handles hands;
    pthread_mutex_t of_long; /* bulks of several pieces, one at a time: two would wait for what the other one has */
    uint64_t open;  /* of a put side: how many positions its peek has */
    uint64_t next;  /* of a put side: the place of the next element, if elements have places */
    uint64_t *room; /* HK_MAX_WORDS words, or null on a multi side */
};

struct rte_ring {
    char name[RTE_MEMZONE_NAMESIZE];
    int flags;
    uint32_t size, mask, capacity;
    /* What a DPDK program doesn't look at. */
    uint32_t esize;   /* bytes of an element */
    char *elements;   /* a place for each element; null if elements are words */
    uint64_t *places; /* the numbers of the places, in turn, for a call that begins at any of them */
    int is_created;
    enum rte_ring_sync_type prod_sync, cons_sync;
    struct hkr_side *put, *take;
    struct rte_ring *next;
};

/* The rings that have a name, for all files of a program. */
struct hkr_names {
    pthread_mutex_t lock;
    struct rte_ring *first;
};
__attribute__((weak)) struct hkr_names hkr_names = {PTHREAD_MUTEX_INITIALIZER, NULL};

/* ---- Opening ------------------------------------------------------------------------------------------------------*/

/* How threads are kept apart on a side, or 0 if the flags say two ways. */
static inline int hkr_sync(enum rte_ring_sync_type *sync, unsigned int flags, unsigned int st, unsigned int rts,
                           unsigned int hts) {
    unsigned int way = flags & (st | rts | hts);
    *sync = way == st    ? RTE_RING_SYNC_ST
            : way == rts ? RTE_RING_SYNC_MT_RTS
            : way == hts ? RTE_RING_SYNC_MT_HTS
                         : RTE_RING_SYNC_MT;
    return (way & (way - 1)) == 0;
}

/* A side of a single thread allows peeks in rte_ring, and so it has to be head/tail-sync here. */
static inline int hkr_peeks(enum rte_ring_sync_type sync) {
    return sync == RTE_RING_SYNC_ST || sync == RTE_RING_SYNC_MT_HTS;
}

/* The mode of a side. If elements have places, both sides need peeks, whatever the flags say. */
static inline uint32_t hkr_mode(const struct rte_ring *r, enum rte_ring_sync_type sync) {
    return hkr_peeks(sync) || r->elements ? HK_HTS : HK_MULTI;
}

/* So many bytes, which begin on a cache line; null if there is no memory. */
static inline void *hkr_memory(size_t bytes) { return aligned_alloc(64, RTE_ALIGN_CEIL(bytes, 64)); }

/* A side with this first hand, which it takes over; null if there is no memory. */
static inline struct hkr_side *hkr_side_open(hk_hand *first, uint32_t mode) {
    struct hkr_side *side = (struct hkr_side *)hkr_memory(sizeof *side);
    if (!side) return NULL;
    side->open = side->next = 0;
    side->room = mode == HK_HTS ? (uint64_t *)hkr_memory(HK_MAX_WORDS * sizeof(uint64_t)) : NULL;
    if ((side->room || mode != HK_HTS) && hk_hands_open(&side->hands, first)) {
        pthread_mutex_init(&side->of_long, NULL);
        return side;
    }
    free(side->room);
    free(side);
    return NULL;
}

static inline void hkr_side_close(struct hkr_side *side) {
    if (!side) return;
    hk_handles_close(&side->hands);
    pthread_mutex_destroy(&side->of_long);
    free(side->room);
    free(side);
}

/* Both sides of a ring whose other fields are there. */
static inline int hkr_sides_open(struct rte_ring *r) {
    hk_ring_plan plan = {r->capacity, 1, hkr_mode(r, r->prod_sync), hkr_mode(r, r->cons_sync), 0, 0};
    hk_hand *put, *take;
    if (hk_hand_open(&put, &plan, 1) < 0) return -ENOMEM;
    if (hk_hand_split(put, &take) < 0) take = NULL;
    r->put = hkr_side_open(put, plan.put);
    r->take = take ? hkr_side_open(take, plan.take) : NULL;
    if (r->put && r->take) return 0;
    if (!r->take) hk_hand_free(take);
    else hkr_side_close(r->take);
    if (!r->put) hk_hand_free(put);
    else hkr_side_close(r->put);
    return -ENOMEM;
}

/* The places of elements that aren't words. The numbers of a call's places go on after the last one. */
static inline int hkr_places_open(struct rte_ring *r) {
    size_t numbers = r->capacity + RTE_MIN(r->capacity, (uint32_t)HK_MAX_WORDS);
    r->elements = (char *)hkr_memory((size_t)r->capacity * r->esize);
    r->places = (uint64_t *)hkr_memory(numbers * sizeof(uint64_t));
    for (size_t i = 0; i < numbers && r->places; i++) r->places[i] = i % r->capacity;
    return r->elements && r->places ? 0 : -ENOMEM;
}

static inline void hkr_places_close(struct rte_ring *r) {
    free(r->elements);
    free(r->places);
}

static inline int hkr_open(struct rte_ring *r) {
    int code = r->esize == sizeof(uint64_t) ? 0 : hkr_places_open(r);
    if (code == 0) code = hkr_sides_open(r);
    if (code < 0) hkr_places_close(r);
    return code;
}

static inline int hkr_is_size(unsigned int count, unsigned int flags) {
    if (flags & RING_F_EXACT_SZ) return count != 0 && count <= RTE_RING_SZ_MASK;
    return rte_is_power_of_2(count) && count <= RTE_RING_SZ_MASK;
}

static inline int hkr_init(struct rte_ring *r, const char *name, unsigned int esize, unsigned int count,
                           unsigned int flags) {
    if (esize == 0 || esize % 4 || flags & ~(unsigned int)HKR_FLAGS || !hkr_is_size(count, flags)) return -EINVAL;
    if (strnlen(name, RTE_RING_NAMESIZE) == RTE_RING_NAMESIZE) return -ENAMETOOLONG;
    memset(r, 0, sizeof *r);
    strcpy(r->name, name);
    r->flags = (int)flags;
    r->capacity = flags & RING_F_EXACT_SZ ? count : count - 1;
    r->size = flags & RING_F_EXACT_SZ ? rte_align32pow2(count + 1) : count;
    r->mask = r->size - 1;
    r->esize = esize;
    if (!hkr_sync(&r->prod_sync, flags, RING_F_SP_ENQ, RING_F_MP_RTS_ENQ, RING_F_MP_HTS_ENQ) ||
        !hkr_sync(&r->cons_sync, flags, RING_F_SC_DEQ, RING_F_MC_RTS_DEQ, RING_F_MC_HTS_DEQ))
        return -EINVAL;
    if (r->capacity <= HKR_ELEMENTS) return hkr_open(r);
    RTE_LOG(ERR, RING, "%s: %u elements, and a ring of hokhtura holds %u\n", name, r->capacity, HKR_ELEMENTS);
    return -EINVAL;
}

/* A ring in memory of the caller. rte_ring_free frees what it has beside that. */
static inline int rte_ring_init(struct rte_ring *r, const char *name, unsigned int count, unsigned int flags) {
    return hkr_init(r, name, sizeof(void *), count, flags);
}

static inline ssize_t rte_ring_get_memsize_elem(unsigned int esize, unsigned int count) {
    if (esize % 4 || !hkr_is_size(count, 0)) return -EINVAL;
    return RTE_ALIGN_CEIL(sizeof(struct rte_ring), RTE_CACHE_LINE_SIZE);
}

static inline ssize_t rte_ring_get_memsize(unsigned int count) {
    return rte_ring_get_memsize_elem(sizeof(void *), count);
}

static inline struct rte_ring *hkr_find(const char *name) {
    struct rte_ring *r = hkr_names.first;
    while (r && strcmp(r->name, name)) r = r->next;
    return r;
}

static inline struct rte_ring *rte_ring_lookup(const char *name) {
    pthread_mutex_lock(&hkr_names.lock);
    struct rte_ring *r = hkr_find(name);
    pthread_mutex_unlock(&hkr_names.lock);
    if (!r) rte_errno = ENOENT;
    return r;
}

static inline struct rte_ring *rte_ring_create_elem(const char *name, unsigned int esize, unsigned int count,
                                                    int socket_id, unsigned int flags) {
    struct rte_ring *r = (struct rte_ring *)hkr_memory(sizeof *r);
    int code = -ENOMEM;
    (void)socket_id;
    pthread_mutex_lock(&hkr_names.lock);
    if (r) code = hkr_find(name) ? -EEXIST : hkr_init(r, name, esize, count, flags);
    if (code == 0) {
        r->is_created = 1;
        r->next = hkr_names.first;
        hkr_names.first = r;
    }
    pthread_mutex_unlock(&hkr_names.lock);
    if (code == 0) return r;
    free(r);
    rte_errno = -code;
    return NULL;
}

static inline struct rte_ring *rte_ring_create(const char *name, unsigned int count, int socket_id,
                                               unsigned int flags) {
    return rte_ring_create_elem(name, sizeof(void *), count, socket_id, flags);
}

static inline void rte_ring_free(struct rte_ring *r) {
    if (!r) return;
    pthread_mutex_lock(&hkr_names.lock);
    struct rte_ring **at = &hkr_names.first;
    while (*at && *at != r) at = &(*at)->next;
    if (*at) *at = r->next;
    pthread_mutex_unlock(&hkr_names.lock);
    hkr_side_close(r->put);
    hkr_side_close(r->take);
    hkr_places_close(r);
    if (r->is_created) free(r);
}

#ifdef __cplusplus
}
#endif

#include "hk_rte_places.h"
#include "hk_rte_calls.h"
#include "hk_rte_looks.h"
#include "hk_rte_peeks.h"
#include "hk_rte_refused.h"
#endif
