/* rte_reorder's calls over a reorder window of the library. It stands for rte_reorder.h: compile a program with
 * -include hokhtura_rte_reorder.h, or include it before any header of DPDK.
 *
 * The library's window begins at 0, has 64-bit numbers and moves when it is asked to. rte_reorder's begins at the
 * first number that is inserted, has 32-bit numbers that wrap around, and moves when a number comes early; what it
 * passes then waits in a queue. Two packets of one number: rte_reorder loses the first, here the second is refused
 * with ERANGE. */
#ifndef HOKHTURA_RTE_REORDER_H
#define HOKHTURA_RTE_REORDER_H 1

#ifdef _RTE_REORDER_H_
#error "include hokhtura_rte_reorder.h before rte_reorder.h, or compile with -include hokhtura_rte_reorder.h"
#endif
#define _RTE_REORDER_H_

#include "../hokhtura.h"

#include <pthread.h>
#include <stdlib.h>
#include <string.h>

#include <rte_common.h>
#include <rte_compat.h>
#include <rte_errno.h>
#include <rte_mbuf.h>
#include <rte_mbuf_dyn.h>

#ifdef __cplusplus
extern "C" {
#endif

#define RTE_REORDER_NAMESIZE 32

typedef uint32_t rte_reorder_seqn_t;

/* The largest window of the library. */
#define HKO_MAX_SIZE 65536

struct rte_reorder_buffer {
    char name[RTE_REORDER_NAMESIZE];
    hk_reorder *window;
    uint32_t size;
    uint32_t base; /* the 32-bit number that is the window's 0 */
    int has_base, is_created;
    uint32_t waiting, first;      /* of the queue: how many, and where the first one is */
    struct rte_mbuf **queue;      /* `size` places, behind this structure */
    struct rte_reorder_buffer *next;
};

struct hko_names {
    pthread_mutex_t lock;
    struct rte_reorder_buffer *first;
};
__attribute__((weak)) struct hko_names hko_names = {PTHREAD_MUTEX_INITIALIZER, NULL};

/* Where a packet has its number. */
__attribute__((weak)) int rte_reorder_seqn_dynfield_offset = -1;

static inline rte_reorder_seqn_t *rte_reorder_seqn(struct rte_mbuf *mbuf) {
    return RTE_MBUF_DYNFIELD(mbuf, rte_reorder_seqn_dynfield_offset, rte_reorder_seqn_t *);
}

static inline size_t hko_bytes(unsigned int size) {
    return sizeof(struct rte_reorder_buffer) + 2 * (size_t)size * sizeof(struct rte_mbuf *);
}

/* ---- Opening ------------------------------------------------------------------------------------------------------*/

/* In memory of the caller. rte_reorder_free frees what it has beside that. */
static inline struct rte_reorder_buffer *rte_reorder_init(struct rte_reorder_buffer *b, unsigned int bufsize,
                                                          const char *name, unsigned int size) {
    static const struct rte_mbuf_dynfield field = {"rte_reorder_seqn_dynfield", sizeof(rte_reorder_seqn_t),
                                                   __alignof__(rte_reorder_seqn_t), 0};
    if (!b || !name || !rte_is_power_of_2(size) || size > HKO_MAX_SIZE || bufsize < hko_bytes(size)) {
        rte_errno = EINVAL;
        return NULL;
    }
    memset(b, 0, hko_bytes(size));
    snprintf(b->name, sizeof b->name, "%s", name);
    b->size = size;
    b->queue = (struct rte_mbuf **)(b + 1);
    rte_reorder_seqn_dynfield_offset = rte_mbuf_dynfield_register(&field);
    if (rte_reorder_seqn_dynfield_offset >= 0 && hk_reorder_open(&b->window, size) >= 0) return b;
    rte_errno = ENOMEM;
    return NULL;
}

static inline struct rte_reorder_buffer *hko_find(const char *name) {
    struct rte_reorder_buffer *b = hko_names.first;
    while (b && strncmp(b->name, name, RTE_REORDER_NAMESIZE - 1)) b = b->next;
    return b;
}

static inline struct rte_reorder_buffer *rte_reorder_find_existing(const char *name) {
    if (!name) {
        rte_errno = EINVAL;
        return NULL;
    }
    pthread_mutex_lock(&hko_names.lock);
    struct rte_reorder_buffer *b = hko_find(name);
    pthread_mutex_unlock(&hko_names.lock);
    if (!b) rte_errno = ENOENT;
    return b;
}

static inline struct rte_reorder_buffer *hko_create(const char *name, unsigned int size) {
    struct rte_reorder_buffer *b = (struct rte_reorder_buffer *)malloc(hko_bytes(size));
    if (!b) {
        rte_errno = ENOMEM;
    } else if (!rte_reorder_init(b, (unsigned int)hko_bytes(size), name, size)) {
        free(b);
        b = NULL;
    } else {
        b->is_created = 1;
        b->next = hko_names.first;
        hko_names.first = b;
    }
    return b;
}

/* A buffer of this name that is there already is returned, as by rte_reorder. */
static inline struct rte_reorder_buffer *rte_reorder_create(const char *name, unsigned socket_id, unsigned int size) {
    (void)socket_id;
    if (!name || !rte_is_power_of_2(size) || size > HKO_MAX_SIZE) {
        rte_errno = EINVAL;
        return NULL;
    }
    pthread_mutex_lock(&hko_names.lock);
    struct rte_reorder_buffer *b = hko_find(name);
    if (!b) b = hko_create(name, size);
    pthread_mutex_unlock(&hko_names.lock);
    return b;
}

/* ---- Packets ------------------------------------------------------------------------------------------------------*/

static inline uint64_t hko_next(const struct rte_reorder_buffer *b) {
    uint64_t next = 0;
    (void)!hk_reorder_next(b->window, &next);
    return next;
}

/* Moves the window on so that it waits for `to` or a later number, or as far as the queue has room for what it passes.
 * Returns the number that it waits for. */
static inline uint64_t hko_move(struct rte_reorder_buffer *b, uint64_t to) {
    for (;;) {
        uint64_t word;
        while (b->waiting < b->size && hk_reorder_pop(b->window, &word) == HK_OK)
            b->queue[(b->first + b->waiting++) % b->size] = (struct rte_mbuf *)(uintptr_t)word;
        if (hko_next(b) >= to || b->waiting == b->size) return hko_next(b);
        (void)!hk_reorder_skip(b->window, to); /* it stops at the first packet that is there */
    }
}

static inline int hko_refused(int code) {
    rte_errno = code;
    return -1;
}

static inline int rte_reorder_insert(struct rte_reorder_buffer *b, struct rte_mbuf *mbuf) {
    if (!b || !mbuf) return hko_refused(EINVAL);
    rte_reorder_seqn_t number = *rte_reorder_seqn(mbuf);
    uint64_t next = hko_next(b);
    if (!b->has_base) b->base = number - (uint32_t)next;
    b->has_base = 1;
    uint32_t ahead = number - (b->base + (uint32_t)next);
    if (ahead >= 2 * b->size) return hko_refused(ERANGE);
    uint64_t wide = next + ahead;
    if (ahead >= b->size && hko_move(b, wide + 1 - b->size) < wide + 1 - b->size) return hko_refused(ENOSPC);
    return hk_reorder_insert(b->window, wide, (uintptr_t)mbuf) == HK_OK ? 0 : hko_refused(ERANGE);
}

static inline unsigned int rte_reorder_drain(struct rte_reorder_buffer *b, struct rte_mbuf **mbufs,
                                             unsigned max_mbufs) {
    unsigned int n = 0;
    for (; n < max_mbufs && b->waiting > 0; b->waiting--) mbufs[n++] = b->queue[b->first++ % b->size];
    while (n < max_mbufs) {
        size_t most = RTE_MIN(max_mbufs - n, (unsigned int)HK_MAX_WORDS);
        int64_t count = hk_reorder_drain(b->window, (uint64_t *)(void *)(mbufs + n), most);
        if (count > 0) n += (unsigned int)count;
        if (count < (int64_t)most) break;
    }
    return n;
}

/* ---- Closing ------------------------------------------------------------------------------------------------------*/

/* Frees all packets that are there. */
static inline void rte_reorder_reset(struct rte_reorder_buffer *b) {
    uint64_t end = hko_next(b) + b->size;
    struct rte_mbuf *mbufs[32];
    do {
        for (unsigned int n; (n = rte_reorder_drain(b, mbufs, RTE_DIM(mbufs))) > 0;)
            for (unsigned int i = 0; i < n; i++) rte_pktmbuf_free(mbufs[i]);
        (void)!hk_reorder_skip(b->window, end);
    } while (hko_next(b) < end);
    b->has_base = 0;
}

static inline void rte_reorder_free(struct rte_reorder_buffer *b) {
    if (!b) return;
    pthread_mutex_lock(&hko_names.lock);
    struct rte_reorder_buffer **at = &hko_names.first;
    while (*at && *at != b) at = &(*at)->next;
    if (*at) *at = b->next;
    pthread_mutex_unlock(&hko_names.lock);
    rte_reorder_reset(b);
    hk_reorder_free(b->window);
    if (b->is_created) free(b);
}

#ifdef __cplusplus
}
#endif
#endif
