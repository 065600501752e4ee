/* rte_lpm's calls over a forwarding table of the library, whose routes change while lookups run. It stands for
 * rte_lpm.h: compile a program with -include hokhtura_rte_lpm.h, or include it before any header of DPDK.
 *
 * Each change first waits for lookups that still use the version before the last change, and is published before its
 * call returns 0; a lookup that began earlier may still use the old routes. One thread at a time changes a table, as
 * with rte_lpm; lookups may run meanwhile, and need no rte_rcu_qsbr. The arrays tbl24 and tbl8 aren't there: a program
 * that reads them doesn't compile. */
#ifndef HOKHTURA_RTE_LPM_H
#define HOKHTURA_RTE_LPM_H 1

#ifdef _RTE_LPM_H_
#error "include hokhtura_rte_lpm.h before rte_lpm.h, or compile with -include hokhtura_rte_lpm.h"
#endif
#define _RTE_LPM_H_

#include <errno.h>
#include <stdint.h>
#include <stdio.h>
#include <sys/queue.h>

#include <rte_common.h>
#include <rte_errno.h>
#include <rte_pause.h>
#include <rte_rcu_qsbr.h>
#include <rte_vect.h>

#include "hk_handles.h"

#ifdef __cplusplus
extern "C" {
#endif

#define RTE_LPM_NAMESIZE 32
#define RTE_LPM_MAX_DEPTH 32
#define RTE_LPM_MAX_TBL8_NUM_GROUPS (1 << 24)
#define RTE_LPM_TBL8_GROUP_NUM_ENTRIES 256
#define RTE_LPM_LOOKUP_SUCCESS 0x01000000

enum rte_lpm_qsbr_mode { RTE_LPM_QSBR_MODE_DQ = 0, RTE_LPM_QSBR_MODE_SYNC };

struct rte_lpm_config {
    uint32_t max_rules;
    uint32_t number_tbl8s; /* how many /24 may have routes of more than 24 bits */
    int flags;
};

struct rte_lpm_rcu_config {
    struct rte_rcu_qsbr *v;
    enum rte_lpm_qsbr_mode mode;
    uint32_t dq_size, reclaim_thd, reclaim_max;
};

struct rte_lpm {
    char name[RTE_LPM_NAMESIZE];
    uint32_t max_rules;
    hk_fib *fib;
    struct hk_handles readers;
    pthread_mutex_t lock; /* of `fib`: a thread's first lookup asks it for a reader */
    struct rte_rcu_qsbr *v;
    struct rte_lpm *next;
};

struct hkl_names {
    pthread_mutex_t lock;
    struct rte_lpm *first;
};
__attribute__((weak)) struct hkl_names hkl_names = {PTHREAD_MUTEX_INITIALIZER, NULL};

/* ---- Readers, one for each thread that looks up -------------------------------------------------------------------*/

static inline void hkl_more(struct hk_handles *readers) {
    struct rte_lpm *lpm = (struct rte_lpm *)readers->owner;
    hk_forward *reader;
    pthread_mutex_lock(&lpm->lock);
    int64_t code = hk_fib_share(lpm->fib, &reader);
    pthread_mutex_unlock(&lpm->lock);
    if (code >= 0 && !hk_handles_keep(readers, reader)) hk_forward_free(reader);
}

static inline int hkl_is_done(const void *reader) {
    (void)reader;
    return 1;
}

static inline void hkl_free(void *reader) { hk_forward_free((hk_forward *)reader); }

static const struct hk_kind hkl_kind = {hkl_more, hkl_is_done, hkl_free};

/* ---- Tables -------------------------------------------------------------------------------------------------------*/

static inline struct rte_lpm *hkl_find(const char *name) {
    struct rte_lpm *lpm = hkl_names.first;
    while (lpm && strcmp(lpm->name, name)) lpm = lpm->next;
    return lpm;
}

static inline struct rte_lpm *rte_lpm_find_existing(const char *name) {
    pthread_mutex_lock(&hkl_names.lock);
    struct rte_lpm *lpm = hkl_find(name);
    pthread_mutex_unlock(&hkl_names.lock);
    if (!lpm) rte_errno = ENOENT;
    return lpm;
}

/* What a table has beside its name. */
static inline int hkl_open(struct rte_lpm *lpm, const struct rte_lpm_config *config) {
    hk_forward *reader;
    lpm->max_rules = config->max_rules;
    if (hk_fib_open(&lpm->fib, 24, config->number_tbl8s, NULL, 0, NULL, 0) < 0) return 0;
    if (hk_fib_share(lpm->fib, &reader) >= 0) {
        pthread_mutex_init(&lpm->lock, NULL);
        if (hk_handles_open(&lpm->readers, &hkl_kind, lpm, reader)) return 1;
        hk_forward_free(reader);
    }
    hk_fib_free(lpm->fib);
    return 0;
}

static inline struct rte_lpm *rte_lpm_create(const char *name, int socket_id, const struct rte_lpm_config *config) {
    struct rte_lpm *lpm = NULL;
    if (!name || socket_id < -1 || !config || config->max_rules == 0 ||
        config->number_tbl8s > RTE_LPM_MAX_TBL8_NUM_GROUPS) {
        rte_errno = EINVAL;
        return NULL;
    }
    pthread_mutex_lock(&hkl_names.lock);
    if (hkl_find(name)) {
        rte_errno = EEXIST;
    } else {
        lpm = (struct rte_lpm *)calloc(1, sizeof *lpm);
        if (lpm && hkl_open(lpm, config)) {
            snprintf(lpm->name, sizeof lpm->name, "%s", name);
            lpm->next = hkl_names.first;
            hkl_names.first = lpm;
        } else {
            free(lpm);
            lpm = NULL;
            rte_errno = ENOMEM;
        }
    }
    pthread_mutex_unlock(&hkl_names.lock);
    return lpm;
}

static inline void rte_lpm_free(struct rte_lpm *lpm) {
    if (!lpm) return;
    pthread_mutex_lock(&hkl_names.lock);
    struct rte_lpm **at = &hkl_names.first;
    while (*at && *at != lpm) at = &(*at)->next;
    if (*at) *at = lpm->next;
    pthread_mutex_unlock(&hkl_names.lock);
    hk_handles_close(&lpm->readers);
    hk_fib_free(lpm->fib);
    pthread_mutex_destroy(&lpm->lock);
    free(lpm);
}

/* Lookups are safe beside changes without it, and the variable isn't used. */
static inline int rte_lpm_rcu_qsbr_add(struct rte_lpm *lpm, struct rte_lpm_rcu_config *config) {
    int good = lpm && config && config->v &&
               (config->mode == RTE_LPM_QSBR_MODE_DQ || config->mode == RTE_LPM_QSBR_MODE_SYNC);
    if (good && !lpm->v) {
        lpm->v = config->v;
        return 0;
    }
    rte_errno = good ? EEXIST : EINVAL;
    return 1;
}

/* ---- Changes ------------------------------------------------------------------------------------------------------*/

/* Settles the last version, once no lookup uses the one before: then changes can be made. HK_OK or HK_E_MEMORY. */
static inline int64_t hkl_settle(struct rte_lpm *lpm) {
    int64_t code;
    while ((code = hk_fib_settle(lpm->fib)) == HK_E_PENDING) rte_pause();
    return code;
}

/* Publishes the change that a call with this code prepared. Returns DPDK's code. At -ENOMEM the change may be prepared:
 * then it is published with the next one. */
static inline int hkl_publish(struct rte_lpm *lpm, int64_t code) {
    if (code >= 0) code = hk_fib_publish(lpm->fib);
    if (code >= 0) return 0;
    return code == HK_E_DEPTH || code == HK_E_HOP || code == HK_E_NOROUTE ? -EINVAL
           : code == HK_E_MEMORY                                          ? -ENOMEM
                                                                          : -ENOSPC;
}

static inline int rte_lpm_add(struct rte_lpm *lpm, uint32_t ip, uint8_t depth, uint32_t next_hop) {
    int64_t code = HK_E_GROUPS;
    if (!lpm) return -EINVAL;
    pthread_mutex_lock(&lpm->lock);
    if (hk_fib_count(lpm->fib) < lpm->max_rules || hk_fib_get(lpm->fib, ip, depth) != HK_E_NOROUTE)
        code = hkl_settle(lpm);
    if (code >= 0) code = hk_fib_add(lpm->fib, ip, depth, next_hop);
    int answer = hkl_publish(lpm, code);
    pthread_mutex_unlock(&lpm->lock);
    return answer;
}

static inline int rte_lpm_delete(struct rte_lpm *lpm, uint32_t ip, uint8_t depth) {
    if (!lpm) return -EINVAL;
    pthread_mutex_lock(&lpm->lock);
    int64_t code = hkl_settle(lpm);
    if (code >= 0) code = hk_fib_remove(lpm->fib, ip, depth);
    int answer = hkl_publish(lpm, code);
    pthread_mutex_unlock(&lpm->lock);
    return answer;
}

/* rte_lpm's has no result. Without memory rte_errno says so, and the routes stay until the next change at least. */
static inline void rte_lpm_delete_all(struct rte_lpm *lpm) {
    if (!lpm) return;
    pthread_mutex_lock(&lpm->lock);
    int64_t code = hkl_settle(lpm);
    if (code >= 0) code = hk_fib_clear(lpm->fib);
    int answer = hkl_publish(lpm, code);
    pthread_mutex_unlock(&lpm->lock);
    if (answer < 0) rte_errno = -answer;
}

/* ---- Lookups ------------------------------------------------------------------------------------------------------*/

/* A table is const in lookups, and a reader of it isn't. */
static inline struct hk_handles *hkl_readers(const struct rte_lpm *lpm) {
    return &((struct rte_lpm *)(uintptr_t)lpm)->readers;
}

static inline void hkl_lookup(const struct rte_lpm *lpm, const uint32_t *ips, uint32_t *hops, size_t n) {
    struct hk_handles *readers = hkl_readers(lpm);
    hk_forward *mine = (hk_forward *)hk_handles_mine(readers);
    hk_forward *reader = likely(mine != NULL) ? mine : (hk_forward *)hk_handles_borrow(readers);
    (void)!hk_forward_lookup_bulk(reader, ips, hops, n);
    if (unlikely(!mine)) hk_handles_return(readers);
}

static inline int rte_lpm_lookup(const struct rte_lpm *lpm, uint32_t ip, uint32_t *next_hop) {
    uint32_t hop;
    if (!lpm || !next_hop) return -EINVAL;
    hkl_lookup(lpm, &ip, &hop, 1);
    if (hop == HK_NO_HOP) return -ENOENT;
    *next_hop = hop;
    return 0;
}

/* All by one publish: next_hops[i] has RTE_LPM_LOOKUP_SUCCESS if there is a route. */
static inline int rte_lpm_lookup_bulk_func(const struct rte_lpm *lpm, const uint32_t *ips, uint32_t *next_hops,
                                           const unsigned n) {
    if (!lpm || !ips || !next_hops) return -EINVAL;
    hkl_lookup(lpm, ips, next_hops, n);
    for (unsigned i = 0; i < n; i++)
        next_hops[i] = next_hops[i] == HK_NO_HOP ? 0 : next_hops[i] | RTE_LPM_LOOKUP_SUCCESS;
    return 0;
}

#define rte_lpm_lookup_bulk(lpm, ips, next_hops, n) rte_lpm_lookup_bulk_func(lpm, ips, next_hops, n)

static inline void rte_lpm_lookupx4(const struct rte_lpm *lpm, xmm_t ip, uint32_t hop[4], uint32_t defv) {
    uint32_t ips[4];
    memcpy(ips, &ip, sizeof ips);
    hkl_lookup(lpm, ips, hop, 4);
    for (int i = 0; i < 4; i++)
        if (hop[i] == HK_NO_HOP) hop[i] = defv;
}

#ifdef __cplusplus
}
#endif
#endif
