/* The handles of all threads on one thing that they share. Each lcore has one, and so has each thread that isn't an
 * lcore, which gives it back when it ends. A thread that registers with EAL uses the handle of the lcore that it
 * becomes, and leaves it to the next thread with that number. Handles are made when a thread first asks. */
#ifndef HK_HANDLES_H
#define HK_HANDLES_H 1

#include "../hokhtura.h"

#include <pthread.h>
#include <stdlib.h>
#include <string.h>

#include <rte_branch_prediction.h>
#include <rte_common.h>
#include <rte_lcore.h>

#ifdef __cplusplus
extern "C" {
#endif

struct hk_made {
    void *handle;
    int taken; /* an lcore or a thread has it */
};

struct hk_handles;
struct hk_threads;

/* What is done with handles of a kind. */
struct hk_kind {
    void (*more)(struct hk_handles *handles); /* makes a spare one, if there is memory, when one is left */
    int (*is_done)(const void *handle);       /* whether another thread can use it */
    void (*free)(void *handle);
};

/* All below `birth` is used with the lock of `threads`. */
struct hk_handles {
    void *of_lcore[RTE_MAX_LCORE]; /* null before its first call; written by the thread that is this lcore */
    struct hk_threads *threads;
    const struct hk_kind *kind;
    void *owner;
    size_t place;   /* where `threads` has it */
    uint64_t birth; /* no two have the same number, and none has 0 */
    struct hk_made *made;
    size_t count, room;
};

/* What a thread that isn't an lcore has of the handles at a place, if their birth is this. */
struct hk_mine {
    uint64_t birth;
    size_t which;
    void *handle;
};

/* What a thread that isn't an lcore has: `room` places, which are behind it. */
struct hk_table {
    struct hk_threads *threads;
    size_t room;
};

/* All handles that one module makes, a program or a shared object. Handles know their own, so that a module can use
 * what another one made. */
struct hk_threads {
    pthread_mutex_t lock;
    pthread_key_t key; /* a thread's table */
    int has_key;
    uint64_t births;
    struct hk_handles **all;
    size_t room;
};

#ifndef HK_THREADS_STORAGE
#define HK_THREADS_STORAGE __attribute__((weak)) /* one for all files of a program */
#endif
HK_THREADS_STORAGE struct hk_threads hk_threads = {PTHREAD_MUTEX_INITIALIZER, 0, 0, 0, NULL, 0};

/* ---- With the lock ------------------------------------------------------------------------------------------------*/

/* Notes a handle that was made, as a spare one. */
static inline int hk_handles_keep(struct hk_handles *handles, void *handle) {
    if (handles->count == handles->room) {
        size_t room = handles->room ? 2 * handles->room : 16;
        struct hk_made *made = (struct hk_made *)realloc(handles->made, room * sizeof *made);
        if (!made) return 0;
        handles->made = made;
        handles->room = room;
    }
    handles->made[handles->count].handle = handle;
    handles->made[handles->count++].taken = 0;
    return 1;
}

/* Which spare handle is the last, and how many are spare. One is always. */
static inline size_t hk_handles_spare(const struct hk_handles *handles, size_t *spares) {
    size_t last = handles->count;
    *spares = 0;
    for (size_t i = 0; i < handles->count; i++)
        if (!handles->made[i].taken) {
            ++*spares;
            last = i;
        }
    return last;
}

/* Takes a spare handle, and leaves another one. Returns which, or `count` if there is no memory for more. */
static inline size_t hk_handles_take(struct hk_handles *handles) {
    size_t spares, spare = hk_handles_spare(handles, &spares);
    if (spares == 1) {
        handles->kind->more(handles);
        spare = hk_handles_spare(handles, &spares);
    }
    if (spares == 1) return handles->count;
    handles->made[spare].taken = 1;
    return spare;
}

/* ---- Threads ------------------------------------------------------------------------------------------------------*/

static inline struct hk_mine *hk_table_at(struct hk_table *table, size_t place) {
    return (struct hk_mine *)(table + 1) + place;
}

/* Gives back the handles of a thread that ends, but for those that nobody else can use. */
static inline void hk_thread_ends(void *at) {
    struct hk_table *table = (struct hk_table *)at;
    struct hk_threads *threads = table->threads;
    pthread_mutex_lock(&threads->lock);
    for (size_t i = 0; i < table->room; i++) {
        struct hk_handles *handles = i < threads->room ? threads->all[i] : NULL;
        const struct hk_mine *mine = hk_table_at(table, i);
        /* Those that were made at this place since have another birth. */
        if (handles && mine->birth == handles->birth && handles->kind->is_done(mine->handle))
            handles->made[mine->which].taken = 0;
    }
    pthread_mutex_unlock(&threads->lock);
    free(table);
}

/* A table of this thread with this place, with the lock. */
static inline struct hk_table *hk_table_with(struct hk_threads *threads, size_t place) {
    struct hk_table *table = (struct hk_table *)pthread_getspecific(threads->key);
    size_t had = table ? table->room : 0;
    if (place < had) return table;
    struct hk_table *wider = (struct hk_table *)realloc(table, sizeof *table + threads->room * sizeof(struct hk_mine));
    if (!wider) return NULL;
    memset((void *)hk_table_at(wider, had), 0, (threads->room - had) * sizeof(struct hk_mine));
    wider->threads = threads;
    wider->room = threads->room;
    /* Only a first one can be refused, since later ones have their place. */
    if (pthread_setspecific(threads->key, wider) == 0) return wider;
    free(wider);
    return NULL;
}

static __rte_noinline void *hk_handles_first_use(struct hk_handles *handles) {
    struct hk_threads *threads = handles->threads;
    unsigned lcore = rte_lcore_id();
    void *handle = NULL;
    pthread_mutex_lock(&threads->lock);
    struct hk_table *table = lcore < RTE_MAX_LCORE ? NULL : hk_table_with(threads, handles->place);
    if (lcore < RTE_MAX_LCORE || table) {
        size_t which = hk_handles_take(handles);
        if (which < handles->count) {
            handle = handles->made[which].handle;
            if (table) {
                struct hk_mine *mine = hk_table_at(table, handles->place);
                mine->birth = handles->birth;
                mine->which = which;
                mine->handle = handle;
            } else {
                handles->of_lcore[lcore] = handle;
            }
        }
    }
    pthread_mutex_unlock(&threads->lock);
    return handle;
}

static __rte_noinline void *hk_handles_elsewhere(struct hk_handles *handles) {
    struct hk_table *table = (struct hk_table *)pthread_getspecific(handles->threads->key);
    if (table && handles->place < table->room && hk_table_at(table, handles->place)->birth == handles->birth)
        return hk_table_at(table, handles->place)->handle;
    return hk_handles_first_use(handles);
}

/* The handle of the calling thread, or null if there is no memory for one. */
static __rte_always_inline void *hk_handles_mine(struct hk_handles *handles) {
    unsigned lcore = rte_lcore_id();
    if (unlikely(lcore >= RTE_MAX_LCORE)) return hk_handles_elsewhere(handles);
    void *handle = handles->of_lcore[lcore];
    return likely(handle != NULL) ? handle : hk_handles_first_use(handles);
}

/* For a thread that has none: a spare one, until it is returned. Meanwhile no thread takes or gives back a handle. */
static inline void *hk_handles_borrow(struct hk_handles *handles) {
    size_t spares;
    pthread_mutex_lock(&handles->threads->lock);
    return handles->made[hk_handles_spare(handles, &spares)].handle;
}

static inline void hk_handles_return(struct hk_handles *handles) { pthread_mutex_unlock(&handles->threads->lock); }

/* ---- Opening and closing ----------------------------------------------------------------------------------------- */

/* A place for these handles among all, with the lock. */
static inline int hk_handles_place(struct hk_threads *threads, struct hk_handles *handles) {
    size_t place = 0;
    while (place < threads->room && threads->all[place]) place++;
    if (place == threads->room) {
        size_t room = threads->room ? 2 * threads->room : 64;
        struct hk_handles **all = (struct hk_handles **)realloc(threads->all, room * sizeof *all);
        if (!all) return 0;
        memset(all + threads->room, 0, (room - threads->room) * sizeof *all);
        threads->all = all;
        threads->room = room;
    }
    threads->all[place] = handles;
    handles->place = place;
    handles->birth = ++threads->births;
    return 1;
}

/* Takes over a first handle. Returns 1; or 0 if there is no memory, and then the handle is the caller's. */
static inline int hk_handles_open(struct hk_handles *handles, const struct hk_kind *kind, void *owner, void *first) {
    struct hk_threads *threads = &hk_threads;
    memset(handles, 0, sizeof *handles);
    handles->threads = threads;
    handles->kind = kind;
    handles->owner = owner;
    pthread_mutex_lock(&threads->lock);
    if (!threads->has_key) threads->has_key = pthread_key_create(&threads->key, hk_thread_ends) == 0;
    int good = threads->has_key && hk_handles_keep(handles, first) && hk_handles_place(threads, handles);
    pthread_mutex_unlock(&threads->lock);
    if (!good) free(handles->made);
    return good;
}

/* Frees all handles. No thread may be in a call on them. */
static inline void hk_handles_close(struct hk_handles *handles) {
    pthread_mutex_lock(&handles->threads->lock);
    handles->threads->all[handles->place] = NULL;
    pthread_mutex_unlock(&handles->threads->lock);
    for (size_t i = 0; i < handles->count; i++) handles->kind->free(handles->made[i].handle);
    free(handles->made);
}

#ifdef __cplusplus
}
#endif
#endif
