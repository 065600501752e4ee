/* Threads that set an allocator at the same time, with hk_heap.c alone: one of them sets it, the others get HK_E_BEGUN,
 * and each block comes from that one and is resized by it. */
#include "hk_heap.h"
#include "tests.h"

#include <pthread.h>
#include <stdatomic.h>
#include <stdlib.h>

enum { THREADS = 4 };

static _Atomic int blocks[THREADS];

#define ALLOCATES(i)                              \
    static void *allocate_##i(size_t size) {      \
        blocks[i]++;                              \
        return aligned_alloc(64, size);           \
    }
ALLOCATES(0) ALLOCATES(1) ALLOCATES(2) ALLOCATES(3)

static size_t kept_last, size_last;

static void *resize(void *at, size_t kept, size_t size) {
    kept_last = kept, size_last = size;
    return size > 1000 ? NULL : at;
}

static const hk_allocator allocators[THREADS] = {
    {allocate_0, resize, free}, {allocate_1, resize, free}, {allocate_2, resize, free}, {allocate_3, resize, free},
};

static int64_t codes[THREADS];

static void *set(void *at) {
    size_t who = (size_t)((int64_t *)at - codes);
    codes[who] = hk_set_allocator(&allocators[who]);
    return NULL;
}

int main(void) {
    pthread_t threads[THREADS];
    int set_by = -1, others = 0;
    for (int i = 0; i < THREADS; i++) IS(pthread_create(&threads[i], NULL, set, &codes[i]), 0);
    for (int i = 0; i < THREADS; i++) IS(pthread_join(threads[i], NULL), 0);
    for (int i = 0; i < THREADS; i++) {
        if (codes[i] == HK_OK) set_by = i;
        else others += codes[i] == HK_E_BEGUN;
    }
    IS(set_by >= 0, 1), IS(others, THREADS - 1);
    if (set_by < 0) return hk_count_up("heap_set");
    struct hk_memory made = rattle_alloc(100, 16);
    IS(made.is, 1), IS(blocks[set_by], 1), IS(blocks[(set_by + 1) % THREADS], 0);
    struct hk_memory same = rattle_realloc(made.at, 70, 128, 16);
    IS(same.is, 1), IS(same.at == made.at, 1), IS(kept_last, 70), IS(size_last, 128);
    IS(rattle_realloc(made.at, 100, 1001, 16).is, 0), IS(size_last, 1024), IS(blocks[set_by], 1);
    rattle_dealloc(made.at);
    IS(hk_set_allocator(&allocators[0]), HK_E_BEGUN);
    return hk_count_up("heap_set");
}
