/* An allocator of the program's own: all memory of all handles comes from it and goes back to it. The argument says
 * whether it resizes blocks (`resize`) or has no call for that (`copy`). Each of its blocks has a head of a cache line
 * with its size, so that a block that goes back is seen to be one of its own. Where it is linked with --wrap, nothing
 * else is asked for memory. */
#include "tests.h"

#include <stdlib.h>
#include <string.h>

enum { LINE = 64, WORDS = 100 };

static const uint64_t mine = 0x68616e642d6f6666;
static long live, resized, refused_from = -1, asked;

struct head {
    uint64_t mark;
    size_t size;
};

/* The blocks lie in a store of the test's own. It is never used again: nothing here needs more. */
static _Alignas(LINE) unsigned char store[32 << 20];
static size_t used;

static void *allocate(size_t size) {
    if (asked++ == refused_from || size % LINE != 0 || size + LINE > sizeof store - used) return NULL;
    struct head *head = (struct head *)(void *)(store + used);
    *head = (struct head){mine, size};
    used += size + LINE;
    live++;
    return (unsigned char *)head + LINE;
}

static struct head *head_of(void *at) {
    return (struct head *)(void *)((unsigned char *)at - LINE);
}

static void release(void *at) {
    IS(head_of(at)->mark, mine);
    head_of(at)->mark = 0;
    live--;
}

static void *resize(void *at, size_t kept, size_t size) {
    IS(head_of(at)->mark, mine), IS(kept <= head_of(at)->size && kept <= size, 1);
    void *made = allocate(size);
    if (!made) return NULL;
    memcpy(made, at, kept);
    release(at);
    resized++;
    return made;
}

/* With --wrap the library's calls of the C library's allocator come here: it makes none. */
void *__wrap_aligned_alloc(size_t unit, size_t size);
void __wrap_free(void *at);

void *__wrap_aligned_alloc(size_t unit, size_t size) {
    IS(unit + size, 0);
    return NULL;
}

void __wrap_free(void *at) {
    IS(at == NULL, 1);
}

/* Routes in a table, words on rings, numbers of a pool: blocks that grow are among them. */
static int64_t work(void) {
    hk_hand *hand = NULL;
    hk_routes *routes = NULL;
    hk_reorder *window = NULL;
    hk_pool *pool = NULL;
    hk_fib *fib = NULL;
    hk_ring_plan plan = {WORDS, 1, HK_MULTI, HK_HTS, 0, 0};
    uint64_t words[WORDS] = {1, 2, 3}, out[WORDS];
    int64_t code = hk_hand_open(&hand, &plan, 1);
    if (code >= 0) code = hk_routes_open(&routes, 16, 8);
    if (code >= 0) code = hk_reorder_open(&window, 16);
    if (code >= 0) code = hk_pool_open(&pool, 100, 8, 1);
    if (code >= 0) code = hk_fib_open(&fib, 16, 8, NULL, 0, NULL, 0);
    for (uint32_t i = 0; code >= 0 && i < 8; i++) code = hk_routes_add(routes, i << 16, 24, i);
    for (uint32_t i = 0; code >= 0 && i < 8; i++) code = hk_fib_add(fib, i << 16, 24, i);
    if (code >= 0) code = hk_fib_publish(fib);
    if (code >= 0) code = hk_ring_try_put_bulk(hand, 0, words, WORDS);
    if (code >= 0) IS(hk_ring_try_take_bulk(hand, 0, out, WORDS), WORDS), IS(memcmp(words, out, sizeof words), 0);
    if (code >= 0) IS(hk_routes_lookup(routes, 7 << 16), 7), IS(hk_fib_get(fib, 5 << 16, 24), 5);
    hk_hand_free(hand), hk_routes_free(routes), hk_reorder_free(window), hk_pool_free(pool), hk_fib_free(fib);
    return code < 0 ? code : HK_OK;
}

int main(int argc, char **argv) {
    int resizes = argc > 1 && strcmp(argv[1], "resize") == 0;
    hk_allocator allocator = {allocate, resizes ? resize : NULL, release};
    hk_allocator lacking = {allocate, resize, NULL};
    IS(hk_set_allocator(NULL), HK_E_NULL), IS(hk_set_allocator(&lacking), HK_E_NULL);
    IS(hk_set_allocator(&allocator), HK_OK), IS(hk_set_allocator(&allocator), HK_E_BEGUN);
    memset(&allocator, 0, sizeof allocator);
    IS(work(), HK_OK), IS(live, 0), IS(used > 0, 1);
    IS(resized > 0, resizes);
    /* What it refuses is HK_E_MEMORY, and nothing is lost. */
    long requests = asked;
    asked = 0, refused_from = requests / 2, used = 0;
    IS(work(), HK_E_MEMORY), IS(live, 0);
    return hk_count_up("allocators");
}
