/* Memory for the proved side and for the cells of handles: three requests, passed on to the C library or to the
 * program's own allocator. The first two return a pair, in two registers: whether there was memory, and where. A
 * request for no bytes returns an address too.
 *
 * A block begins on a cache line and shares none with another block, unless the program's own allocator gives others.
 * So a thread that writes to its own blocks takes no line from a thread that uses others. */
#include "hk_heap.h"
#include "hokhtura.h"

#include <stdatomic.h>
#include <stdlib.h>
#include <string.h>

/* A cache line in bytes (DPDK's RTE_CACHE_LINE_SIZE). The usual blocks are aligned to it. Alignments that are asked for
 * are 16 or less; a request for more than a line is refused. */
#define LINE ((size_t)64)

static char nowhere;

static inline struct hk_memory found(void *at) {
    return (struct hk_memory){at != NULL, at ? at : &nowhere};
}

static void *allocate_usual(size_t size) {
    return aligned_alloc(LINE, size);
}

static const hk_allocator usual = {allocate_usual, NULL, free};

/* The program's own allocator. It is written by the one call that comes first, which `claimed` decides. */
static hk_allocator own;
static atomic_flag claimed = ATOMIC_FLAG_INIT;

/* The allocator of all blocks: null at first, then set once, by the first request or by hk_set_allocator. */
static _Atomic(const hk_allocator *) chosen;

/* Sets the allocator if none is set, and returns the one that is. */
static const hk_allocator *choose(const hk_allocator *allocator) {
    const hk_allocator *was = NULL;
    return atomic_compare_exchange_strong(&chosen, &was, allocator) ? allocator : was;
}

static inline const hk_allocator *current(void) {
    const hk_allocator *allocator = atomic_load_explicit(&chosen, memory_order_acquire);
    return allocator ? allocator : choose(&usual);
}

int64_t hk_set_allocator(const hk_allocator *allocator) {
    if (!allocator || !allocator->allocate || !allocator->release) return HK_E_NULL;
    if (atomic_load(&chosen) || atomic_flag_test_and_set(&claimed)) return HK_E_BEGUN;
    own = *allocator;
    return choose(&own) == &own ? HK_OK : HK_E_BEGUN;
}

/* The size of a block in whole lines, or 0 if there is no such block. */
static inline size_t whole_lines(size_t size, size_t align) {
    size_t lines = size == 0 ? 1 : (size - 1) / LINE + 1;
    return align > LINE || lines > SIZE_MAX / LINE ? 0 : lines * LINE;
}

struct hk_memory rattle_alloc(size_t size, size_t align) {
    const hk_allocator *allocator = current();
    size_t whole = whole_lines(size, align);
    return found(whole == 0 ? NULL : allocator->allocate(whole));
}

static struct hk_memory copied(const hk_allocator *allocator, void *was, size_t kept, size_t size, size_t align) {
    struct hk_memory made = rattle_alloc(size, align);
    if (made.is) {
        memcpy(made.at, was, kept);
        allocator->release(was);
    }
    return made;
}

/* The first `kept` bytes, which are at most `size`, stay as they are. */
struct hk_memory rattle_realloc(void *was, size_t kept, size_t size, size_t align) {
    const hk_allocator *allocator = current();
    size_t whole = whole_lines(size, align);
    if (!allocator->resize || whole == 0) return copied(allocator, was, kept, size, align);
    return found(allocator->resize(was, kept, whole));
}

void rattle_dealloc(void *at) {
    current()->release(at);
}
