/* The three requests for memory of hk_heap.c, with which this is linked alone: each block is aligned to a cache line,
 * and what can't be given is refused. */
#include "hk_heap.h"
#include "tests.h"

#include <string.h>

#ifdef __SANITIZE_ADDRESS__
/* A request that is too large is refused, as without the sanitizer, and doesn't end the test. */
const char *__asan_default_options(void);
const char *__asan_default_options(void) {
    return "allocator_may_return_null=1";
}
#endif

enum { LINE = 64, MAX_SIZE = 1000 };

/* Writes 1, 2, 3 and so on, and finds them. */
static void fill(unsigned char *at, size_t n) {
    for (size_t i = 0; i < n; i++) at[i] = (unsigned char)(i + 1);
}

static size_t count_filled(const unsigned char *at, size_t n) {
    size_t same = 0;
    while (same < n && at[same] == (unsigned char)(same + 1)) same++;
    return same;
}

static void given(size_t size, size_t align) {
    struct hk_memory made = rattle_alloc(size, align);
    IS(made.is, 1), IS(made.at != NULL, 1), IS((uintptr_t)made.at % LINE, 0);
    if (!made.is) return;
    fill(made.at, size);
    struct hk_memory grown = rattle_realloc(made.at, size, size + MAX_SIZE, align);
    IS(grown.is, 1), IS((uintptr_t)grown.at % LINE, 0), IS(count_filled(grown.at, size), size);
    fill(grown.at, size + MAX_SIZE);
    struct hk_memory less = rattle_realloc(grown.at, size / 2, size / 2, align);
    IS(less.is, 1), IS(count_filled(less.at, size / 2), size / 2);
    rattle_dealloc(less.at);
}

/* A refused request leaves the block that was to grow. */
static void refused(size_t size, size_t align) {
    struct hk_memory made = rattle_alloc(MAX_SIZE, 16);
    IS(made.is, 1), IS(rattle_alloc(size, align).is, 0);
    if (!made.is) return;
    fill(made.at, MAX_SIZE);
    IS(rattle_realloc(made.at, MAX_SIZE, size, align).is, 0), IS(count_filled(made.at, MAX_SIZE), MAX_SIZE);
    rattle_dealloc(made.at);
}

int main(void) {
    for (size_t align = 1; align <= LINE; align *= 2) {
        given(0, align), given(1, align), given(LINE - 1, align), given(LINE, align), given(LINE + 1, align);
        given(MAX_SIZE, align);
        refused(SIZE_MAX, align), refused(SIZE_MAX - LINE + 1, align), refused(SIZE_MAX - LINE + 2, align);
    }
    for (size_t align = 2 * LINE; align != 0; align *= 2) refused(MAX_SIZE + 1, align), refused(MAX_SIZE + LINE, align);
    return hk_count_up("heap");
}
