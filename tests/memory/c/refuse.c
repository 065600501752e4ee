// Refuses requests for memory to the tests, which are built with AddressSanitizer: it serves all requests, and has a
// switch for a process that uses too much memory, which its header doesn't name.
#include <stdatomic.h>
#include <stdbool.h>
#include <stddef.h>
#include <stdint.h>
#include <stdlib.h>

// __sanitizer::SetRssLimitExceeded: while it is set, each request is refused.
void set_refused(bool refused) __asm__("_ZN11__sanitizer19SetRssLimitExceededEb");

int __sanitizer_install_malloc_and_free_hooks(void (*malloc_hook)(const volatile void *, size_t),
                                              void (*free_hook)(const volatile void *));

static _Atomic int64_t left = INT64_MAX;

static void served(const volatile void *piece, size_t size) {
    (void)piece;
    (void)size;
    if (atomic_fetch_sub(&left, 1) == 1)
        set_refused(true);
}

static void freed(const volatile void *piece) { (void)piece; }

// Serves this many requests of all threads together, and refuses each later one.
void refuse_memory_after(uint64_t count) {
    static bool installed;
    if (!installed)
        installed = __sanitizer_install_malloc_and_free_hooks(served, freed) != 0;
    // Without the count nothing but the first request would be refused, and most tests would still pass.
    if (!installed)
        abort();
    left = (int64_t)count;
    set_refused(count == 0);
}

// Serves all requests again.
void serve_memory(void) {
    left = INT64_MAX;
    set_refused(false);
}
