/* The memory of the library: of the proved side, which asks for it by these names, and of the cells of handles. */
#ifndef HK_HEAP_H
#define HK_HEAP_H 1

#include <stddef.h>

#define HK_INNER __attribute__((visibility("hidden")))

/* Whether there was memory, and where. */
struct hk_memory {
    size_t is;
    void *at;
};

HK_INNER struct hk_memory rattle_alloc(size_t size, size_t align);
HK_INNER struct hk_memory rattle_realloc(void *was, size_t kept, size_t size, size_t align);
HK_INNER void rattle_dealloc(void *at);

#endif
