/* What the tests share: the check of a return value, and the line that counts. */
#ifndef HK_TESTS_H
#define HK_TESTS_H 1
#include "hokhtura.h"

#include <stdio.h>

static int hk_passed, hk_failed;

static inline void hk_is(int64_t got, int64_t want, const char *what, const char *file, int line) {
    if (got == want) {
        hk_passed++;
        return;
    }
    hk_failed++;
    printf("%s:%d: %s is %lld (%s), not %lld (%s)\n", file, line, what, (long long)got, hk_code_name(got),
        (long long)want, hk_code_name(want));
}

#define IS(call, want) hk_is((int64_t)(call), (int64_t)(want), #call, __FILE__, __LINE__)

static inline int hk_count_up(const char *name) {
    printf("%s: %d passed, %d failed\n", name, hk_passed, hk_failed);
    return hk_failed != 0;
}
#endif
