/* DPDK's test_lpm.c: each of its tests. */
#include "cases.h"
#include "test_lpm.c"

static int lpm(unsigned which) { return tests[which](); }

RTE_INIT(add_lpm_cases) {
    static char names[RTE_DIM(tests)][20];
    for (unsigned i = 0; i < RTE_DIM(tests); i++) {
        snprintf(names[i], sizeof names[i], "lpm: test%u", i);
        case_add(names[i], lpm, i);
    }
}
