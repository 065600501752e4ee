/* DPDK's test_reorder.c: each of its cases, with what comes before and after them. */
#include "cases.h"
#include "test_reorder.c"

static int reorder(unsigned which) {
    if (reorder_test_suite.setup() != 0) return -1;
    int got = reorder_test_suite.unit_test_cases[which].testcase();
    test_teardown();
    return got;
}

RTE_INIT(add_reorder_cases) {
    static char names[16][100];
    for (unsigned i = 0; i < RTE_DIM(names) && reorder_test_suite.unit_test_cases[i].testcase; i++) {
        snprintf(names[i], sizeof names[i], "reorder: %s", reorder_test_suite.unit_test_cases[i].name);
        case_add(names[i], reorder, i);
    }
}
