/* DPDK's test_ring.c: its cases, and its random bulks, two fixed orders and fill levels for each pair of modes. */
#include "cases.h"
#include "test_ring.c"

static int negative(unsigned which) { return which == 0 ? test_ring_negative_tests() : -1; }
static int basic(unsigned which) { return which == 0 ? test_ring_basic_ex() : -1; }
static int exact(unsigned which) { return which == 0 ? test_ring_with_exact_size() : -1; }
static int bulks(unsigned which) { return test_ring_burst_bulk_tests1(which); }
static int single(unsigned which) { return test_ring_burst_bulk_tests2(which); }
static int length(unsigned which) { return test_ring_burst_bulk_tests3(which); }
static int full(unsigned which) { return test_ring_burst_bulk_tests4(which); }

static const struct {
    const char *name;
    int (*run)(unsigned);
} each_mode[] = {{"random", bulks}, {"one and two", single}, {"length", length}, {"full and empty", full}};

RTE_INIT(add_ring_cases) {
    static char names[RTE_DIM(test_enqdeq_impl)][RTE_DIM(each_mode)][100];
    case_add("ring: what is refused", negative, 0);
    case_add("ring: single calls", basic, 0);
    case_add("ring: exact size", exact, 0);
    for (unsigned i = 0; i < RTE_DIM(test_enqdeq_impl); i++) {
        unsigned type = test_enqdeq_impl[i].api_type;
        for (unsigned k = 0; k < RTE_DIM(each_mode); k++) {
            snprintf(names[i][k], sizeof names[i][k], "ring: %s, %s%s, %s", test_enqdeq_impl[i].desc,
                     type & TEST_RING_ELEM_BULK ? "bulk" : "burst",
                     type & TEST_RING_THREAD_MPMC ? " by name" : "", each_mode[k].name);
            case_add(names[i][k], each_mode[k].run, i);
        }
    }
}
