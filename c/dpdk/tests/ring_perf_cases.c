/* DPDK's test_ring_perf.c: it prints figures. */
#include "cases.h"
#include "test_ring_perf.c"

static int ring_perf(unsigned which) { return which == 0 ? test_ring_perf() : -1; }

RTE_INIT(add_ring_perf_cases) { case_add("ring figures", ring_perf, 0); }
