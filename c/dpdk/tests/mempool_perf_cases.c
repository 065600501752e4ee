/* DPDK's test_mempool_perf.c, with a hundredth of its time for each figure, which would be three quarters of an hour in
 * all. The figures that it prints are a hundredth, too. */
#include "cases.h"

#include <rte_cycles.h>

#define rte_get_timer_hz() (rte_get_timer_hz() / 100)
#include "test_mempool_perf.c"

static int perf(unsigned which) { return which == 0 ? test_mempool_perf() : -1; }

RTE_INIT(add_mempool_perf_cases) { case_add("mempool figures", perf, 0); }
