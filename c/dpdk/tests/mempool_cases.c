/* DPDK's test_mempool.c, as a whole: its pools have the ops that EAL's options say. */
#include "cases.h"
#include "test_mempool.c"

static int mempool(unsigned which) { return which == 0 ? test_mempool() : -1; }

RTE_INIT(add_mempool_cases) { case_add("mempool", mempool, 0); }
