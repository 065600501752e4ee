/* DPDK's test_ring_*stress*.c: two cases for each kind of calls. */
#include "cases.h"
#include "test_ring_stress.h"

static const struct test *const kinds[] = {
    &test_ring_mpmc_stress,    &test_ring_rts_stress,        &test_ring_hts_stress,        &test_ring_mt_peek_stress,
    &test_ring_mt_peek_stress_zc, &test_ring_st_peek_stress, &test_ring_st_peek_stress_zc,
};

enum { MAX_CASES = 8 };

static int stress(unsigned which) {
    const struct test_case *of = &kinds[which / MAX_CASES]->cases[which % MAX_CASES];
    return of->func(of->wfunc) == 0 ? 0 : -1;
}

RTE_INIT(add_stress_cases) {
    static char names[RTE_DIM(kinds)][MAX_CASES][100];
    for (unsigned i = 0; i < RTE_DIM(kinds); i++)
        for (unsigned k = 0; k < kinds[i]->nb_case && k < MAX_CASES; k++) {
            snprintf(names[i][k], sizeof names[i][k], "ring stress: %s, %s", kinds[i]->name, kinds[i]->cases[k].name);
            case_add(names[i][k], stress, i * MAX_CASES + k);
        }
}
