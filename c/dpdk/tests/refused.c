/* Uses of what a ring of hokhtura_rte.h has no counterpart for: none of them may compile, and each with a message that
 * names it. USE is which. Without it the file compiles, as C and as C++. */
#include "hokhtura_rte.h"
#include "hokhtura_rte_lpm.h"
#include "hokhtura_rte_reorder.h"

#include <rte_eth_ring.h>
#include <rte_event_ring.h>
#include <rte_lpm.h>
#include <rte_mempool.h>
#include <rte_pdump.h>
#include <rte_port_frag.h>
#include <rte_port_ras.h>
#include <rte_port_ring.h>
#include <rte_reorder.h>
#include <rte_ring.h>
#include <rte_ring_elem.h>
#include <rte_swx_port_ring.h>

static inline const void *use(struct rte_ring *r, struct rte_lpm *lpm) {
#if USE == 1
    return rte_eth_from_ring(r) ? r : NULL;
#elif USE == 2
    return rte_eth_from_rings("r", &r, 1, &r, 1, 0) ? r : NULL;
#elif USE == 3
    return rte_pdump_enable(0, 0, 0, r, NULL, NULL) ? r : NULL;
#elif USE == 4
    return rte_event_ring_create("r", 8, 0, 0);
#elif USE == 5
    return &rte_port_ring_reader_ops;
#elif USE == 6
    return &rte_swx_port_ring_writer_ops;
#elif USE == 7
    return &r->prod;
#elif USE == 8
    return r->memzone;
#elif USE == 9
    return lpm->tbl24;
#elif USE == 10
    return lpm->tbl8;
#endif
    return r ? (const void *)r : lpm;
}

int main(void) { return use(NULL, NULL) != NULL; }
