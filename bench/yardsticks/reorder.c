/* rte_reorder: insert and drain of one packet, window of 1024, in order and shuffled within 32 and 256. */
#include "bench.h"
#include <rte_eal.h>
#include <rte_errno.h>
#include <rte_mbuf.h>
#include <rte_reorder.h>

#define WINDOW 1024
#define MAX_ITEMS 256
#define BURST 32

static struct rte_reorder_buffer *window;
static struct rte_mbuf *packets[MAX_ITEMS], *drained[MAX_ITEMS];
static unsigned order[MAX_ITEMS];
static uint32_t next;

static void fail(const char *what)
{
	fprintf(stderr, "%s: %d\n", what, rte_errno);
	exit(1);
}

/* Inserts `span` packets in the order of `order`, and drains them again. */
static __attribute__((noinline)) void turn(unsigned span)
{
	for (unsigned i = 0; i < span; i++) {
		*rte_reorder_seqn(packets[i]) = next + order[i];
		if (rte_reorder_insert(window, packets[i])) fail("insert");
	}
	next += span;
	for (unsigned done = 0; done < span;) {
		unsigned got = rte_reorder_drain(window, drained + done, BURST);
		if (!got) fail("drain");
		done += got;
	}
	COMPILER_BARRIER();
}

static void shuffle(unsigned span)
{
	uint64_t state = 7;
	for (unsigned j = span - 1; j > 0; j--) {
		unsigned other = splitmix64(&state) % (j + 1), kept = order[j];
		order[j] = order[other];
		order[other] = kept;
	}
}

static void measure(struct rte_mempool *pool, const char *name, unsigned span, int shuffled)
{
	double ns;
	for (unsigned j = 0; j < span; j++) order[j] = j;
	if (shuffled) shuffle(span);
	rte_reorder_reset(window);
	for (int j = 0; j < MAX_ITEMS; j++) packets[j] = rte_pktmbuf_alloc(pool);
	/* the first number sets where the window begins */
	next = 0;
	*rte_reorder_seqn(packets[0]) = next++;
	rte_reorder_insert(window, packets[0]);
	rte_reorder_drain(window, drained, 1);
	TIMED(ns, span, turn(span););
	report(name, ns, "ns/packet");
	rte_pktmbuf_free_bulk(packets, MAX_ITEMS);
}

int main(int argc, char **argv)
{
	if (rte_eal_init(argc, argv) < 0) return 1;
	struct rte_mempool *pool = rte_pktmbuf_pool_create("packets", 1023, 0, 0, RTE_MBUF_DEFAULT_BUF_SIZE, SOCKET_ID_ANY);
	window = rte_reorder_create("window", SOCKET_ID_ANY, WINDOW);
	if (!pool || !window) fail("create");
	measure(pool, "in-order-32", 32, 0);
	measure(pool, "shuffled-32", 32, 1);
	measure(pool, "shuffled-256", 256, 1);
	rte_eal_cleanup();
	return 0;
}
