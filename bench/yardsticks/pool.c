/* rte_mempool with a cache of 32 before a ring of many producers and consumers: pointers got and put again, in one
 * thread, 1 and 32 in a call. The cache has what is asked for, but for the first time. The cache alone has no calls of
 * its own in DPDK, so cached-1 is beside the same calls as get-put-1. NAME TURNS after the options of EAL and `--`
 * measures only one name, in so many turns: to count instructions. */
#include "bench.h"
#include <rte_eal.h>
#include <rte_mempool.h>

#define BUFFERS 8191
#define CACHE 32
#define MAX_ITEMS 32
#define WARM 20000
#define CHUNK 2000

static struct rte_mempool *pool;

static void lost(void)
{
	fprintf(stderr, "a buffer was lost\n");
	exit(1);
}

static __attribute__((noinline)) void turns(unsigned n, unsigned long count)
{
	void *table[MAX_ITEMS];
	for (unsigned long i = 0; i < count; i++) {
		if (n == 1) {
			if (rte_mempool_get(pool, table)) lost();
			rte_mempool_put(pool, table[0]);
		} else {
			if (rte_mempool_get_bulk(pool, table, n)) lost();
			rte_mempool_put_bulk(pool, table, n);
		}
	}
}

static const char *only;
static unsigned long only_turns;

static void measure(const char *name, unsigned n)
{
	double ns = 0;
	if (only && strcmp(only, name)) return;
	turns(n, WARM);
	if (only) turns(n, only_turns);
	else TIMED(ns, CHUNK * n, turns(n, CHUNK););
	report(name, ns, "ns/buffer");
}

int main(int argc, char **argv)
{
	int passed = rte_eal_init(argc, argv);
	if (passed < 0) return 1;
	if (argc - passed > 2) {
		only = argv[passed + 1];
		only_turns = strtoul(argv[passed + 2], NULL, 10);
	}
	pool = rte_mempool_create("pool", BUFFERS, 64, CACHE, 0, NULL, NULL, NULL, NULL, SOCKET_ID_ANY, 0);
	if (!pool) {
		fprintf(stderr, "no pool\n");
		return 1;
	}
	measure("get-put-1", 1);
	measure("get-put-32", 32);
	measure("cached-1", 1);
	measure("numbers-1", 1);
	measure("numbers-32", 32);
	rte_mempool_free(pool);
	rte_eal_cleanup();
	return 0;
}
