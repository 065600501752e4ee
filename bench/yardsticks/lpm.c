/* rte_lpm: add, look up one by one and in bursts (rte_lpm_lookup_bulk), and delete, with 1,000 and 60,000 routes
 * (lists.h), and the memory of a table. bench/run runs it with EAL's option --no-huge, so that its tables lie in pages
 * of 4 KiB as the project's do. */
#include "lists.h"
#include <rte_eal.h>
#include <rte_errno.h>
#include <rte_lpm.h>
#include <rte_malloc.h>

#define ADDRESSES (1u << 20)
#define DELETED 1000
#define BURST 32

static size_t allocated(void)
{
	struct rte_malloc_socket_stats stats;
	rte_malloc_get_socket_stats(0, &stats);
	return stats.heap_allocsz_bytes;
}

static void fail(const char *what)
{
	fprintf(stderr, "%s: %d\n", what, rte_errno);
	exit(1);
}

static __attribute__((noinline)) uint64_t look_up(struct rte_lpm *table, const uint32_t *list, unsigned length)
{
	uint64_t sum = 0;
	uint32_t hop;
	for (unsigned i = 0; i < length; i++)
		if (rte_lpm_lookup(table, list[i], &hop) == 0) sum += hop;
	return sum;
}

static __attribute__((noinline)) uint64_t look_up_bulk(struct rte_lpm *table, const uint32_t *list, unsigned length)
{
	uint64_t sum = 0;
	uint32_t hops[BURST];
	for (unsigned i = 0; i + BURST <= length; i += BURST) {
		rte_lpm_lookup_bulk(table, &list[i], hops, BURST);
		for (unsigned j = 0; j < BURST; j++)
			if (hops[j] & RTE_LPM_LOOKUP_SUCCESS) sum += hops[j] & 0x00ffffff;
	}
	return sum;
}

/* One list of addresses, one by one and in bursts. */
static void lookups(struct rte_lpm *table, const uint32_t *list, const char *what, const char *label)
{
	char name[64];
	double ns;
	uint64_t sum;
	TIMED(ns, ADDRESSES, sum = look_up(table, list, ADDRESSES); KEEP(sum););
	snprintf(name, sizeof name, "%s-%s", what, label);
	report(name, ns, "ns/lookup");
	TIMED(ns, ADDRESSES, sum = look_up_bulk(table, list, ADDRESSES); KEEP(sum););
	snprintf(name, sizeof name, "%s-bulk-%s", what, label);
	report(name, ns, "ns/lookup");
	fprintf(stderr, "%s-%s sums %llu %llu\n", what, label, (unsigned long long)look_up(table, list, ADDRESSES),
		(unsigned long long)look_up_bulk(table, list, ADDRESSES));
}

static void measure(unsigned count, const char *label)
{
	struct route *routes = make_routes(count);
	uint32_t *hits = make_hits(routes, count, ADDRESSES), *anywhere = make_anywhere(ADDRESSES);
	struct rte_lpm_config config = { .max_rules = 65536, .number_tbl8s = 8192 };
	char name[64];
	double ns;
	size_t before = allocated();
	struct rte_lpm *table = rte_lpm_create("table", SOCKET_ID_ANY, &config);
	if (!table) fail("create");
	size_t memory = allocated() - before;
	uint64_t start = now_ns();
	for (unsigned i = 0; i < count; i++)
		if (rte_lpm_add(table, routes[i].address, routes[i].depth, routes[i].hop)) fail("add");
	ns = (double)(now_ns() - start) / count;
	snprintf(name, sizeof name, "add-%s", label);
	report(name, ns, "ns/route");
	lookups(table, hits, "hits", label);
	lookups(table, anywhere, "anywhere", label);
	start = now_ns();
	for (unsigned i = 0; i < DELETED; i++) rte_lpm_delete(table, routes[i].address, routes[i].depth);
	ns = (double)(now_ns() - start) / DELETED;
	snprintf(name, sizeof name, "delete-%s", label);
	report(name, ns, "ns/route");
	snprintf(name, sizeof name, "memory-%s", label);
	report(name, memory / 1048576.0, "MiB");
	rte_lpm_free(table);
	free(routes);
	free(hits);
	free(anywhere);
}

int main(int argc, char **argv)
{
	if (rte_eal_init(argc, argv) < 0) return 1;
	measure(1000, "1k");
	measure(60000, "60k");
	rte_eal_cleanup();
	return 0;
}
