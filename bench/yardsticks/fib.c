/* rte_lpm with rte_rcu_qsbr: 100 changes of 1,000 routes (lists.h) beside three readers that look up in bursts of 32 and
 * report a quiescent state after each burst. Each change is seen by itself. As with hk_fib, 25 routes get another next
 * hop twice, and 25 are removed and added again. */
#include "lists.h"
#include <pthread.h>
#include <rte_eal.h>
#include <rte_errno.h>
#include <rte_lpm.h>
#include <rte_rcu_qsbr.h>

#define ADDRESSES (1u << 20)
#define BURST 32
#define READERS 3
#define CHANGES 100

static struct rte_lpm *table;
static struct rte_rcu_qsbr *states;
static volatile int is_over;

struct read { const uint32_t *list; unsigned number; };

static void fail(const char *what)
{
	fprintf(stderr, "%s: %d\n", what, rte_errno);
	exit(1);
}

static void pin(unsigned cpu)
{
	cpu_set_t set;
	CPU_ZERO(&set);
	CPU_SET(cpu, &set);
	pthread_setaffinity_np(pthread_self(), sizeof set, &set);
}

static void *read_on(void *given)
{
	struct read *read = given;
	uint64_t sum = 0;
	uint32_t hops[BURST];
	pin(read->number);
	rte_rcu_qsbr_thread_register(states, read->number);
	rte_rcu_qsbr_thread_online(states, read->number);
	while (!is_over)
		for (unsigned i = 0; i + BURST <= ADDRESSES / 64; i += BURST) {
			rte_lpm_lookup_bulk(table, &read->list[i], hops, BURST);
			for (unsigned j = 0; j < BURST; j++)
				if (hops[j] & RTE_LPM_LOOKUP_SUCCESS) sum += hops[j] & 0x00ffffff;
			rte_rcu_qsbr_quiescent(states, read->number);
		}
	rte_rcu_qsbr_thread_offline(states, read->number);
	KEEP(sum);
	return NULL;
}

static void change_100(const struct route *routes, unsigned round)
{
	for (unsigned i = 0; i < CHANGES; i++) {
		const struct route *route = &routes[(round * CHANGES / 2 + i / 2) % 1000];
		int wrong;
		if (i < CHANGES / 2) wrong = rte_lpm_add(table, route->address, route->depth, (route->hop + round + i) & 0xffffff);
		else if (i % 2 == 0) wrong = rte_lpm_delete(table, route->address, route->depth);
		else wrong = rte_lpm_add(table, route->address, route->depth, route->hop);
		if (wrong) fail("change");
	}
}

int main(int argc, char **argv)
{
	struct rte_lpm_config config = { .max_rules = 65536, .number_tbl8s = 8192 };
	if (rte_eal_init(argc, argv) < 0) return 1;
	table = rte_lpm_create("table", SOCKET_ID_ANY, &config);
	states = aligned_alloc(64, (rte_rcu_qsbr_get_memsize(READERS) + 63) / 64 * 64);
	if (!table || !states || rte_rcu_qsbr_init(states, READERS)) fail("create");
	struct rte_lpm_rcu_config rcu = { .v = states, .mode = RTE_LPM_QSBR_MODE_DQ };
	if (rte_lpm_rcu_qsbr_add(table, &rcu)) fail("rcu");
	struct route *routes = make_routes(1000);
	for (unsigned i = 0; i < 1000; i++)
		if (rte_lpm_add(table, routes[i].address, routes[i].depth, routes[i].hop)) fail("add");
	struct read reads[READERS];
	pthread_t ids[READERS];
	for (unsigned i = 0; i < READERS; i++) {
		reads[i] = (struct read){ make_hits(routes, 1000, ADDRESSES), i };
		pthread_create(&ids[i], NULL, read_on, &reads[i]);
	}
	pin(READERS);
	double ns;
	unsigned round = 0;
	TIMED(ns, 1, change_100(routes, round++););
	report("publish-100", ns / 1000, "us");
	is_over = 1;
	for (unsigned i = 0; i < READERS; i++) pthread_join(ids[i], NULL);
	rte_eal_cleanup();
	return 0;
}
