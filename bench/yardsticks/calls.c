/* Whole calls of rte_ring, MP/MC, HTS and, one item a call, SP/SC, on a ring of 1,024 slots for 1,023 items.
 *
 *   calls.yardstick alone                        one thread puts items and takes them again: ns an item
 *   calls.yardstick threads MODE PAIRS N CALLS   PAIRS producers and as many consumers, each on a processor of its own,
 *                                                make CALLS calls of N items each: millions of items a second
 *
 * A producer writes numbers into its table before each call, a consumer adds up what it took, as the project's program
 * does; the sums are compared. A call that finds no room, or too few items, is made again. */
#include "bench.h"
#include <pthread.h>
#include <sched.h>
#include <rte_ring.h>

#define SLOTS 1024
#define MAX_WORDS 128
#define WARM 20000
#define CHUNK 2000
#define LAP 64

enum mode { MULTI, HTS, SINGLE };

static struct rte_ring *ring_of(enum mode mode)
{
	static const unsigned flags[] = {
		[HTS] = RING_F_MP_HTS_ENQ | RING_F_MC_HTS_DEQ,
		[SINGLE] = RING_F_SP_ENQ | RING_F_SC_DEQ,
	};
	struct rte_ring *ring = aligned_alloc(RTE_CACHE_LINE_SIZE, rte_ring_get_memsize(SLOTS));
	if (!ring || rte_ring_init(ring, "ring", SLOTS, flags[mode])) exit(1);
	return ring;
}

static __attribute__((noinline)) void turns(struct rte_ring *ring, void **table, unsigned n, unsigned long count)
{
	for (unsigned long i = 0; i < count; i++)
		if (rte_ring_enqueue_bulk(ring, table, n, NULL) != n || rte_ring_dequeue_bulk(ring, table, n, NULL) != n)
			exit(1);
}

/* One item a call: LAP enqueues, and then as many dequeues. */
static __attribute__((noinline)) void laps(struct rte_ring *ring, void **table, unsigned long count)
{
	for (unsigned long i = 0; i < count; i += LAP) {
		for (unsigned j = 0; j < LAP; j++)
			if (rte_ring_enqueue(ring, table[j])) exit(1);
		for (unsigned j = 0; j < LAP; j++)
			if (rte_ring_dequeue(ring, &table[j])) exit(1);
	}
}

static void laps_alone(enum mode mode, void **table)
{
	static const char *const names[] = { "multi-laps", "hts-laps", "single-laps" };
	struct rte_ring *ring = ring_of(mode);
	double ns;
	laps(ring, table, WARM);
	TIMED(ns, CHUNK / LAP * LAP, laps(ring, table, CHUNK / LAP * LAP););
	report(names[mode], ns, "ns/item");
	free(ring);
}

static void alone(void)
{
	static const unsigned sizes[] = { 1, 8, 32, 128 };
	void *table[MAX_WORDS];
	for (unsigned i = 0; i < MAX_WORDS; i++) table[i] = (void *)(uintptr_t)(i + 1);
	for (enum mode mode = MULTI; mode <= SINGLE; mode++) laps_alone(mode, table);
	for (int hts = 0; hts < 2; hts++)
		for (unsigned s = 0; s < sizeof sizes / sizeof *sizes; s++) {
			struct rte_ring *ring = ring_of(hts);
			unsigned n = sizes[s];
			char name[32];
			double ns;
			turns(ring, table, n, WARM);
			TIMED(ns, CHUNK * n, turns(ring, table, n, CHUNK););
			snprintf(name, sizeof name, "%s-%u", hts ? "hts" : "multi", n);
			report(name, ns, "ns/item");
			free(ring);
		}
}

struct job { struct rte_ring *ring; unsigned n, cpu; unsigned long calls; uint64_t sum; };

static void pin(unsigned cpu)
{
	cpu_set_t set;
	CPU_ZERO(&set);
	CPU_SET(cpu, &set);
	pthread_setaffinity_np(pthread_self(), sizeof set, &set);
}

static void *produce(void *given)
{
	struct job *job = given;
	void *table[MAX_WORDS];
	uint64_t next = 0, sum = 0;
	pin(job->cpu);
	for (unsigned long i = 0; i < job->calls; i++) {
		for (unsigned k = 0; k < job->n; k++) {
			sum += next;
			table[k] = (void *)(uintptr_t)next++;
		}
		while (!rte_ring_enqueue_bulk(job->ring, table, job->n, NULL)) rte_pause();
	}
	job->sum = sum;
	return NULL;
}

static void *consume(void *given)
{
	struct job *job = given;
	void *table[MAX_WORDS];
	uint64_t sum = 0;
	pin(job->cpu);
	for (unsigned long i = 0; i < job->calls; i++) {
		while (!rte_ring_dequeue_bulk(job->ring, table, job->n, NULL)) rte_pause();
		for (unsigned k = 0; k < job->n; k++) sum += (uintptr_t)table[k];
	}
	job->sum = sum;
	return NULL;
}

static void threads(enum mode mode, unsigned pairs, unsigned n, unsigned long calls)
{
	struct rte_ring *ring = ring_of(mode);
	struct job jobs[8];
	pthread_t ids[8];
	uint64_t sums[2] = { 0, 0 }, start = now_ns();
	for (unsigned i = 0; i < 2 * pairs; i++) {
		jobs[i] = (struct job){ ring, n, i, calls, 0 };
		pthread_create(&ids[i], NULL, i % 2 ? consume : produce, &jobs[i]);
	}
	for (unsigned i = 0; i < 2 * pairs; i++) {
		pthread_join(ids[i], NULL);
		sums[i % 2] += jobs[i].sum;
	}
	uint64_t took = now_ns() - start;
	if (sums[0] != sums[1]) {
		fprintf(stderr, "an item was lost\n");
		exit(1);
	}
	report("rate", (double)pairs * n * calls * 1e3 / took, "Mitem/s");
}

static enum mode mode_of(const char *name)
{
	return !strcmp(name, "hts") ? HTS : !strcmp(name, "single") ? SINGLE : MULTI;
}

int main(int argc, char **argv)
{
	if (argc == 2 && !strcmp(argv[1], "alone")) alone();
	else if (argc == 6 && !strcmp(argv[1], "threads") && atoi(argv[3]) <= 4 && atoi(argv[4]) <= MAX_WORDS)
		threads(mode_of(argv[2]), atoi(argv[3]), atoi(argv[4]), strtoul(argv[5], NULL, 10));
	else return 2;
	return 0;
}
