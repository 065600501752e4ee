/* ck_ring, MPMC, on a ring of 1,024 slots: one thread puts N words one by one and takes them again. It has no calls of
 * several words. Prints the names of programs/capi. */
#include "bench.h"
#include <ck_ring.h>

#define SLOTS 1024
#define MAX_WORDS 128
#define CHUNK 2000

static __attribute__((noinline)) void turns(ck_ring_t *ring, ck_ring_buffer_t *buffer, void **table, unsigned n,
                                            unsigned long count)
{
	for (unsigned long i = 0; i < count; i++) {
		for (unsigned k = 0; k < n; k++)
			if (!ck_ring_enqueue_mpmc(ring, buffer, table[k])) exit(1);
		for (unsigned k = 0; k < n; k++)
			if (!ck_ring_dequeue_mpmc(ring, buffer, &table[k])) exit(1);
	}
}

int main(void)
{
	static const unsigned sizes[] = { 1, 8, 32, 128 };
	static ck_ring_buffer_t buffer[SLOTS];
	static ck_ring_t ring;
	void *table[MAX_WORDS];
	for (unsigned i = 0; i < MAX_WORDS; i++) table[i] = (void *)(uintptr_t)(i + 1);
	ck_ring_init(&ring, SLOTS);
	for (unsigned s = 0; s < sizeof sizes / sizeof *sizes; s++) {
		unsigned n = sizes[s];
		char name[32];
		double ns;
		TIMED(ns, CHUNK * n, turns(&ring, buffer, table, n, CHUNK););
		snprintf(name, sizeof name, "multi-%u", n);
		report(name, ns, "ns/item");
	}
	return 0;
}
