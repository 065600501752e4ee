/* What others see of an rte_ring on which a thread stopped forever between reserving and settling.
 *
 * Each case has a ring of 8 slots for 7 items, with 2 items on it. One thread reserves one more position, for a put or
 * for a take, and ends without settling. Then a producer puts one item after the other and a consumer takes one after
 * the other, each in a thread of its own. The first thread watches both for TURNS turns and prints how far they came.
 * A call of rte_ring that waits for the stopped thread waits inside the library forever, so each case is a process of
 * its own, which ends with such a call still open.
 *
 * An MP/MC reservation is the first of the two functions that make up rte_ring_enqueue and rte_ring_dequeue; an HTS
 * reservation is the start of a peek. */
#include <pthread.h>
#include <sched.h>
#include <stdatomic.h>
#include <stdint.h>
#include <stdio.h>
#include <stdlib.h>
#include <sys/wait.h>
#include <unistd.h>
#include <rte_ring.h>

#define SLOTS 8
#define QUEUED 2
#define TURNS 1000000ul

enum side { PUT, TAKE };

static struct rte_ring *ring;
static int hts;
static enum side stopped;

/* How many items each has moved, and whether the ring was reported full, or empty. */
static atomic_ulong put_so_far, taken_so_far;
static atomic_int full, empty;

static void *stop(void *unused)
{
	uint32_t old, new, left;
	void *item = &ring;
	if (hts && stopped == PUT)
		rte_ring_enqueue_bulk_start(ring, 1, NULL);
	else if (hts)
		rte_ring_dequeue_bulk_start(ring, &item, 1, NULL);
	else if (stopped == PUT)
		__rte_ring_move_prod_head(ring, 0, 1, RTE_RING_QUEUE_FIXED, &old, &new, &left);
	else
		__rte_ring_move_cons_head(ring, 0, 1, RTE_RING_QUEUE_FIXED, &old, &new, &left);
	return unused;
}

static void *produce(void *unused)
{
	while (rte_ring_enqueue(ring, &ring) == 0) atomic_fetch_add(&put_so_far, 1);
	atomic_store(&full, 1);
	return unused;
}

static void *consume(void *unused)
{
	void *item;
	while (rte_ring_dequeue(ring, &item) == 0) atomic_fetch_add(&taken_so_far, 1);
	atomic_store(&empty, 1);
	return unused;
}

/* Runs one of the others for TURNS turns, or until the ring is reported full or empty. */
static void watch(void *(*other)(void *), atomic_int *done)
{
	pthread_t thread;
	pthread_create(&thread, NULL, other, NULL);
	for (unsigned long turn = 0; turn < TURNS && !atomic_load(done); turn++) sched_yield();
}

static void tell(const char *who, const char *moved, unsigned long count, int answered, const char *answer)
{
	printf("  %s: %s %lu, then ", who, moved, count);
	if (answered) printf("%s\n", answer);
	else printf("a call that hasn't returned after %lu turns\n", TURNS);
}

static void run(void)
{
	pthread_t thread;
	unsigned flags = hts ? RING_F_MP_HTS_ENQ | RING_F_MC_HTS_DEQ : 0;
	ring = aligned_alloc(RTE_CACHE_LINE_SIZE, rte_ring_get_memsize(SLOTS));
	if (!ring || rte_ring_init(ring, "ring", SLOTS, flags)) exit(1);
	for (int i = 0; i < QUEUED; i++) rte_ring_enqueue(ring, &ring);
	pthread_create(&thread, NULL, stop, NULL);
	pthread_join(thread, NULL);
	watch(consume, &empty);
	watch(produce, &full);
	printf("%s, stopped in a %s:\n", hts ? "HTS" : "MP/MC", stopped == PUT ? "put" : "take");
	tell("consumer", "took", atomic_load(&taken_so_far), atomic_load(&empty), "none is left");
	tell("producer", "put", atomic_load(&put_so_far), atomic_load(&full), "no room");
	fflush(stdout);
	_exit(0);
}

int main(void)
{
	int status = 0, failed = 0;
	for (int i = 0; i < 4; i++) {
		hts = i / 2;
		stopped = i % 2 ? TAKE : PUT;
		pid_t child = fork();
		if (child == 0) run();
		if (child < 0 || waitpid(child, &status, 0) < 0 || status) failed = 1;
	}
	return failed;
}
