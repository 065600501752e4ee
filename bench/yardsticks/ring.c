/* Put and take of pointers on a ring of 1,024 slots for 1,023 items, in one thread. Two rings in C stand beside the
 * project's, and each name of its program, as multi-32-n256 (the mode, the items of a call, the most that a call may
 * have), is measured on one of them:
 *   1 item: the same protocol in plain C, where each access to a word is sequentially consistent, as the project's are.
 *     rte_ring reserves by an exchange too, but its tails are release stores, at half the price for one item.
 *   32 and 256 items: rte_ring, by rte_ring_enqueue_bulk and rte_ring_dequeue_bulk.
 * In C nothing depends on the most that a call may have, and nothing looks at an item, so what stands beside items with
 * numbers on a free ring (free-multi-32-n32) is the same. What the other ring of the two takes is printed as
 * multi-1-rte, multi-32-plain and so on. NAME TURNS after the options of EAL and `--` measures only one name, in so
 * many turns: to count instructions. */
#include "bench.h"
#include <rte_eal.h>
#include <rte_ring.h>

#define SLOTS 1024
#define CAPACITY 1023
#define MAX_ITEMS 256
#define WARM 20000
#define CHUNK 2000

enum mode { MULTI, HTS };

/* The same protocol in plain C: 64-bit positions that never wrap. A multi side has a head and a tail, an HTS side one
 * word, its position above RESERVED_BITS bits that say how much is reserved. */
#define RESERVED_BITS 20
#define RESERVED ((1ull << RESERVED_BITS) - 1)
#define LAST ((1ull << 44) - 1)
#define LINE __attribute__((aligned(128)))
#define SC __ATOMIC_SEQ_CST

struct side { uint64_t own LINE, tail LINE; };
struct plain { struct side put, take; void **slots; };

static inline int exchanged(uint64_t *word, uint64_t from, uint64_t to)
{
	return __atomic_compare_exchange_n(word, &from, to, 0, SC, SC);
}

static inline uint64_t settled(enum mode mode, struct side *side)
{
	return mode == HTS ? __atomic_load_n(&side->own, SC) >> RESERVED_BITS : __atomic_load_n(&side->tail, SC);
}

/* Reserves n positions of a side, all or none. `spare` is how many it may run ahead of the other side's tail. */
static inline int reserve(enum mode mode, struct side *side, struct side *other, uint64_t spare, unsigned n, uint64_t *start)
{
	for (;;) {
		uint64_t word = __atomic_load_n(&side->own, SC);
		if (mode == HTS && (word & RESERVED)) continue;
		*start = mode == HTS ? word >> RESERVED_BITS : word;
		if (settled(mode, other) + spare - *start < n || *start + n > LAST) return 0;
		if (exchanged(&side->own, word, word + n)) return 1;
	}
}

/* Settles them: of a multi side once all earlier ones are settled. */
static inline void settle(enum mode mode, struct side *side, uint64_t start, unsigned n)
{
	if (mode == HTS) __atomic_store_n(&side->own, (start + n) << RESERVED_BITS, SC);
	else while (!exchanged(&side->tail, start, start + n));
}

/* How many of n slots from a position on stand before the ring's end. */
static inline unsigned before_end(uint64_t start, unsigned n)
{
	uint64_t room = SLOTS - start % SLOTS;
	return n < room ? n : (unsigned)room;
}

static inline int put_plain(enum mode mode, struct plain *ring, void **table, unsigned n)
{
	uint64_t start;
	if (!reserve(mode, &ring->put, &ring->take, CAPACITY, n, &start)) return 0;
	unsigned first = before_end(start, n);
	memcpy(ring->slots + start % SLOTS, table, first * sizeof *table);
	memcpy(ring->slots, table + first, (n - first) * sizeof *table);
	settle(mode, &ring->put, start, n);
	return 1;
}

static inline int take_plain(enum mode mode, struct plain *ring, void **table, unsigned n)
{
	uint64_t start;
	if (!reserve(mode, &ring->take, &ring->put, 0, n, &start)) return 0;
	unsigned first = before_end(start, n);
	memcpy(table, ring->slots + start % SLOTS, first * sizeof *table);
	memcpy(table + first, ring->slots, (n - first) * sizeof *table);
	settle(mode, &ring->take, start, n);
	return 1;
}

static void lost(void)
{
	fprintf(stderr, "an item was lost\n");
	exit(1);
}

/* So many turns: n items are put and taken. The mode of a plain ring is known to the compiler, that of an rte_ring is
 * found in the ring. */
#define TURNS_OF(NAME, RING, PUT, TAKE) \
static __attribute__((noinline)) void NAME(RING, void **table, unsigned n, unsigned long turns) \
{ \
	for (unsigned long i = 0; i < turns; i++) \
		if (!(PUT) || !(TAKE)) lost(); \
}

TURNS_OF(turns_multi, struct plain *ring, put_plain(MULTI, ring, table, n), take_plain(MULTI, ring, table, n))
TURNS_OF(turns_hts, struct plain *ring, put_plain(HTS, ring, table, n), take_plain(HTS, ring, table, n))
TURNS_OF(turns_rte, struct rte_ring *ring, rte_ring_enqueue_bulk(ring, table, n, NULL) == n,
	rte_ring_dequeue_bulk(ring, table, n, NULL) == n)

static const char *only;
static unsigned long only_turns;

/* Whether one of the names is asked for. */
static int is_asked(const char *const *names, unsigned count)
{
	for (unsigned i = 0; only && i < count; i++)
		if (!strcmp(only, names[i])) return 1;
	return !only;
}

/* Measures TURNS(RING, table, n, ..) once, under one name or several. */
#define MEASURE(TURNS, RING, N, ...) do { \
	static const char *const names[] = { __VA_ARGS__ }; \
	unsigned count = sizeof names / sizeof *names; \
	if (!is_asked(names, count)) break; \
	double ns = 0; \
	TURNS(RING, table, N, WARM); \
	if (only) TURNS(RING, table, N, only_turns); \
	else TIMED(ns, CHUNK * (N), TURNS(RING, table, N, CHUNK);); \
	for (unsigned i = 0; i < count; i++) report(names[i], ns, "ns/item"); \
} while (0)

static struct plain *new_plain(void)
{
	struct plain *ring = aligned_alloc(128, sizeof *ring);
	memset(ring, 0, sizeof *ring);
	ring->slots = calloc(SLOTS, sizeof *ring->slots);
	return ring;
}

static struct rte_ring *new_rte(const char *name, unsigned flags)
{
	struct rte_ring *ring = rte_ring_create(name, SLOTS, SOCKET_ID_ANY, flags);
	if (!ring) {
		fprintf(stderr, "no ring\n");
		exit(1);
	}
	return ring;
}

int main(int argc, char **argv)
{
	void *table[MAX_ITEMS];
	int passed = rte_eal_init(argc, argv);
	if (passed < 0) return 1;
	if (argc - passed > 2) {
		only = argv[passed + 1];
		only_turns = strtoul(argv[passed + 2], NULL, 10);
	}
	for (unsigned i = 0; i < MAX_ITEMS; i++) table[i] = malloc(sizeof(uint64_t));
	struct plain *plain = new_plain(), *plain_hts = new_plain();
	struct rte_ring *rte = new_rte("multi", 0);
	struct rte_ring *rte_hts = new_rte("hts", RING_F_MP_HTS_ENQ | RING_F_MC_HTS_DEQ);
	MEASURE(turns_multi, plain, 1, "multi-1-n32", "multi-1-n256", "free-multi-1-n32", "words-multi-1");
	MEASURE(turns_rte, rte, 32, "multi-32-n32", "multi-32-n256", "free-multi-32-n32",
		"words-multi-32", "numbers-multi-32");
	MEASURE(turns_rte, rte, 256, "multi-256-n256", "free-multi-256-n256",
		"words-multi-256", "numbers-multi-256");
	MEASURE(turns_hts, plain_hts, 1, "hts-1-n32", "hts-1-n256", "free-hts-1-n32", "words-hts-1");
	MEASURE(turns_rte, rte_hts, 32, "hts-32-n32", "hts-32-n256", "free-hts-32-n32",
		"words-hts-32", "numbers-hts-32");
	MEASURE(turns_rte, rte_hts, 256, "hts-256-n256", "free-hts-256-n256", "words-hts-256");
	MEASURE(turns_rte, rte, 1, "multi-1-rte");
	MEASURE(turns_multi, plain, 32, "multi-32-plain");
	MEASURE(turns_multi, plain, 256, "multi-256-plain");
	MEASURE(turns_rte, rte_hts, 1, "hts-1-rte");
	MEASURE(turns_hts, plain_hts, 32, "hts-32-plain");
	MEASURE(turns_hts, plain_hts, 256, "hts-256-plain");
	rte_eal_cleanup();
	return 0;
}
