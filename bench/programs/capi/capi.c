/* Rings, pools and routes through the C library, by the names that the yardsticks calls.c, pool.c and lpm.c print.
 *
 *   capi alone                        one thread puts words and takes them again: ns an item
 *   capi alone NAME TURNS             only these turns, to count their instructions; multi-one, hts-one: a word by
 *                                     value; multi-end, hts-end: by ends, each by a hand of its own; multi-both,
 *                                     hts-both: by both ends of one hand; held-1: word by word, by ends that hold their
 *                                     sides, 64 puts and 64 takes in turn
 *   capi pools                        one thread gets numbers of a pool through its cache and puts them again: ns a number
 *   capi lookups                      lookups with 1,000 routes, one by one and in bursts of 32, in a table and by a reader
 *   capi publishes                    100 changes of 1,000 routes that are published, while three readers look up: us
 *   capi memory twice|whole           what 60,000 routes take in a forwarding table, which has two copies, and in a table
 *   capi forwards                     frames of 64 bytes by 1,000 routes, half of them routed, in bursts of 32 and alone, by
 *                                     the names that yardsticks/ipv4.c prints
 *   capi threads MODE PAIRS N CALLS   PAIRS producers and as many consumers, each on a processor of its own, make CALLS
 *                                     calls of N words each: millions of items a second. MODE is multi or hts; with one
 *                                     word a call also ends, multi sides by ends, and held, by ends that hold their sides
 *
 * A producer writes numbers into its table before each call, a consumer adds up what it took; the sums are compared. A
 * call that does nothing is made again, one that stays pending is finished. */
#include "bench.h"
#include "lists.h"
#include <hokhtura.h>
#include <pthread.h>
#include <sched.h>
#include <unistd.h>

#define SLOTS 1024
#define MAX_WORDS 128
#define WARM 20000
#define CHUNK 2000
#define ADDRESSES (1u << 20)
#define BURST 32
#define HELD 64 /* as LAP of yardsticks/calls.c */
#define NUMBERS 8191 /* as BUFFERS of yardsticks/pool.c, and its CACHE */
#define CACHE 32

static hk_hand *ring_of(int hts)
{
	hk_ring_plan plan = { .size = SLOTS, .exact = 0, .put = hts ? HK_HTS : HK_MULTI, .take = hts ? HK_HTS : HK_MULTI };
	hk_hand *hand;
	if (hk_hand_open(&hand, &plan, 1) < 0) exit(1);
	return hand;
}

static __attribute__((noinline)) void turns(hk_hand *hand, uint64_t *words, size_t n, unsigned long count)
{
	for (unsigned long i = 0; i < count; i++)
		if (hk_ring_try_put_bulk(hand, 0, words, n) != (int64_t)n || hk_ring_try_take_bulk(hand, 0, words, n) != (int64_t)n)
			exit(1);
}

/* The same word by word, each passed by value. */
static __attribute__((noinline)) void one_turns(hk_hand *hand, uint64_t *words, unsigned long count)
{
	for (unsigned long i = 0; i < count; i++)
		if (hk_ring_try_put_one(hand, 0, words[0]) != 1 || hk_ring_try_take_one(hand, 0, words) != 1) exit(1);
}

/* The same by ends. */
static __attribute__((noinline)) void end_turns(hk_producer *put, hk_consumer *take, uint64_t *words, unsigned long count)
{
	for (unsigned long i = 0; i < count; i++)
		if (hk_producer_put(put, words[0]) != HK_OK || hk_consumer_take(take, words) != HK_OK) exit(1);
}

/* The same by ends that hold both sides: a burst of puts, and as many takes. */
static __attribute__((noinline)) void held_turns(hk_producer *put, hk_consumer *take, uint64_t *words, unsigned long count)
{
	for (unsigned long i = 0; i < count; i += HELD) {
		for (unsigned j = 0; j < HELD; j++)
			if (hk_producer_put(put, words[j]) != HK_OK) exit(1);
		for (unsigned j = 0; j < HELD; j++)
			if (hk_consumer_take(take, &words[j]) != HK_OK) exit(1);
	}
}

static void open_ends(hk_hand *hand, hk_producer **put, hk_hand *other, hk_consumer **take)
{
	if (hk_producer_open(put, hand, 0) < 0 || hk_consumer_open(take, other, 0) < 0) exit(1);
}

static void held(uint64_t *words, int counted, unsigned long count)
{
	double ns;
	hk_hand *hand = ring_of(1), *other;
	if (hk_hand_split(hand, &other) < 0) exit(1);
	hk_producer *put;
	hk_consumer *take;
	open_ends(hand, &put, other, &take);
	if (hk_producer_hold(put, HELD) < 0 || hk_consumer_hold(take, HELD) < 0) exit(1);
	if (counted) held_turns(put, take, words, count);
	else {
		held_turns(put, take, words, WARM);
		TIMED(ns, CHUNK / HELD * HELD, held_turns(put, take, words, CHUNK / HELD * HELD););
		report("held-1", ns, "ns/item");
	}
	hk_hand_free(hand), hk_hand_free(other);
}

/* One word a call, by value. */
static void ones(const char *only, uint64_t *words, int hts, unsigned long count)
{
	const char *name = hts ? "hts-one" : "multi-one";
	double ns;
	if (only && strcmp(only, name)) return;
	hk_hand *hand = ring_of(hts);
	if (only) one_turns(hand, words, count);
	else {
		one_turns(hand, words, WARM);
		TIMED(ns, CHUNK, one_turns(hand, words, CHUNK););
		report(name, ns, "ns/item");
	}
	hk_hand_free(hand);
}

/* The same by ends: each by a hand of its own, or both by one hand. */
static void ends(const char *only, uint64_t *words, int hts, int both, unsigned long count)
{
	static const char *const names[2][2] = { { "multi-end", "multi-both" }, { "hts-end", "hts-both" } };
	const char *name = names[hts][both];
	double ns;
	hk_producer *put;
	hk_consumer *take;
	if (only && strcmp(only, name)) return;
	hk_hand *hand = ring_of(hts), *other = NULL;
	if (!both && hk_hand_split(hand, &other) < 0) exit(1);
	open_ends(hand, &put, both ? hand : other, &take);
	if (only) end_turns(put, take, words, count);
	else {
		end_turns(put, take, words, WARM);
		TIMED(ns, CHUNK, end_turns(put, take, words, CHUNK););
		report(name, ns, "ns/item");
	}
	hk_hand_free(hand), hk_hand_free(other);
}

/* All names, each timed; or only one name, for `count` turns without a clock. */
static void alone(const char *only, unsigned long count)
{
	static const size_t sizes[] = { 1, 8, 32, 128 };
	uint64_t words[MAX_WORDS];
	for (unsigned i = 0; i < MAX_WORDS; i++) words[i] = i + 1;
	if (!only || strcmp(only, "held-1") == 0) held(words, only != NULL, count);
	for (int hts = 0; hts < 2; hts++) {
		ones(only, words, hts, count);
		for (int both = 0; both < 2; both++) ends(only, words, hts, both, count);
	}
	for (int hts = 0; hts < 2; hts++)
		for (unsigned s = 0; s < sizeof sizes / sizeof *sizes; s++) {
			size_t n = sizes[s];
			char name[32];
			double ns;
			snprintf(name, sizeof name, "%s-%zu", hts ? "hts" : "multi", n);
			if (only && strcmp(only, name)) continue;
			hk_hand *hand = ring_of(hts);
			if (only) turns(hand, words, n, count);
			else {
				turns(hand, words, n, WARM);
				TIMED(ns, CHUNK * n, turns(hand, words, n, CHUNK););
				report(name, ns, "ns/item");
			}
			hk_hand_free(hand);
		}
}

static __attribute__((noinline)) void pool_turns(hk_pool *pool, size_t n, unsigned long count)
{
	uint32_t numbers[BURST];
	for (unsigned long i = 0; i < count; i++)
		if (hk_pool_try_get_bulk(pool, numbers, n) != (int64_t)n || hk_pool_try_put_bulk(pool, numbers, n) != (int64_t)n)
			exit(1);
}

static void pools(void)
{
	static const size_t sizes[] = { 1, BURST };
	hk_pool *pool;
	if (hk_pool_open(&pool, NUMBERS, CACHE, 0) < 0) exit(1);
	for (unsigned s = 0; s < sizeof sizes / sizeof *sizes; s++) {
		size_t n = sizes[s];
		char name[32];
		double ns;
		snprintf(name, sizeof name, "get-put-%zu", n);
		pool_turns(pool, n, WARM);
		TIMED(ns, CHUNK * n, pool_turns(pool, n, CHUNK););
		report(name, ns, "ns/buffer");
	}
	hk_pool_free(pool);
}

static __attribute__((noinline)) uint64_t look_up(hk_routes *table, const uint32_t *list, unsigned length)
{
	uint64_t sum = 0;
	for (unsigned i = 0; i < length; i++) {
		int64_t hop = hk_routes_lookup(table, list[i]);
		if (hop >= 0) sum += hop;
	}
	return sum;
}

static __attribute__((noinline)) uint64_t look_up_bulk(hk_routes *table, const uint32_t *list, unsigned length)
{
	uint64_t sum = 0;
	uint32_t hops[BURST];
	for (unsigned i = 0; i + BURST <= length; i += BURST) {
		if (hk_routes_lookup_bulk(table, &list[i], hops, BURST) < 0) exit(1);
		for (unsigned j = 0; j < BURST; j++)
			if (hops[j] != HK_NO_HOP) sum += hops[j];
	}
	return sum;
}

/* One list of addresses, one by one and in bursts. */
static void lookups_of(hk_routes *table, const uint32_t *list, const char *what)
{
	char name[64];
	double ns;
	uint64_t sum;
	TIMED(ns, ADDRESSES, sum = look_up(table, list, ADDRESSES); KEEP(sum););
	snprintf(name, sizeof name, "%s-1k", what);
	report(name, ns, "ns/lookup");
	TIMED(ns, ADDRESSES, sum = look_up_bulk(table, list, ADDRESSES); KEEP(sum););
	snprintf(name, sizeof name, "%s-bulk-1k", what);
	report(name, ns, "ns/lookup");
}

static void lookups(void)
{
	struct route *routes = make_routes(1000);
	hk_routes *table;
	if (hk_routes_open(&table, 24, 8192) < 0) exit(1);
	for (unsigned i = 0; i < 1000; i++)
		if (hk_routes_add(table, routes[i].address, routes[i].depth, routes[i].hop) < 0) exit(1);
	lookups_of(table, make_hits(routes, 1000, ADDRESSES), "hits");
	lookups_of(table, make_anywhere(ADDRESSES), "anywhere");
	hk_routes_free(table);
}

static __attribute__((noinline)) uint64_t read_bulk(hk_forward *reader, const uint32_t *list, unsigned length)
{
	uint64_t sum = 0;
	uint32_t hops[BURST];
	for (unsigned i = 0; i + BURST <= length; i += BURST) {
		if (hk_forward_lookup_bulk(reader, &list[i], hops, BURST) < 0) exit(1);
		for (unsigned j = 0; j < BURST; j++)
			if (hops[j] != HK_NO_HOP) sum += hops[j];
	}
	return sum;
}

static hk_fib *with_routes(hk_fib *fib, const struct route *routes, unsigned n)
{
	for (unsigned i = 0; i < n; i++) {
		if (hk_fib_add(fib, routes[i].address, routes[i].depth, routes[i].hop) < 0) exit(1);
		if (i % 1000 == 999 && hk_fib_publish(fib) < 0) exit(1);
	}
	return fib;
}

static hk_fib *fib_of(const struct route *routes, unsigned n, const hk_port *ports, size_t port_count,
	const hk_next_hop *hops, size_t hop_count)
{
	hk_fib *fib;
	if (hk_fib_open(&fib, 24, 8192, ports, port_count, hops, hop_count) < 0) exit(1);
	return with_routes(fib, routes, n);
}

static hk_forward *reader_of(hk_fib *fib)
{
	hk_forward *reader;
	if (hk_fib_share(fib, &reader) < 0) exit(1);
	return reader;
}

/* Lists of addresses by a reader. */
static void reads_of(hk_forward *reader, const uint32_t *hits, const uint32_t *anywhere, const char *which)
{
	char name[64];
	double ns;
	uint64_t sum;
	TIMED(ns, ADDRESSES, sum = read_bulk(reader, hits, ADDRESSES); KEEP(sum););
	snprintf(name, sizeof name, "%s-hits-bulk-1k", which);
	report(name, ns, "ns/lookup");
	TIMED(ns, ADDRESSES, sum = read_bulk(reader, anywhere, ADDRESSES); KEEP(sum););
	snprintf(name, sizeof name, "%s-anywhere-bulk-1k", which);
	report(name, ns, "ns/lookup");
}

/* The same addresses by readers of forwarding tables: by one that takes the last version at each call, and by one that
 * holds it. */
static void reads(void)
{
	struct route *routes = make_routes(1000);
	const uint32_t *hits = make_hits(routes, 1000, ADDRESSES), *anywhere = make_anywhere(ADDRESSES);
	hk_fib *whole;
	if (hk_fib_open_whole(&whole, 24, 8192, NULL, 0, NULL, 0) < 0) exit(1);
	hk_forward *readers[2] = {reader_of(fib_of(routes, 1000, NULL, 0, NULL, 0)), reader_of(with_routes(whole, routes, 1000))};
	reads_of(readers[0], hits, anywhere, "reader");
	reads_of(readers[1], hits, anywhere, "whole");
	for (int i = 0; i < 2; i++)
		if (hk_forward_hold(readers[i]) < 0) exit(1);
	reads_of(readers[0], hits, anywhere, "held");
	reads_of(readers[1], hits, anywhere, "held-whole");
}

static void pin(unsigned cpu)
{
	cpu_set_t set;
	CPU_ZERO(&set);
	CPU_SET(cpu, &set);
	pthread_setaffinity_np(pthread_self(), sizeof set, &set);
}

#define READERS 3
#define CHANGES 100

static volatile int is_over;

struct read { hk_forward *reader; const uint32_t *list; unsigned cpu; };

static void *read_on(void *given)
{
	struct read *read = given;
	uint64_t sum = 0;
	pin(read->cpu);
	while (!is_over) sum += read_bulk(read->reader, read->list, ADDRESSES / 64);
	KEEP(sum);
	return NULL;
}

/* A call that is to be tried again, until it is done. */
#define DONE(call) do { \
	int64_t code_; \
	while ((code_ = (call)) == HK_E_PENDING) __asm__ volatile("pause"); \
	if (code_ < 0) exit(1); \
} while (0)

/* Changes the next hop of 25 routes twice, removes and adds 25 others, and publishes. */
static void publish_100(hk_fib *fib, const struct route *routes, unsigned round)
{
	for (unsigned i = 0; i < CHANGES; i++) {
		const struct route *route = &routes[(round * CHANGES / 2 + i / 2) % 1000];
		if (i < CHANGES / 2) DONE(hk_fib_add(fib, route->address, route->depth, (route->hop + round + i) & 0xffffff));
		else if (i % 2 == 0) DONE(hk_fib_remove(fib, route->address, route->depth));
		else DONE(hk_fib_add(fib, route->address, route->depth, route->hop));
	}
	DONE(hk_fib_publish(fib));
}

static void publishes(void)
{
	struct route *routes = make_routes(1000);
	hk_fib *fib = fib_of(routes, 1000, NULL, 0, NULL, 0);
	struct read reads[READERS];
	pthread_t ids[READERS];
	double ns;
	unsigned round = 0;
	for (unsigned i = 0; i < READERS; i++) {
		reads[i] = (struct read){ reader_of(fib), make_hits(routes, 1000, ADDRESSES), i };
		pthread_create(&ids[i], NULL, read_on, &reads[i]);
	}
	pin(READERS);
	TIMED(ns, 1, publish_100(fib, routes, round++););
	report("publish-100", ns / 1000, "us");
	is_over = 1;
	for (unsigned i = 0; i < READERS; i++) pthread_join(ids[i], NULL);
}

static double resident(void)
{
	unsigned long all, here;
	FILE *file = fopen("/proc/self/statm", "r");
	if (!file || fscanf(file, "%lu %lu", &all, &here) != 2) exit(1);
	fclose(file);
	return here * (double)sysconf(_SC_PAGESIZE) / 1048576;
}

static void memory(int twice)
{
	struct route *routes = make_routes(60000);
	double before = resident();
	hk_routes *table = NULL;
	hk_fib *fib = NULL;
	if (twice) {
		fib = fib_of(routes, 60000, NULL, 0, NULL, 0);
		/* The second copy gets the published changes. */
		DONE(hk_fib_add(fib, routes[0].address, routes[0].depth, 1));
	} else if (hk_routes_open(&table, 24, 8192) < 0) exit(1);
	for (unsigned i = 0; !twice && i < 60000; i++)
		if (hk_routes_add(table, routes[i].address, routes[i].depth, routes[i].hop) < 0) exit(1);
	report("memory-60k", resident() - before, "MiB");
	hk_fib_free(fib), hk_routes_free(table);
}

#define PACKETS 1024
#define LIVES 240
#define SIZE 64

static uint8_t packets[PACKETS][2048];
static hk_frame frames[PACKETS];

static uint16_t checksum(const uint8_t *header)
{
	uint32_t sum = 0;
	for (unsigned i = 0; i < 20; i += 2) sum += (uint32_t)header[i] << 8 | header[i + 1];
	while (sum >> 16) sum = (sum & 0xffff) + (sum >> 16);
	return (uint16_t)~sum;
}

/* Every other address is one that a route holds, and the others are above all routes. */
static void refill(const struct route *routes)
{
	uint64_t state = 2;
	for (unsigned i = 0; i < PACKETS; i++) {
		uint64_t a = splitmix64(&state), b = splitmix64(&state);
		const struct route *route = &routes[a % 1000];
		uint32_t to = i % 2 == 0 ? route->address | ((uint32_t)b & ~mask_of(route->depth)) : 0xe0000000u | ((uint32_t)b & 0xffffff);
		uint8_t *frame = packets[i] + 128, *header = frame + 14;
		memset(frame, 0, SIZE);
		memcpy(header - 2, (uint8_t[]){ 8, 0, 0x45, 0, 0, SIZE - 14, 0, 0, 0, 0, 255, 17, 0, 0, 10, 0, 0, 1 }, 18);
		for (unsigned k = 0; k < 4; k++) header[16 + k] = (uint8_t)(to >> (24 - 8 * k));
		uint16_t sum = checksum(header);
		header[10] = (uint8_t)(sum >> 8), header[11] = (uint8_t)sum;
		frames[i] = (hk_frame){ frame, SIZE, SIZE };
	}
}

static __attribute__((noinline)) uint64_t forward_burst(hk_forward *forward, const hk_frame *burst, uint64_t sum)
{
	uint32_t verdicts[BURST];
	if (hk_forward_burst(forward, burst, verdicts, BURST) < 0) exit(1);
	for (unsigned i = 0; i < BURST; i++)
		if (verdicts[i] < HK_DROP) sum += 1 + (verdicts[i] & 0xffff);
	return sum;
}

static __attribute__((noinline)) uint64_t forward_alone(hk_forward *forward, const hk_frame *burst, uint64_t sum)
{
	for (unsigned i = 0; i < BURST; i++) {
		int64_t verdict = hk_forward_frame(forward, burst[i].bytes, burst[i].held, burst[i].wire);
		if (verdict < HK_DROP) sum += 1 + (verdict & 0xffff);
	}
	return sum;
}

/* Turns over all packets, which are filled anew before their time to live ends. */
static void measure_forward(hk_forward *forward, const struct route *routes, const char *name,
	uint64_t by(hk_forward *, const hk_frame *, uint64_t))
{
	uint64_t sum = 0, took = 0, done = 0;
	do {
		refill(routes);
		uint64_t start = now_ns();
		for (unsigned t = 0; t < LIVES; t++)
			for (unsigned i = 0; i < PACKETS; i += BURST) sum = by(forward, &frames[i], sum);
		took += now_ns() - start;
		done += LIVES;
	} while (took < bench_ns());
	fprintf(stderr, "%s sum of a turn %llu\n", name, (unsigned long long)(sum / done));
	report(name, (double)took / done / PACKETS, "ns/frame");
}

static void forwards(void)
{
	struct route *routes = make_routes(1000);
	static hk_next_hop hops[1000];
	hk_port ports[4] = { 0 };
	for (unsigned i = 0; i < 1000; i++) hops[i] = (hk_next_hop){ i % 4, { 2, 1, 0, 0, (uint8_t)(i / 256), (uint8_t)i } };
	for (unsigned i = 0; i < 4; i++) memcpy(ports[i].mac, (uint8_t[]){ 2, 0, 0, 0, 0, (uint8_t)i }, 6);
	hk_forward *forward = reader_of(fib_of(routes, 1000, ports, 4, hops, 1000));
	measure_forward(forward, routes, "forward-64", forward_burst);
	measure_forward(forward, routes, "forward-64-alone", forward_alone);
}

enum by { LISTS, ENDS, HELD_ENDS };

struct job { hk_hand *hand; enum by by; size_t n; unsigned cpu; unsigned long calls; uint64_t sum; };

static inline void pause_a_moment(void) { __asm__ volatile("pause"); }

static inline void put(struct job *job, hk_producer *end, const uint64_t *table)
{
	int64_t done = 0;
	do {
		if (done < 0) pause_a_moment();
		if (done == HK_E_PENDING) done = hk_ring_finish_put(job->hand, table, job->n);
		else if (job->by != LISTS) done = hk_producer_put(end, *table);
		else done = hk_ring_try_put_bulk(job->hand, 0, table, job->n);
	} while (done < 0);
}

static inline void take(struct job *job, hk_consumer *end, uint64_t *table)
{
	int64_t done = 0;
	do {
		if (done < 0) pause_a_moment();
		if (done == HK_E_PENDING) done = hk_ring_finish_take(job->hand, job->n);
		else if (job->by != LISTS) done = hk_consumer_take(end, table);
		else done = hk_ring_try_take_bulk(job->hand, 0, table, job->n);
	} while (done < 0);
}

static void *produce(void *given)
{
	struct job *job = given;
	hk_producer *end;
	uint64_t table[MAX_WORDS], next = 0, sum = 0;
	pin(job->cpu);
	if (hk_producer_open(&end, job->hand, 0) < 0 || (job->by == HELD_ENDS && hk_producer_hold(end, HELD) < 0)) exit(1);
	for (unsigned long i = 0; i < job->calls; i++) {
		for (size_t k = 0; k < job->n; k++) {
			sum += next;
			table[k] = next++;
		}
		put(job, end, table);
	}
	hk_producer_free(end);
	job->sum = sum;
	return NULL;
}

static void *consume(void *given)
{
	struct job *job = given;
	hk_consumer *end;
	uint64_t table[MAX_WORDS], sum = 0;
	pin(job->cpu);
	if (hk_consumer_open(&end, job->hand, 0) < 0 || (job->by == HELD_ENDS && hk_consumer_hold(end, HELD) < 0)) exit(1);
	for (unsigned long i = 0; i < job->calls; i++) {
		take(job, end, table);
		for (size_t k = 0; k < job->n; k++) sum += table[k];
	}
	hk_consumer_free(end);
	job->sum = sum;
	return NULL;
}

static void threads(int hts, enum by by, unsigned pairs, size_t n, unsigned long calls)
{
	hk_hand *first = ring_of(hts);
	struct job jobs[8];
	pthread_t ids[8];
	for (unsigned i = 0; i < 2 * pairs; i++) {
		hk_hand *hand;
		if (hk_hand_split(first, &hand) < 0) exit(1);
		jobs[i] = (struct job){ hand, by, n, i, calls, 0 };
	}
	uint64_t sums[2] = { 0, 0 }, start = now_ns();
	for (unsigned i = 0; i < 2 * pairs; i++) pthread_create(&ids[i], NULL, i % 2 ? consume : produce, &jobs[i]);
	for (unsigned i = 0; i < 2 * pairs; i++) {
		pthread_join(ids[i], NULL);
		sums[i % 2] += jobs[i].sum;
	}
	uint64_t took = now_ns() - start;
	if (sums[0] != sums[1]) {
		fprintf(stderr, "a word was lost\n");
		exit(1);
	}
	report("rate", (double)pairs * n * calls * 1e3 / took, "Mitem/s");
}

int main(int argc, char **argv)
{
	if (argc == 2 && !strcmp(argv[1], "alone")) alone(NULL, 0);
	else if (argc == 4 && !strcmp(argv[1], "alone")) alone(argv[2], strtoul(argv[3], NULL, 10));
	else if (argc == 2 && !strcmp(argv[1], "pools")) pools();
	else if (argc == 2 && !strcmp(argv[1], "lookups")) lookups(), reads();
	else if (argc == 2 && !strcmp(argv[1], "publishes")) publishes();
	else if (argc == 3 && !strcmp(argv[1], "memory")) memory(!strcmp(argv[2], "twice"));
	else if (argc == 2 && !strcmp(argv[1], "forwards")) forwards();
	else if (argc == 6 && !strcmp(argv[1], "threads") && atoi(argv[3]) <= 4 && atoi(argv[4]) <= MAX_WORDS) {
		int held = !strcmp(argv[2], "held"), hts = held || !strcmp(argv[2], "hts");
		enum by by = held ? HELD_ENDS : !strcmp(argv[2], "ends") ? ENDS : LISTS;
		threads(hts, by, atoi(argv[3]), by == LISTS ? atoi(argv[4]) : 1, strtoul(argv[5], NULL, 10));
	}
	else return 2;
	return 0;
}
