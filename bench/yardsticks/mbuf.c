/* rte_mbuf: 64 bytes put after and before packets of one segment, with the copy, and cut off again; the first byte
 * read where it lies, and the first 34 bytes copied out and in. */
#include "bench.h"
#include <rte_eal.h>
#include <rte_errno.h>
#include <rte_mbuf.h>

#define BURST 32
#define PIECE 64
#define HEADER 34
#define PAIRS 32000

static struct rte_mbuf *packets[BURST];
static char bytes[PIECE], header[HEADER];
static uint64_t sum;

static void fail(const char *what)
{
	fprintf(stderr, "%s: %d\n", what, rte_errno);
	exit(1);
}

static __attribute__((noinline)) int append(unsigned count)
{
	for (unsigned i = 0; i < count; i++) {
		char *tail = rte_pktmbuf_append(packets[i], PIECE);
		if (!tail) return 0;
		memcpy(tail, bytes, PIECE);
	}
	return 1;
}

static __attribute__((noinline)) int trim(unsigned count)
{
	for (unsigned i = 0; i < count; i++)
		if (rte_pktmbuf_trim(packets[i], PIECE)) return 0;
	return 1;
}

static __attribute__((noinline)) int prepend(unsigned count)
{
	for (unsigned i = 0; i < count; i++) {
		char *head = rte_pktmbuf_prepend(packets[i], PIECE);
		if (!head) return 0;
		memcpy(head, bytes, PIECE);
	}
	return 1;
}

static __attribute__((noinline)) int adj(unsigned count)
{
	for (unsigned i = 0; i < count; i++)
		if (!rte_pktmbuf_adj(packets[i], PIECE)) return 0;
	return 1;
}

static __attribute__((noinline)) int part(unsigned count)
{
	for (unsigned i = 0; i < count; i++) {
		if (!rte_pktmbuf_data_len(packets[i])) return 0;
		sum += *rte_pktmbuf_mtod(packets[i], uint8_t *);
	}
	return 1;
}

static __attribute__((noinline)) int copied(unsigned count)
{
	for (unsigned i = 0; i < count; i++) {
		char room[HEADER];
		const void *from = rte_pktmbuf_read(packets[i], 0, HEADER, room);
		if (!from) return 0;
		memcpy(header, from, HEADER);
		sum += (uint8_t)header[HEADER - 1];
	}
	return 1;
}

static __attribute__((noinline)) int written(unsigned count)
{
	for (unsigned i = 0; i < count; i++) {
		if (rte_pktmbuf_data_len(packets[i]) < HEADER) return 0;
		memcpy(rte_pktmbuf_mtod(packets[i], char *), header, HEADER);
	}
	return 1;
}

/* `count` packets over and over: PAIRS pairs of calls, so that the clock is seldom read. */
static void at_the_end(unsigned count)
{
	for (unsigned turn = 0; turn < PAIRS / count; turn++)
		if (!append(count) || !trim(count)) fail("append and trim");
}

static void at_the_front(unsigned count)
{
	for (unsigned turn = 0; turn < PAIRS / count; turn++)
		if (!prepend(count) || !adj(count)) fail("prepend and adj");
}

static void at_the_header(int (*call)(unsigned), unsigned count)
{
	for (unsigned turn = 0; turn < PAIRS / count; turn++) {
		if (!call(count)) fail("a header");
		__asm__ volatile("" ::: "memory");
	}
}

static void header_row(const char *what, const char *which, int (*call)(unsigned), unsigned count)
{
	char name[64];
	double ns;
	TIMED(ns, PAIRS, at_the_header(call, count););
	snprintf(name, sizeof name, "%s-%s", what, which);
	report(name, ns, "ns/call");
}

static void measure(const char *which, unsigned count)
{
	char name[64];
	double ns;
	TIMED(ns, PAIRS, at_the_end(count););
	snprintf(name, sizeof name, "append-trim-%s", which);
	report(name, ns, "ns/pair");
	TIMED(ns, PAIRS, at_the_front(count););
	snprintf(name, sizeof name, "prepend-adj-%s", which);
	report(name, ns, "ns/pair");
	header_row("part", which, part, count);
	header_row("bytes-34", which, copied, count);
	header_row("write-34", which, written, count);
}

int main(int argc, char **argv)
{
	if (rte_eal_init(argc, argv) < 0) return 1;
	struct rte_mempool *pool = rte_pktmbuf_pool_create("packets", 1023, 0, 0, RTE_MBUF_DEFAULT_BUF_SIZE, SOCKET_ID_ANY);
	if (!pool || rte_pktmbuf_alloc_bulk(pool, packets, BURST)) fail("create");
	memset(bytes, 7, PIECE);
	if (!append(BURST)) fail("append");
	measure("one", 1);
	measure("burst", BURST);
	rte_pktmbuf_free_bulk(packets, BURST);
	rte_eal_cleanup();
	return 0;
}
