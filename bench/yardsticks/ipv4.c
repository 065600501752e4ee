/* IPv4 forwarding of packets of one segment in bursts of 32, half of them routed: rte_mbuf, rte_lpm with 1,000 routes,
 * rte_raw_cksum. The tests of the project's `forward` in its order, with one 802.1Q tag. As in DPDK's l3fwd a burst looks up
 * all of its routes in one call, and the new checksum comes from the old one. The names that end in `alone` look up packet by
 * packet. `NAME TURNS` measures that name alone, and makes so many turns: to count instructions. */
#include "lists.h"
#include <rte_eal.h>
#include <rte_errno.h>
#include <rte_ip.h>
#include <rte_lpm.h>
#include <rte_mbuf.h>

#define ROUTES 1000
#define PACKETS 1024
#define BURST 32
#define LIVES 240
#define ETHERNET 14

enum reason { SHORT = 1, NOT_IPV4, BAD_HEADER, BAD_LENGTH, BAD_CHECKSUM, EXPIRED, NO_ROUTE };
struct hop { uint32_t port; uint8_t to[6]; };

static struct rte_mbuf *packets[PACKETS];
static uint32_t addresses[PACKETS];
static struct hop hops[ROUTES];
static uint8_t sources[4][6];

static void fail(const char *what)
{
	fprintf(stderr, "%s: %d\n", what, rte_errno);
	exit(1);
}

/* All tests but that of the route: the drop's number, or 0, the IPv4 header and the destination. */
static inline enum reason examine(struct rte_mbuf *packet, uint8_t **header, uint32_t *destination)
{
	uint32_t length = rte_pktmbuf_data_len(packet), wire = rte_pktmbuf_pkt_len(packet);
	uint8_t *frame = rte_pktmbuf_mtod(packet, uint8_t *);
	if (length < ETHERNET) return SHORT;
	uint32_t at = frame[12] == 0x81 && frame[13] == 0 ? ETHERNET + 4 : ETHERNET;
	if (length < at) return SHORT;
	if (frame[at - 2] != 8 || frame[at - 1] != 0) return NOT_IPV4;
	if (length < at + 20) return SHORT;
	uint8_t *ip = frame + at;
	uint32_t header_length = (ip[0] & 15) * 4, total = (uint32_t)ip[2] << 8 | ip[3];
	if (ip[0] >> 4 != 4 || header_length < 20) return BAD_HEADER;
	if (at + header_length > length) return SHORT;
	if (total < header_length || total > wire - at) return BAD_LENGTH;
	if (rte_raw_cksum(ip, header_length) != 0xffff) return BAD_CHECKSUM;
	if (ip[8] < 2) return EXPIRED;
	*header = ip;
	*destination = (uint32_t)ip[16] << 24 | (uint32_t)ip[17] << 16 | (uint32_t)ip[18] << 8 | ip[19];
	return 0;
}

/* The time to live is the high byte of its 16 bits: one less there, and the checksum is 0x100 more, with the carry at its
 * low end (RFC 1624). Returns the port. */
static inline uint32_t rewrite(struct rte_mbuf *packet, uint8_t *header, const struct hop *hop)
{
	uint8_t *frame = rte_pktmbuf_mtod(packet, uint8_t *);
	uint16_t old;
	memcpy(frame, hop->to, 6);
	memcpy(frame + 6, sources[hop->port], 6);
	header[8]--;
	memcpy(&old, header + 10, 2);
	uint32_t sum = (uint32_t)old + RTE_BE16(0x100);
	uint16_t new = sum + (sum >= 0xffff);
	memcpy(header + 10, &new, 2);
	return hop->port;
}

static __attribute__((noinline)) uint64_t forward_burst(struct rte_mbuf **burst, struct rte_lpm *table, uint64_t sum)
{
	struct rte_mbuf *good[BURST];
	uint8_t *headers[BURST];
	uint32_t destinations[BURST], found[BURST], count = 0;
	for (unsigned i = 0; i < BURST; i++) {
		good[count] = burst[i];
		count += !examine(burst[i], &headers[count], &destinations[count]);
	}
	if (count) rte_lpm_lookup_bulk(table, destinations, found, count);
	for (unsigned i = 0; i < count; i++)
		if (found[i] & RTE_LPM_LOOKUP_SUCCESS) sum += 1 + rewrite(good[i], headers[i], &hops[found[i] & 0xffffff]);
	return sum;
}

static __attribute__((noinline)) uint64_t forward_alone(struct rte_mbuf **burst, struct rte_lpm *table, uint64_t sum)
{
	for (unsigned i = 0; i < BURST; i++) {
		uint8_t *header;
		uint32_t destination, hop;
		if (!examine(burst[i], &header, &destination) && !rte_lpm_lookup(table, destination, &hop))
			sum += 1 + rewrite(burst[i], header, &hops[hop]);
	}
	return sum;
}

typedef uint64_t by(struct rte_mbuf **burst, struct rte_lpm *table, uint64_t sum);

static inline __attribute__((always_inline)) uint64_t turn(struct rte_lpm *table, uint64_t sum, by forward)
{
	for (unsigned i = 0; i < PACKETS; i += BURST) sum = forward(packets + i, table, sum);
	return sum;
}

/* Every other address is one that a route holds, and the others are above all routes. */
static void make_addresses(const struct route *routes)
{
	uint64_t state = 2;
	for (unsigned i = 0; i < PACKETS; i++) {
		uint64_t a = splitmix64(&state), b = splitmix64(&state);
		const struct route *route = &routes[a % ROUTES];
		addresses[i] = i % 2 == 0 ? route->address | ((uint32_t)b & ~mask_of(route->depth)) : 0xe0000000u | ((uint32_t)b & 0xffffff);
	}
}

static struct rte_lpm *make_table(const struct route *routes)
{
	struct rte_lpm_config config = { .max_rules = 65536, .number_tbl8s = 8192 };
	struct rte_lpm *table = rte_lpm_create("table", SOCKET_ID_ANY, &config);
	if (!table) fail("create");
	for (unsigned i = 0; i < ROUTES; i++) {
		if (rte_lpm_add(table, routes[i].address, routes[i].depth, routes[i].hop)) fail("add");
		hops[i] = (struct hop){ i % 4, { 2, 1, 0, 0, (uint8_t)(i / 256), (uint8_t)i } };
	}
	for (unsigned i = 0; i < 4; i++) memcpy(sources[i], (uint8_t[6]){ 2, 0, 0, 0, 0, (uint8_t)i }, 6);
	return table;
}

static void refill(unsigned size)
{
	for (unsigned i = 0; i < PACKETS; i++) {
		rte_pktmbuf_reset(packets[i]);
		uint8_t *frame = (uint8_t *)rte_pktmbuf_append(packets[i], size), *header = frame + ETHERNET;
		uint16_t sum;
		if (!frame) fail("append");
		memset(frame, 0, size);
		frame[12] = 8;
		header[0] = 0x45;
		header[2] = (size - ETHERNET) >> 8;
		header[3] = size - ETHERNET;
		header[8] = 255;
		header[9] = 17;
		header[12] = 10;
		header[15] = 1;
		for (unsigned k = 0; k < 4; k++) header[16 + k] = addresses[i] >> (24 - 8 * k);
		sum = (uint16_t)~rte_raw_cksum(header, 20);
		memcpy(header + 10, &sum, 2);
	}
}

static void measure(const char *name, struct rte_lpm *table, unsigned size, by forward, const char *only, unsigned long turns)
{
	uint64_t sum = 0, took = 0, done = 0, left = turns;
	if (only && strcmp(only, name)) return;
	do {
		unsigned long now = only && left < LIVES ? left : LIVES;
		refill(size);
		uint64_t start = now_ns();
		for (unsigned long i = 0; i < now; i++) sum = turn(table, sum, forward);
		took += now_ns() - start;
		done += now;
		left -= now;
	} while (only ? left > 0 : took < bench_ns());
	fprintf(stderr, "%s sum %llu\n", name, (unsigned long long)sum);
	report(name, (double)took / done / PACKETS, "ns/frame");
}

int main(int argc, char **argv)
{
	int passed = rte_eal_init(argc, argv);
	if (passed < 0) return 1;
	const char *only = argc - passed > 2 ? argv[passed + 1] : NULL;
	unsigned long turns = only ? strtoul(argv[passed + 2], NULL, 10) : 0;
	struct rte_mempool *pool = rte_pktmbuf_pool_create("packets", 2047, 0, 0, RTE_MBUF_DEFAULT_BUF_SIZE, SOCKET_ID_ANY);
	if (!pool || rte_pktmbuf_alloc_bulk(pool, packets, PACKETS)) fail("packets");
	struct route *routes = make_routes(ROUTES);
	make_addresses(routes);
	struct rte_lpm *table = make_table(routes);
	measure("forward-64", table, 64, forward_burst, only, turns);
	measure("forward-1514", table, 1514, forward_burst, only, turns);
	measure("forward-64-alone", table, 64, forward_alone, only, turns);
	rte_lpm_free(table);
	rte_pktmbuf_free_bulk(packets, PACKETS);
	rte_eal_cleanup();
	return 0;
}
