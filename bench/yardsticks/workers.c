/* DPDK's forwarder of pcap files, by the rules of forward.h: the pcap driver reads and writes, rte_lpm has the routes.
 *
 *   workers.yardstick EAL.. --vdev net_pcap0,rx_pcap=IN,tx_pcap=OUT.0 --vdev net_pcap1,rx_pcap=EMPTY,tx_pcap=OUT.1 --
 *     ROUTES WORKERS [small]
 *
 * Its sizes are those that are usual with DPDK, or with `small` about those of `pktkit run`.
 *
 * With 0 workers one lcore does all. Else the main lcore reads and numbers packets, so many lcores take bursts from a ring in
 * head/tail sync and judge them, and one more puts them in order by rte_reorder and sends them: it needs WORKERS + 2. Prints
 * the report's counts, and on the error stream `loop_ns N init_ns N`: the time from the first packet to the last, and that of
 * EAL and ports before. */
#include "lists.h"
#include <rte_eal.h>
#include <rte_errno.h>
#include <rte_ethdev.h>
#include <rte_lpm.h>
#include <rte_mbuf.h>
#include <rte_reorder.h>
#include <rte_ring.h>

#include "forward.h"

#define LIST 32

struct sizes {
	unsigned buffers, cache, ring, window;
	/* Fewer than the window has places, and than the pool has buffers less those in caches. */
	unsigned max_under_way;
};

static const struct sizes usual = { 16383, 256, 1024, 8192, 4096 }, small = { 1023, 64, 256, 1024, 512 };
static const struct sizes *sizes = &usual;

static struct rte_lpm *routes;
static struct rte_ring *to_judge, *to_send;
static volatile int has_read;
static volatile uint64_t read_in_all, sent_so_far;
static unsigned workers;
static uint64_t records, tagged, of_port[PORTS], verdicts[VERDICTS];

/* Whether a packet has to be looked up, and then its address. Its verdict, whether it has a tag, and its port travel in a
 * field that is free. */
static inline int judge(struct rte_mbuf *packet, uint32_t *to)
{
	unsigned at = 0, verdict = examine(rte_pktmbuf_mtod(packet, uint8_t *), rte_pktmbuf_data_len(packet),
		rte_pktmbuf_pkt_len(packet), &at, to);
	packet->hash.usr = verdict << 8 | (at == 18) << 7;
	return verdict == SENT;
}

static inline void route(struct rte_mbuf *packet, uint32_t found)
{
	uint32_t index = found & 0xffffff, at = packet->hash.usr >> 7 & 1 ? 18 : 14;
	if (!(found & RTE_LPM_LOOKUP_SUCCESS)) {
		packet->hash.usr = NO_ROUTE << 8;
		return;
	}
	rewrite(rte_pktmbuf_mtod(packet, uint8_t *), at, index);
	packet->hash.usr |= index % PORTS;
}

/* Judges and rewrites a list of at most LIST packets, with all their lookups in one call. */
static void judge_all(struct rte_mbuf **list, unsigned count)
{
	struct rte_mbuf *good[LIST];
	uint32_t to[LIST], found[LIST];
	unsigned many = 0;
	for (unsigned i = 0; i < count; i++) {
		good[many] = list[i];
		many += judge(list[i], &to[many]);
	}
	if (many) rte_lpm_lookup_bulk(routes, to, found, many);
	for (unsigned i = 0; i < many; i++) route(good[i], found[i]);
}

static void send_all(struct rte_mbuf **list, unsigned count)
{
	struct rte_mbuf *of[PORTS][LIST];
	unsigned many[PORTS] = { 0 };
	for (unsigned i = 0; i < count; i++) {
		uint32_t told = list[i]->hash.usr, verdict = told >> 8, port = told & 127;
		verdicts[verdict]++;
		if (verdict != SENT) {
			rte_pktmbuf_free(list[i]);
			continue;
		}
		tagged += told >> 7 & 1;
		of_port[port]++;
		of[port][many[port]++] = list[i];
	}
	for (unsigned port = 0; port < PORTS; port++)
		for (unsigned sent = 0; sent < many[port];) {
			unsigned more = rte_eth_tx_burst(port, 0, of[port] + sent, many[port] - sent);
			if (!more) fail("tx");
			sent += more;
		}
}

static int work(void *unused)
{
	struct rte_mbuf *list[LIST];
	(void)unused;
	for (;;) {
		unsigned count = rte_ring_dequeue_burst(to_judge, (void **)list, LIST, NULL);
		if (!count) {
			if (has_read && rte_ring_empty(to_judge)) return 0;
			rte_pause();
			continue;
		}
		judge_all(list, count);
		while (!rte_ring_enqueue_bulk(to_send, (void **)list, count, NULL)) rte_pause();
	}
}

static int sink(void *window)
{
	struct rte_mbuf *list[LIST], *ready[LIST];
	while (!has_read || sent_so_far != read_in_all) {
		unsigned count = rte_ring_dequeue_burst(to_send, (void **)list, LIST, NULL), left;
		if (!count) rte_pause();
		for (unsigned i = 0; i < count; i++)
			if (rte_reorder_insert(window, list[i])) fail("reorder");
		while ((left = rte_reorder_drain(window, ready, LIST)) != 0) {
			send_all(ready, left);
			sent_so_far += left;
		}
	}
	return 0;
}

static void by_one(void)
{
	struct rte_mbuf *list[LIST];
	unsigned count;
	while ((count = rte_eth_rx_burst(0, 0, list, LIST)) != 0) {
		records += count;
		judge_all(list, count);
		send_all(list, count);
	}
}

static void start_workers(void)
{
	unsigned lcore, started = 0;
	RTE_LCORE_FOREACH_WORKER(lcore)
		if (started++ < workers) rte_eal_remote_launch(work, NULL, lcore);
}

static void start_sink(struct rte_reorder_buffer *window)
{
	unsigned lcore, passed = 0;
	RTE_LCORE_FOREACH_WORKER(lcore)
		if (passed++ == workers) rte_eal_remote_launch(sink, window, lcore);
}

/* The first packet is put into the window here, since the first that comes fixes where it begins. */
static void by_workers(void)
{
	struct rte_reorder_buffer *window = rte_reorder_create("window", SOCKET_ID_ANY, sizes->window);
	struct rte_mbuf *list[LIST];
	unsigned count;
	to_judge = rte_ring_create("in", sizes->ring, SOCKET_ID_ANY, RING_F_MP_HTS_ENQ | RING_F_MC_HTS_DEQ);
	to_send = rte_ring_create("out", sizes->ring, SOCKET_ID_ANY, 0);
	if (!window || !to_judge || !to_send || rte_lcore_count() < workers + 2) fail("setup");
	start_workers();
	while ((count = rte_eth_rx_burst(0, 0, list, LIST)) != 0) {
		unsigned first = records == 0;
		for (unsigned i = 0; i < count; i++) *rte_reorder_seqn(list[i]) = records + i;
		records += count;
		if (first) {
			judge_all(list, 1);
			if (rte_reorder_insert(window, list[0])) fail("reorder");
			start_sink(window);
		}
		while (count > first && !rte_ring_enqueue_bulk(to_judge, (void **)(list + first), count - first, NULL)) rte_pause();
		/* The driver answers an empty list at the end and where no buffer is left, and loses the record then. */
		while (records - sent_so_far > sizes->max_under_way) rte_pause();
	}
	read_in_all = records;
	rte_smp_wmb();
	has_read = 1;
	rte_eal_mp_wait_lcore();
}

static void open_ports(void)
{
	struct rte_mempool *pool = rte_pktmbuf_pool_create("pool", sizes->buffers, sizes->cache, 0, RTE_MBUF_DEFAULT_BUF_SIZE, SOCKET_ID_ANY);
	if (!pool) fail("pool");
	for (unsigned port = 0; port < PORTS; port++) {
		struct rte_eth_conf conf = { 0 };
		if (rte_eth_dev_configure(port, 1, 1, &conf) || rte_eth_rx_queue_setup(port, 0, 512, 0, NULL, pool)
			|| rte_eth_tx_queue_setup(port, 0, 512, 0, NULL) || rte_eth_dev_start(port)) fail("port");
	}
}

static void add_routes(unsigned count)
{
	struct rte_lpm_config config = { .max_rules = 65536, .number_tbl8s = 8192 };
	struct route *all = make_routes(count);
	routes = rte_lpm_create("routes", SOCKET_ID_ANY, &config);
	if (!routes) fail("lpm");
	for (unsigned i = 0; i < count; i++)
		if (rte_lpm_add(routes, all[i].address, all[i].depth, i)) fail("route");
	free(all);
}

int main(int argc, char **argv)
{
	uint64_t begun = now_ns(), opened;
	int used = rte_eal_init(argc, argv);
	if (used < 0 || argc - used < 3) return 2;
	workers = atoi(argv[used + 2]);
	if (argc - used > 3) sizes = &small;
	add_routes(atoi(argv[used + 1]));
	open_ports();
	opened = now_ns();
	if (workers == 0) by_one();
	else by_workers();
	fprintf(stderr, "loop_ns %llu init_ns %llu\n", (unsigned long long)(now_ns() - opened), (unsigned long long)(opened - begun));
	struct rte_eth_stats stats;
	rte_eth_stats_get(0, &stats);
	if (stats.rx_nombuf) fail("out of buffers");
	for (unsigned port = 0; port < PORTS; port++) rte_eth_dev_stop(port);
	printf("records %llu\n", (unsigned long long)records);
	for (unsigned port = 0; port < PORTS; port++) printf("port %u %llu\n", port, (unsigned long long)of_port[port]);
	for (unsigned k = SHORT; k < VERDICTS; k++) printf("%s %llu\n", names[k], (unsigned long long)verdicts[k]);
	printf("%s %llu\n", names[SENT], (unsigned long long)tagged);
	rte_eal_cleanup();
	return 0;
}
