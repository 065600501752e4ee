/* What a ring of hokhtura_rte.h can't be given to: each of these names is an error where a program uses it.
 * Libraries of DPDK would take the ring for one of their own, or look for it by name among theirs. */
#ifndef HK_RTE_REFUSED_H
#define HK_RTE_REFUSED_H 1

#ifdef __has_attribute
#if __has_attribute(unavailable)
#define HKR_REFUSED(what) __attribute__((unavailable("hokhtura_rte.h: " what)))
#endif
#endif
#ifndef HKR_REFUSED /* gcc before 12 has no such error: a warning there */
#define HKR_REFUSED(what) __attribute__((deprecated("hokhtura_rte.h: " what)))
#endif

#ifdef __cplusplus
extern "C" {
#endif

struct rte_mempool;
struct rte_event_ring;
struct rte_bpf_prm;
struct rte_port_in_ops;
struct rte_port_out_ops;
struct rte_swx_port_in_ops;
struct rte_swx_port_out_ops;

#define HKR_NO_NET "net_ring takes rings of DPDK's rte_ring only"
int rte_eth_from_ring(struct rte_ring *r) HKR_REFUSED(HKR_NO_NET);
int rte_eth_from_rings(const char *name, struct rte_ring *const rx_queues[], const unsigned int nb_rx_queues,
                       struct rte_ring *const tx_queues[], const unsigned int nb_tx_queues,
                       const unsigned int numa_node) HKR_REFUSED(HKR_NO_NET);

#define HKR_NO_PDUMP "rte_pdump takes rings of DPDK's rte_ring only"
int rte_pdump_enable(uint16_t port, uint16_t queue, uint32_t flags, struct rte_ring *ring, struct rte_mempool *mp,
                     void *filter) HKR_REFUSED(HKR_NO_PDUMP);
int rte_pdump_enable_bpf(uint16_t port, uint16_t queue, uint32_t flags, uint32_t snaplen, struct rte_ring *ring,
                         struct rte_mempool *mp, const struct rte_bpf_prm *prm) HKR_REFUSED(HKR_NO_PDUMP);
int rte_pdump_enable_by_deviceid(char *device, uint16_t queue, uint32_t flags, struct rte_ring *ring,
                                 struct rte_mempool *mp, void *filter) HKR_REFUSED(HKR_NO_PDUMP);
int rte_pdump_enable_bpf_by_deviceid(const char *device, uint16_t queue, uint32_t flags, uint32_t snaplen,
                                     struct rte_ring *ring, struct rte_mempool *mp,
                                     const struct rte_bpf_prm *filter) HKR_REFUSED(HKR_NO_PDUMP);

#define HKR_NO_EVENT "an event ring has a ring of DPDK's rte_ring inside"
struct rte_event_ring *rte_event_ring_create(const char *name, unsigned int count, int socket_id, unsigned int flags)
    HKR_REFUSED(HKR_NO_EVENT);
struct rte_event_ring *rte_event_ring_lookup(const char *name) HKR_REFUSED(HKR_NO_EVENT);
int rte_event_ring_init(struct rte_event_ring *r, const char *name, unsigned int count, unsigned int flags)
    HKR_REFUSED(HKR_NO_EVENT);
void rte_event_ring_free(struct rte_event_ring *r) HKR_REFUSED(HKR_NO_EVENT);

#define HKR_NO_PORT "the ports of rte_pipeline take rings of DPDK's rte_ring only"
extern struct rte_port_in_ops rte_port_ring_reader_ops HKR_REFUSED(HKR_NO_PORT);
extern struct rte_port_in_ops rte_port_ring_multi_reader_ops HKR_REFUSED(HKR_NO_PORT);
extern struct rte_port_in_ops rte_port_ring_reader_ipv4_frag_ops HKR_REFUSED(HKR_NO_PORT);
extern struct rte_port_in_ops rte_port_ring_reader_ipv6_frag_ops HKR_REFUSED(HKR_NO_PORT);
extern struct rte_port_out_ops rte_port_ring_writer_ops HKR_REFUSED(HKR_NO_PORT);
extern struct rte_port_out_ops rte_port_ring_writer_nodrop_ops HKR_REFUSED(HKR_NO_PORT);
extern struct rte_port_out_ops rte_port_ring_multi_writer_ops HKR_REFUSED(HKR_NO_PORT);
extern struct rte_port_out_ops rte_port_ring_multi_writer_nodrop_ops HKR_REFUSED(HKR_NO_PORT);
extern struct rte_port_out_ops rte_port_ring_writer_ipv4_ras_ops HKR_REFUSED(HKR_NO_PORT);
extern struct rte_port_out_ops rte_port_ring_writer_ipv6_ras_ops HKR_REFUSED(HKR_NO_PORT);
extern struct rte_swx_port_in_ops rte_swx_port_ring_reader_ops HKR_REFUSED(HKR_NO_PORT);
extern struct rte_swx_port_out_ops rte_swx_port_ring_writer_ops HKR_REFUSED(HKR_NO_PORT);

#ifdef __cplusplus
}
#endif
#endif
