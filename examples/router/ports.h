/* A port on AF_PACKET: a socket that receives into blocks of TPACKET_V3, and one that sends. */
#ifndef ROUTER_PORTS_H
#define ROUTER_PORTS_H 1

#include <arpa/inet.h>
#include <errno.h>
#include <linux/if_packet.h>
#include <net/ethernet.h>
#include <net/if.h>
#include <poll.h>
#include <stdint.h>
#include <string.h>
#include <sys/mman.h>
#include <sys/socket.h>
#include <sys/time.h>

/* The kernel hands over a block when it is full, or some milliseconds after its first frame. So many small ones last a
 * second or so while a thread sleeps and few frames come. */
enum { BLOCK = 1 << 16, BLOCKS = 256, MAP = BLOCK * BLOCKS };

struct port { int in, out; uint8_t *map; uint64_t missed; };

/* Opens a port on an interface. Returns NULL, or what is wrong; what was opened then is closed at the program's end. */
static const char *open_port(struct port *p, const char *name) {
    int version = TPACKET_V3, one = 1, in = socket(AF_PACKET, SOCK_RAW, 0), out = socket(AF_PACKET, SOCK_RAW, 0);
    struct timeval most = {0, 100000}; /* a device that stands still doesn't hold a sender for longer than this */
    struct tpacket_req3 ring = {.tp_block_size = BLOCK, .tp_block_nr = BLOCKS, .tp_frame_size = 2048,
                                .tp_frame_nr = MAP / 2048, .tp_retire_blk_tov = 1};
    struct sockaddr_ll at = {.sll_family = AF_PACKET, .sll_protocol = htons(ETH_P_ALL)};
    *p = (struct port){.in = in, .out = out};
    if (in < 0 || out < 0 || !(at.sll_ifindex = (int)if_nametoindex(name)) ||
        setsockopt(in, SOL_PACKET, PACKET_VERSION, &version, sizeof version) ||
        setsockopt(in, SOL_PACKET, PACKET_RX_RING, &ring, sizeof ring) ||
        setsockopt(in, SOL_PACKET, PACKET_IGNORE_OUTGOING, &one, sizeof one) ||
        setsockopt(out, SOL_SOCKET, SO_SNDTIMEO, &most, sizeof most)) return strerror(errno);
    p->map = mmap(NULL, MAP, PROT_READ | PROT_WRITE, MAP_SHARED, in, 0);
    if (p->map == MAP_FAILED || bind(in, (void *)&at, sizeof at)) return strerror(errno);
    at.sll_protocol = 0; /* this socket receives nothing */
    return bind(out, (void *)&at, sizeof at) ? strerror(errno) : NULL;
}

/* A block, once the kernel has handed it over; NULL if it hasn't within 50 ms or so. */
static struct tpacket_block_desc *block_of(const struct port *p, unsigned number) {
    struct tpacket_block_desc *b = (void *)(p->map + (size_t)number * BLOCK);
    struct pollfd wait = {p->in, POLLIN | POLLERR, 0};
    if (__atomic_load_n(&b->hdr.bh1.block_status, __ATOMIC_ACQUIRE) & TP_STATUS_USER) return b;
    poll(&wait, 1, 50);
    return __atomic_load_n(&b->hdr.bh1.block_status, __ATOMIC_ACQUIRE) & TP_STATUS_USER ? b : NULL;
}

static struct tpacket3_hdr *first_of(struct tpacket_block_desc *b) {
    return (void *)((uint8_t *)b + b->hdr.bh1.offset_to_first_pkt);
}

static struct tpacket3_hdr *after(struct tpacket3_hdr *h) { return (void *)((uint8_t *)h + h->tp_next_offset); }

static void hand_back(struct tpacket_block_desc *b) {
    __atomic_store_n(&b->hdr.bh1.block_status, TP_STATUS_KERNEL, __ATOMIC_RELEASE);
}

#endif
