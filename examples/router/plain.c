/* A yardstick for `measure`: the least that forwards, in plain C without the library. One thread for each port
 * receives, judges, rewrites the frame where the kernel put it, and sends it. Routes are looked for one by one; they
 * don't change, and nothing is counted.
 *
 *     plain SETTINGS */
#define _GNU_SOURCE 1
#include "ports.h"
#include "settings.h"
#include <pthread.h>

static struct settings now;
static struct port ports[PORTS];

static uint32_t half(const uint8_t *p) { return p[0] * 256u + p[1]; }

static const struct route *route_to(uint32_t address) {
    const struct route *found = NULL;
    for (uint32_t i = 0; i < now.routes; i++) {
        const struct route *r = &now.route[i];
        if (((address ^ r->address) >> (32 - r->depth)) == 0 && (!found || r->depth >= found->depth)) found = r;
    }
    return found;
}

/* Rewrites a frame of n bytes to a port's address that is to be forwarded, and returns its port, or -1. */
static int judge(uint8_t *b, uint32_t n, uint32_t port) {
    uint8_t *p = b + 14;
    uint32_t sum = 0;
    if (n < 34 || memcmp(b, now.port[port].mac, 6) || half(b + 12) != 0x0800 || p[0] >> 4 != 4) return -1;
    uint32_t length = (p[0] & 15u) * 4, total = half(p + 2);
    if (length < 20 || n < 14 + length || total < length || total > n - 14 || p[8] < 2) return -1;
    for (uint32_t i = 0; i < length; i += 2) sum += half(p + i);
    if ((sum & 0xffff) + (sum >> 16) != 0xffff) return -1;
    const struct route *r = route_to(half(p + 16) << 16 | half(p + 18));
    if (!r) return -1;
    for (uint32_t i = 0; i < now.ports; i++)
        if (now.port[i].depth && now.port[i].address == (half(p + 16) << 16 | half(p + 18))) return -1;
    memcpy(b, r->hop.to, 6);
    memcpy(b + 6, now.port[r->hop.port].mac, 6);
    uint32_t check = half(p + 10) + 256; /* RFC 1141 */
    check = check >= 0xffff ? check - 0xffff : check;
    p[8]--;
    p[10] = (uint8_t)(check >> 8);
    p[11] = (uint8_t)check;
    return (int)r->hop.port;
}

static void send_all(uint32_t port, struct mmsghdr *m, uint32_t n) {
    for (uint32_t done = 0; done < n;) {
        int sent = sendmmsg(ports[port].out, m + done, n - done, 0);
        if (sent >= 0 || errno != EINTR) done += sent > 0 ? (uint32_t)sent : 1;
    }
}

static void *run(void *argument) {
    uint32_t port = (uint32_t)(uintptr_t)argument, n[PORTS] = {0};
    struct mmsghdr m[PORTS][MAX_BURST];
    struct iovec v[PORTS][MAX_BURST];
    for (unsigned block = 0;;) {
        struct tpacket_block_desc *b = block_of(&ports[port], block);
        if (!b) continue;
        struct tpacket3_hdr *h = first_of(b);
        for (uint32_t i = 0; i < b->hdr.bh1.num_pkts; i++, h = after(h)) {
            int to = h->tp_status & TP_STATUS_VLAN_VALID ? -1 : judge((uint8_t *)h + h->tp_mac, h->tp_snaplen, port);
            if (to < 0) continue;
            v[to][n[to]] = (struct iovec){(uint8_t *)h + h->tp_mac, h->tp_snaplen};
            m[to][n[to]] = (struct mmsghdr){.msg_hdr = {.msg_iov = &v[to][n[to]], .msg_iovlen = 1}};
            if (++n[to] == MAX_BURST) send_all((uint32_t)to, m[to], n[to]), n[to] = 0;
        }
        for (uint32_t to = 0; to < now.ports; to++) send_all(to, m[to], n[to]), n[to] = 0;
        hand_back(b);
        block = (block + 1) % BLOCKS;
    }
    return NULL;
}

int main(int argc, char **argv) {
    pthread_t id;
    if (argc < 2 || !read_settings(argv[1], &now)) return 2;
    for (uint32_t p = 0; p < now.ports; p++)
        if (open_port(&ports[p], now.interface[p])) return perror(now.interface[p]), 1;
    for (uint32_t p = 0; p < now.ports; p++)
        if (pthread_create(&id, NULL, run, (void *)(uintptr_t)p)) return fprintf(stderr, "no thread\n"), 1;
    fprintf(stderr, "router: %u routes\n", now.routes);
    return pthread_join(id, NULL);
}
