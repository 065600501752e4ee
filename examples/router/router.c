/* A router over AF_PACKET: docs/ROUTER.md. Frames are received by a thread for each port, judged and rewritten by
 * workers, and sent by a thread for each port. Buffers are numbers of a pool, which travel on its rings: ring w leads
 * to worker w, and ring workers + p to port p. A number is with one thread at a time, and so is its buffer.
 *
 *     router SETTINGS [WORKERS]
 *
 * HUP: reads the settings again. USR1: prints the counts. INT, TERM: forwards what was received, prints them, ends.
 * USR2 is for tests: worker 0 stops between two bursts; the next USR2 lets it go on. */
#define _GNU_SOURCE 1
#include "ports.h"
#include "settings.h"
#include <inttypes.h>
#include <pthread.h>
#include <signal.h>
#include <stdatomic.h>
#include <stdio.h>
#include <stdlib.h>
#include <string.h>
#include <time.h>
#include <unistd.h>

/* TRIES: how often a get or a send is called while other threads come first, some 70 us apart: long enough for one
 * that the system has put aside in the middle of its call, and no endless wait for one that is stopped there. */
enum { WORKERS = 16, RINGS = PORTS + WORKERS, TRIES = 500 };

static void fail(const char *what, const char *why) {
    tell(what, 0, why);
    exit(1);
}

static void need(int64_t code, const char *what) {
    if (code < 0) fail(what, hk_strerror(code));
}

/* ---- What all threads share -------------------------------------------------------------------------------------- */

/* The lines of the report. Each frame is counted once among RECORDS, and once among the others (TAGGED and MISSED are
 * beside these), or it is waiting. */
enum { RECORDS, OVERSIZE, DROPS, TAGGED = DROPS + 7, OWN, OTHER, GROUP, MULTICAST, BROADCAST, PARTIAL, NO_BUFFER, FULL,
       BUSY, UNSENT, LINES, SENT = LINES, COUNTS = SENT + PORTS };
static const char *const lines[LINES] = {
    "records", "oversize", "short", "not-ipv4", "bad-header", "bad-length", "bad-checksum", "expired", "no-route",
    "tagged", "own", "other", "group", "multicast", "broadcast", "partial", "no-buffer", "full", "busy", "unsent"};

struct thread {
    _Alignas(64) hk_pool *pool;
    uint32_t number, spares, *spare; /* its port or worker; numbers that it has and that hold no frame */
    pthread_t id;
    hk_forward *forward;            /* of a worker: its reader */
    _Atomic uint64_t count[COUNTS]; /* written by this thread alone */
};

static hk_fib *fib; /* the main thread's */
static struct settings now;
static struct port ports[PORTS];
static struct thread rxs[PORTS], works[WORKERS], txs[PORTS];
static uint32_t workers = 1, stride;
static uint8_t *store; /* the buffers, and of each the length of its frame and the port that it came in through */
static struct { uint32_t held, from; } *about;
static struct { _Alignas(64) atomic_uint n; } waiting[RINGS]; /* frames on a ring */
static atomic_int stage, held_up; /* stage: 1 ends receivers, 2 workers too, 3 all */

static uint8_t *bytes(uint32_t number) { return store + (size_t)number * stride; }
static int is_tagged(const uint8_t *frame) { return frame[12] == 0x81 && frame[13] == 0; }

static void add(struct thread *t, int line, uint64_t n) {
    uint64_t was = atomic_load_explicit(&t->count[line], memory_order_relaxed);
    atomic_store_explicit(&t->count[line], was + n, memory_order_relaxed);
}

static void nap(void) { nanosleep(&(struct timespec){0, 20000}, NULL); }

/* Puts numbers back; those that can't be put now stay among the spare ones. */
static void give(struct thread *t, const uint32_t *numbers, uint32_t n) {
    memcpy(t->spare + t->spares, numbers, n * sizeof *numbers);
    t->spares += n;
    while (t->spares) {
        uint32_t some = t->spares < HK_MAX_NUMBERS ? t->spares : HK_MAX_NUMBERS;
        int64_t code = hk_pool_try_put_bulk(t->pool, t->spare + t->spares - some, some);
        if (code == HK_E_AGAIN) return;
        need(code, "put back");
        t->spares -= some;
    }
}

static int take(struct thread *t, uint32_t *number) {
    uint32_t n = now.number[BURST];
    for (int i = 0; n && !t->spares && i < TRIES; i++) {
        int64_t code = hk_pool_try_get_bulk(t->pool, t->spare, n);
        if (code > 0) t->spares = n;
        else if (code == HK_E_NOROOM) n /= 2;
        else if (code == HK_E_AGAIN) nap();
        else need(code, "get");
    }
    return t->spares && (*number = t->spare[--t->spares], 1);
}

/* Sends frames to a ring. Those that would be more than may wait there, or that can't be sent, are dropped. */
static void pass(struct thread *t, uint32_t ring, const uint32_t *numbers, uint32_t n) {
    uint32_t most = now.number[RING], was = atomic_fetch_add(&waiting[ring].n, n);
    uint32_t fit = was >= most ? 0 : most - was < n ? most - was : n;
    int64_t code = HK_E_AGAIN;
    for (int i = 0; fit && i < TRIES && code == HK_E_AGAIN; i++) {
        if (i) nap();
        code = hk_pool_try_send_bulk(t->pool, ring, numbers, fit);
    }
    if (code != HK_E_AGAIN) need(code, "send");
    if (fit == n && code >= 0) return;
    add(t, FULL, n - fit);
    if (code == HK_E_AGAIN) add(t, BUSY, fit), fit = 0;
    atomic_fetch_sub(&waiting[ring].n, n - fit);
    give(t, numbers + fit, n - fit);
}

static uint32_t receive(struct thread *t, uint32_t ring, uint32_t *numbers) {
    int64_t code = hk_pool_try_receive_burst(t->pool, ring, numbers, now.number[BURST]);
    if (code > 0) return atomic_fetch_sub(&waiting[ring].n, (unsigned)code), (uint32_t)code;
    if (code != HK_E_NOROOM && code != HK_E_AGAIN) need(code, "receive");
    return 0;
}

/* ---- Routes and forwarding: all calls of hk_fib_ and hk_forward_ ------------------------------------------------- */

/* Prepares these routes, each with a next hop of its own, in place of all that are there. While a worker may still use
 * the version before the last one, nothing can be prepared yet. */
static int64_t draw_up(const struct settings *s, uint32_t *line) {
    int64_t code;
    while ((code = hk_fib_settle(fib)) == HK_E_PENDING) nap();
    if (code >= 0) code = hk_fib_clear(fib);
    for (uint32_t i = 0; i < s->routes && code >= 0; i++) {
        *line = s->route[i].line;
        code = hk_fib_set_hop(fib, i, &s->route[i].hop);
        if (code >= 0) code = hk_fib_add(fib, s->route[i].address, s->route[i].depth, i);
    }
    return code;
}

/* Publishes these routes: workers use all of them or none, each from its next burst on. Returns whether it did; if not,
 * it says why, and all routes stay as they were. */
static int publish(const char *name, const struct settings *s) {
    uint32_t line = 0;
    int64_t code = draw_up(s, &line);
    if (code >= 0) line = 0, code = hk_fib_publish(fib);
    if (code < 0) tell(name, code == HK_E_MEMORY ? 0 : line, hk_strerror(code));
    return code >= 0;
}

/* Makes the table, with these ports and room for a next hop of each route that there may be. */
static int64_t open_fib(void) {
    hk_next_hop *none = calloc(MAX_ROUTES, sizeof *none);
    int64_t code = HK_E_MEMORY;
    if (none) code = hk_fib_open(&fib, now.number[BITS], now.number[GROUPS], now.port, now.ports, none, MAX_ROUTES);
    free(none);
    return code;
}

/* The line of a frame that isn't forwarded, by what it is addressed to, or -1. The kernel has those for this host. */
static int beside(struct thread *t, uint32_t number) {
    int64_t to = hk_forward_class(t->forward, about[number].from, bytes(number), about[number].held);
    need(to, "class");
    if (to == HK_TO_PORT) return -1;
    if (!(to & HK_TO_PORT)) return to & HK_TO_GROUP ? GROUP : OTHER;
    return to & HK_TO_OWN ? OWN : to & HK_TO_MULTICAST ? MULTICAST : BROADCAST;
}

static void forward(struct thread *t, const uint32_t *in, uint32_t n) {
    uint32_t left[MAX_BURST], back[MAX_BURST], out[PORTS][MAX_BURST], verdicts[MAX_BURST], to[PORTS] = {0};
    uint32_t k = 0, drops = 0;
    hk_frame frames[MAX_BURST];
    for (uint32_t i = 0; i < n; i++) {
        int line = beside(t, in[i]);
        if (line >= 0) add(t, line, 1), back[drops++] = in[i];
        else frames[k] = (hk_frame){bytes(in[i]), about[in[i]].held, about[in[i]].held}, left[k++] = in[i];
    }
    if (k) need(hk_forward_burst(t->forward, frames, verdicts, k), "forward");
    for (uint32_t i = 0; i < k; i++) {
        uint32_t port = verdicts[i] & 0xffff;
        if (verdicts[i] < HK_DROP) out[port][to[port]++] = left[i];
        else add(t, (int)(DROPS + verdicts[i] - HK_DROP_SHORT), 1), back[drops++] = left[i];
    }
    for (uint32_t p = 0; p < now.ports; p++)
        if (to[p]) pass(t, workers + p, out[p], to[p]);
    if (drops) give(t, back, drops);
}

/* ---- The threads ------------------------------------------------------------------------------------------------- */

/* The worker of a frame: by its addresses alone, so that a packet's fragments go the same way. */
static uint32_t worker_of(const uint8_t *b, uint32_t held) {
    uint32_t at = is_tagged(b) ? 30 : 26, from, to;
    if (held < at + 8) return 0;
    memcpy(&from, b + at, 4);
    memcpy(&to, b + at + 4, 4);
    return ((ntohl(from) * 31u + ntohl(to)) * 2654435761u >> 16) % workers;
}

/* Copies a frame into a buffer, with the tag that the kernel took out of it. Returns whether it has one. */
static int copy(struct thread *t, const struct tpacket3_hdr *h, uint32_t *number) {
    const uint8_t *from = (const uint8_t *)h + h->tp_mac;
    uint32_t tag = h->tp_status & TP_STATUS_VLAN_VALID ? 4 : 0, held = h->tp_snaplen + tag;
    int line = h->tp_len > h->tp_snaplen || held > now.number[ROOM] ? OVERSIZE : -1;
    if (line < 0 && h->tp_status & TP_STATUS_CSUMNOTREADY) line = PARTIAL;
    if (line < 0 && !take(t, number)) line = NO_BUFFER;
    if (line >= 0) return add(t, line, 1), 0;
    uint8_t *to = bytes(*number);
    if (tag) {
        uint16_t type = h->tp_status & TP_STATUS_VLAN_TPID_VALID ? h->hv1.tp_vlan_tpid : ETH_P_8021Q;
        uint16_t words[2] = {htons(type), htons((uint16_t)h->hv1.tp_vlan_tci)};
        memcpy(to + 12, words, 4);
    }
    memcpy(to, from, 12);
    memcpy(to + 12 + tag, from + 12, h->tp_snaplen - 12);
    about[*number].held = held;
    about[*number].from = t->number;
    return 1;
}

static void *rx(void *argument) {
    struct thread *t = argument;
    uint32_t ready[WORKERS][MAX_BURST], n[WORKERS] = {0}, number;
    for (unsigned block = 0; atomic_load(&stage) < 1;) {
        struct tpacket_block_desc *b = block_of(&ports[t->number], block);
        if (!b) continue;
        struct tpacket3_hdr *h = first_of(b);
        add(t, RECORDS, b->hdr.bh1.num_pkts);
        for (uint32_t i = 0; i < b->hdr.bh1.num_pkts; i++, h = after(h)) {
            if (!copy(t, h, &number)) continue;
            uint32_t w = worker_of(bytes(number), about[number].held);
            ready[w][n[w]++] = number;
            if (n[w] == now.number[BURST]) pass(t, w, ready[w], n[w]), n[w] = 0;
        }
        for (uint32_t w = 0; w < workers; w++)
            if (n[w]) pass(t, w, ready[w], n[w]), n[w] = 0;
        hand_back(b);
        block = (block + 1) % BLOCKS;
    }
    return NULL;
}

static void *work(void *argument) {
    struct thread *t = argument;
    uint32_t in[MAX_BURST], n;
    for (unsigned idle = 0; atomic_load(&stage) < 2 || atomic_load(&waiting[t->number].n);) {
        int stands = t->number == 0 && atomic_load(&held_up);
        if (!stands && (n = receive(t, t->number, in))) forward(t, in, n), idle = 0;
        else if (++idle >= 200) nap();
    }
    return NULL;
}

static void *tx(void *argument) {
    struct thread *t = argument;
    uint32_t in[MAX_BURST], n;
    for (unsigned idle = 0; atomic_load(&stage) < 3 || atomic_load(&waiting[workers + t->number].n);) {
        struct mmsghdr m[MAX_BURST];
        struct iovec v[MAX_BURST];
        n = receive(t, workers + t->number, in);
        if (n) idle = 0;
        else if (++idle >= 200) nap();
        for (uint32_t i = 0; i < n; i++) {
            v[i] = (struct iovec){bytes(in[i]), about[in[i]].held};
            m[i].msg_hdr = (struct msghdr){.msg_iov = &v[i], .msg_iovlen = 1};
        }
        for (uint32_t done = 0; done < n;) {
            int sent = sendmmsg(ports[t->number].out, m + done, n - done, 0);
            if (sent < 0 && errno == EINTR) continue;
            add(t, sent > 0 ? SENT + (int)t->number : UNSENT, sent > 0 ? (uint32_t)sent : 1);
            for (int i = 0; i < sent; i++) add(t, TAGGED, is_tagged(bytes(in[done + (uint32_t)i])));
            done += sent > 0 ? (uint32_t)sent : 1;
        }
        give(t, in, n);
    }
    return NULL;
}

/* ---- Start, signals, report, end --------------------------------------------------------------------------------- */

static void *memory(size_t n, size_t size) {
    void *made = aligned_alloc(64, (n * size + 63) / 64 * 64);
    if (!made) fail("buffers", "out of memory");
    return memset(made, 0, n * size);
}

static void start(struct thread *t, void *(*run)(void *), hk_pool *pool, uint32_t number) {
    t->number = number;
    t->spare = memory(now.number[BUFFERS], sizeof *t->spare);
    need(hk_pool_split(pool, &t->pool), "pool");
    int code = pthread_create(&t->id, NULL, run, t);
    if (code) fail("thread", strerror(code));
}

static void end(struct thread *t, uint32_t n, int at) {
    atomic_store(&stage, at);
    for (uint32_t i = 0; i < n; i++) {
        pthread_join(t[i].id, NULL);
        hk_forward_free(t[i].forward);
        hk_pool_free(t[i].pool);
        free(t[i].spare);
    }
}

static uint64_t sum(int line) {
    uint64_t total = 0;
    for (uint32_t i = 0; i < PORTS; i++) total += rxs[i].count[line] + txs[i].count[line];
    for (uint32_t i = 0; i < WORKERS; i++) total += works[i].count[line];
    return total;
}

static void report(void) {
    struct tpacket_stats_v3 stats;
    uint64_t missed = 0, left = 0;
    for (uint32_t p = 0; p < now.ports; p++) {
        socklen_t size = sizeof stats; /* the kernel counts from 0 again each time */
        if (!getsockopt(ports[p].in, SOL_PACKET, PACKET_STATISTICS, &stats, &size)) ports[p].missed += stats.tp_drops;
        missed += ports[p].missed;
    }
    for (int line = 0; line < LINES; line++) {
        printf("%s %" PRIu64 "\n", lines[line], sum(line));
        for (int p = 0; line == OVERSIZE && p < (int)now.ports; p++) printf("port %d %" PRIu64 "\n", p, sum(SENT + p));
    }
    for (uint32_t r = 0; r < RINGS; r++) left += atomic_load(&waiting[r].n);
    printf("missed %" PRIu64 "\nwaiting %" PRIu64 "\n", missed, left);
    if (fflush(stdout)) perror("router: the report");
    clearerr(stdout);
}

/* Reads the settings again: routes may be others, all else stays. A fault leaves the routes as they are. */
static void reload(const char *name) {
    struct settings s;
    if (!read_settings(name, &s)) return;
    if (s.ports != now.ports || memcmp(s.number, now.number, sizeof s.number) ||
        memcmp(s.port, now.port, sizeof s.port) || memcmp(s.interface, now.interface, sizeof s.interface))
        fprintf(stderr, "router: %s: only routes may change while it runs\n", name);
    else if (publish(name, &s)) fprintf(stderr, "router: %u routes\n", s.routes);
    free(s.route);
}

int main(int argc, char **argv) {
    sigset_t set;
    hk_pool *pool;
    char rest;
    int good = argc == 2 || (argc == 3 && sscanf(argv[2], "%2u%c", &workers, &rest) == 1);
    if (!good || !workers || workers > WORKERS)
        return fprintf(stderr, "usage: router SETTINGS [WORKERS], 1 to %d workers\n", WORKERS), 2;
    if (!read_settings(argv[1], &now)) return 1;
    stride = (now.number[ROOM] + 63) / 64 * 64;
    store = memory(now.number[BUFFERS], stride);
    about = memory(now.number[BUFFERS], sizeof *about);
    need(open_fib(), "routes");
    if (!publish(argv[1], &now)) return 1;
    for (uint32_t w = 0; w < workers; w++) need(hk_fib_share(fib, &works[w].forward), "routes");
    need(hk_pool_open(&pool, now.number[BUFFERS], now.number[CACHE], workers + now.ports), "pool");
    sigemptyset(&set);
    for (int i = 0; i < 5; i++) sigaddset(&set, (int[]){SIGHUP, SIGUSR1, SIGUSR2, SIGINT, SIGTERM}[i]);
    pthread_sigmask(SIG_BLOCK, &set, NULL);
    for (uint32_t p = 0; p < now.ports; p++) {
        const char *wrong = open_port(&ports[p], now.interface[p]);
        if (wrong) fail(now.interface[p], wrong);
    }
    for (uint32_t p = 0; p < now.ports; p++) start(&txs[p], tx, pool, p);
    for (uint32_t w = 0; w < workers; w++) start(&works[w], work, pool, w);
    for (uint32_t p = 0; p < now.ports; p++) start(&rxs[p], rx, pool, p);
    fprintf(stderr, "router: %u routes\n", now.routes);
    for (int signal = 0; signal != SIGINT && signal != SIGTERM;) {
        signal = sigwaitinfo(&set, NULL);
        if (signal == SIGHUP) reload(argv[1]);
        if (signal == SIGUSR1) report();
        if (signal == SIGUSR2) atomic_fetch_xor(&held_up, 1);
    }
    atomic_store(&held_up, 0);
    end(rxs, now.ports, 1);
    end(works, workers, 2);
    end(txs, now.ports, 3);
    report();
    hk_fib_free(fib);
    hk_pool_free(pool);
    return 0;
}
