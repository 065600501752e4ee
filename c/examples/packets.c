/* Packets that one thread gets and another frees. The free packets are pointers on one ring, the filled ones on
 * another: two readers get packets and fill them, two writers look at them and free them. Each pointer that is put is
 * taken once. That a packet is freed once, and only by the thread that has it, is up to the program: no call checks
 * it. */
#include <hokhtura.h>
#include <hokhtura_wait.h>
#include <pthread.h>
#include <stdio.h>

enum { PACKETS = 256, EACH = 100000, PAIRS = 2, BURST = 16 };
enum { FREE, FILLED, RINGS };

struct packet {
    uint32_t length;
    uint8_t bytes[60];
};

struct job {
    hk_hand *hand;
    uint64_t bytes;
    int64_t code;
};

static struct packet *packet_at(uint64_t word) {
    return (struct packet *)(uintptr_t)word;
}

static void *read_all(void *at) {
    struct job *job = at;
    uint64_t words[BURST];
    uint32_t length = 0;
    for (int done = 0; done < EACH && job->code >= 0; done += BURST) {
        job->code = hk_ring_take_bulk(job->hand, FREE, words, BURST, hk_relax_yield);
        if (job->code < 0) break;
        for (int i = 0; i < BURST; i++) packet_at(words[i])->length = length++ % 50;
        job->code = hk_ring_put_bulk(job->hand, FILLED, words, BURST, hk_relax_yield);
    }
    return NULL;
}

static void *write_all(void *at) {
    struct job *job = at;
    uint64_t words[BURST];
    for (int done = 0; done < EACH && job->code >= 0; done += BURST) {
        job->code = hk_ring_take_bulk(job->hand, FILLED, words, BURST, hk_relax_yield);
        if (job->code < 0) break;
        for (int i = 0; i < BURST; i++) job->bytes += packet_at(words[i])->length;
        job->code = hk_ring_put_bulk(job->hand, FREE, words, BURST, hk_relax_yield);
    }
    return NULL;
}

int main(void) {
    static struct packet packets[PACKETS];
    const hk_ring_plan plans[RINGS] = {{.size = PACKETS, .exact = 1, .put = HK_MULTI, .take = HK_MULTI},
                                       {.size = PACKETS, .exact = 1, .put = HK_MULTI, .take = HK_MULTI}};
    struct job jobs[2 * PAIRS] = {{0}};
    pthread_t threads[2 * PAIRS];
    uint64_t words[PACKETS], bytes = 0;
    hk_hand *hand;
    for (int i = 0; i < PACKETS; i++) words[i] = (uintptr_t)&packets[i];
    int64_t code = hk_hand_open(&hand, plans, RINGS);
    if (code >= 0) code = hk_ring_try_put_bulk(hand, FREE, words, PACKETS);
    for (int i = 0; i < 2 * PAIRS && code >= 0; i++) code = hk_hand_split(hand, &jobs[i].hand);
    if (code < 0) return fprintf(stderr, "packets: %s\n", hk_strerror(code)), 1;
    for (int i = 0; i < 2 * PAIRS; i++) {
        if (pthread_create(&threads[i], NULL, i < PAIRS ? read_all : write_all, &jobs[i])) return 1;
    }
    for (int i = 0; i < 2 * PAIRS; i++) {
        pthread_join(threads[i], NULL);
        if (jobs[i].code < 0) code = jobs[i].code;
        bytes += jobs[i].bytes;
        hk_hand_free(jobs[i].hand);
    }
    if (code >= 0) code = hk_ring_count(hand, FREE);
    hk_hand_free(hand);
    if (code < 0) return fprintf(stderr, "packets: %s\n", hk_strerror(code)), 1;
    printf("%d packets, %llu bytes, %lld packets are free\n", PAIRS * EACH, (unsigned long long)bytes, (long long)code);
}
