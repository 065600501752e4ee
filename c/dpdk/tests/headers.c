/* Tests of the headers for what DPDK's own tests don't reach: headers [EAL's options] -- NAME. `headers list` prints
 * all names. It is linked with --wrap for each function that takes memory, so that each request can be refused. */
#define _GNU_SOURCE /* for pthread_setaffinity_np */
#include "hokhtura_rte.h"
#include "hokhtura_rte_lpm.h"
#include "hokhtura_rte_reorder.h"

#include <rte_eal.h>

enum { THREADS = 200, ROUNDS = 10, MANY = 5000 };

static int wrong;

#define CHECK(good) \
    do { \
        if (!(good)) { \
            printf("%s:%d: not so: %s\n", __FILE__, __LINE__, #good); \
            wrong = 1; \
        } \
    } while (0)

/* ---- Memory -------------------------------------------------------------------------------------------------------*/

/* Which request is refused, with all after it unless it is only that one, or 0; how many were made, and how many blocks
 * aren't freed. */
static _Atomic long refused, requests, blocks;
static _Atomic int is_only;

static void *counted(void *at) {
    blocks += at != NULL;
    return at;
}

static int refuses(void) {
    long number = ++requests;
    return refused != 0 && (is_only ? number == refused : number >= refused);
}

void *__real_malloc(size_t size);
void *__real_calloc(size_t n, size_t size);
void *__real_realloc(void *at, size_t size);
void *__real_aligned_alloc(size_t align, size_t size);
void __real_free(void *at);

void *__wrap_malloc(size_t size) { return counted(refuses() ? NULL : __real_malloc(size)); }
void *__wrap_calloc(size_t n, size_t size) { return counted(refuses() ? NULL : __real_calloc(n, size)); }
void *__wrap_aligned_alloc(size_t align, size_t size) {
    return counted(refuses() ? NULL : __real_aligned_alloc(align, size));
}
void *__wrap_realloc(void *at, size_t size) {
    void *moved = refuses() ? NULL : __real_realloc(at, size);
    blocks += moved && !at;
    return moved;
}
void __wrap_free(void *at) {
    blocks -= at != NULL;
    __real_free(at);
}

/* Makes one thing, and refuses each request for memory in turn until nothing is refused any more. */
static void refuse_in_turn(void *(*make)(void), void (*end)(void *)) {
    long before = blocks, tried = 0;
    void *made = NULL;
    while (!made && tried < 1000) {
        CHECK(blocks == before);
        requests = 0;
        refused = ++tried;
        rte_errno = 0;
        made = make();
        CHECK(made ? requests < refused : rte_errno == ENOMEM);
    }
    refused = 0;
    printf("%ld requests were refused\n", tried - 1);
    CHECK(made && tried > 2);
    end(made);
    CHECK(blocks == before);
}

/* With all requests after it, and then alone. */
static void refuse_each(void *(*make)(void), void (*end)(void *)) {
    void *made = make(); /* what stays for the next one is there then */
    CHECK(made != NULL);
    end(made);
    refuse_in_turn(make, end);
    is_only = 1;
    refuse_in_turn(make, end);
    is_only = 0;
}

static void *a_ring(void) { return rte_ring_create("r", 64, SOCKET_ID_ANY, RING_F_SP_ENQ | RING_F_MC_HTS_DEQ); }
static void end_ring(void *at) { rte_ring_free(at); }
static void ring_memory(void) { refuse_each(a_ring, end_ring); }

/* One with elements that have places beside the ring. */
static void *a_wide_ring(void) { return rte_ring_create_elem("w", 12, 64, SOCKET_ID_ANY, 0); }
static void wide_memory(void) { refuse_each(a_wide_ring, end_ring); }

static void *a_table(void) {
    struct rte_lpm_config config = {.max_rules = 4, .number_tbl8s = 4, .flags = 0};
    return rte_lpm_create("t", SOCKET_ID_ANY, &config);
}
static void end_table(void *at) { rte_lpm_free(at); }
static void table_memory(void) { refuse_each(a_table, end_table); }

static void *a_window(void) { return rte_reorder_create("w", 0, 64); }
static void end_window(void *at) { rte_reorder_free(at); }
static void window_memory(void) { refuse_each(a_window, end_window); }

/* Calls of a thread that gets no hand and no reader. */
static void *without_memory(void *at) {
    struct rte_ring *r = at;
    struct rte_lpm *lpm = rte_lpm_find_existing("t");
    void *object = r;
    uint32_t hop = 0;
    requests = 0;
    refused = 1;
    CHECK(rte_ring_enqueue(r, object) == 0);
    CHECK(rte_ring_count(r) == 1);
    CHECK(rte_ring_dequeue(r, &object) == 0 && object == r);
    CHECK(rte_ring_enqueue_bulk_start(r, 1, NULL) == 0);
    struct rte_ring *wide = rte_ring_lookup("w");
    uint32_t element[3] = {1, 2, 3}, got[3] = {0, 0, 0};
    CHECK(rte_ring_enqueue_elem(wide, element, sizeof element) == 0);
    CHECK(rte_ring_dequeue_elem(wide, got, sizeof got) == 0 && !memcmp(element, got, sizeof got));
    CHECK(rte_lpm_lookup(lpm, 0x0a000001, &hop) == 0 && hop == 7);
    CHECK(requests > 0);
    refused = 0;
    return NULL;
}

static void no_hand(void) {
    pthread_t thread;
    struct rte_ring *r = a_ring(), *wide = a_wide_ring();
    struct rte_lpm *lpm = a_table();
    CHECK(r && wide && lpm && rte_lpm_add(lpm, 0x0a000000, 8, 7) == 0);
    CHECK(pthread_create(&thread, NULL, without_memory, r) == 0 && pthread_join(thread, NULL) == 0);
    rte_ring_free(r);
    rte_ring_free(wide);
    rte_lpm_free(lpm);
}

/* Each request of two changes is refused, with all after it: both return, and later changes are made. */
static void changes_without_memory(void) {
    uint32_t hop = 0;
    long tried = 0;
    for (int answer = -ENOMEM; answer == -ENOMEM;) {
        struct rte_lpm *lpm = a_table();
        CHECK(lpm && rte_lpm_add(lpm, 1u << 24, 8, 1) == 0);
        requests = 0;
        refused = ++tried;
        int first = rte_lpm_add(lpm, 2u << 24, 26, 2);
        answer = rte_lpm_add(lpm, 3u << 24, 26, 3);
        CHECK((first == 0 || first == -ENOMEM) && (answer == 0 || answer == -ENOMEM));
        rte_lpm_delete_all(lpm);
        refused = 0;
        CHECK(rte_lpm_add(lpm, 4u << 24, 26, 4) == 0 && rte_lpm_lookup(lpm, 4u << 24, &hop) == 0 && hop == 4);
        rte_lpm_free(lpm);
    }
    CHECK(tried > 1);
}

/* ---- Rings --------------------------------------------------------------------------------------------------------*/

static void refusals(void) {
    struct rte_ring *r = rte_ring_create("r", 1u << 20, SOCKET_ID_ANY, 0);
    CHECK(r && rte_ring_get_capacity(r) == HKR_ELEMENTS);
    CHECK(!rte_ring_create("r", 16, SOCKET_ID_ANY, 0) && rte_errno == EEXIST);
    rte_ring_free(r);
    CHECK(!rte_ring_create("r", 1u << 21, SOCKET_ID_ANY, 0) && rte_errno == EINVAL);
    r = rte_ring_create_elem("r", 16, 1u << 20, SOCKET_ID_ANY, 0);
    CHECK(r && rte_ring_get_capacity(r) == HKR_ELEMENTS);
    rte_ring_free(r);
    CHECK(!rte_ring_create_elem("r", 16, 1u << 21, SOCKET_ID_ANY, 0) && rte_errno == EINVAL);
    CHECK(!rte_ring_create("r", 16, SOCKET_ID_ANY, RING_F_SP_ENQ | RING_F_MP_HTS_ENQ) && rte_errno == EINVAL);
    CHECK(!rte_ring_create("r", 16, SOCKET_ID_ANY, 0x80) && rte_errno == EINVAL);
    CHECK(!rte_ring_lookup("r") && rte_errno == ENOENT);
}

static void *counts(void *at) { return (void *)(uintptr_t)rte_ring_count(at); }

/* What another thread counts. */
static unsigned count_elsewhere(struct rte_ring *r) {
    pthread_t thread;
    void *count = NULL;
    CHECK(pthread_create(&thread, NULL, counts, r) == 0 && pthread_join(thread, &count) == 0);
    return (unsigned)(uintptr_t)count;
}

/* Counts of a thread that has a peek open and of one beside it, and an element of another size. */
static void beside_a_peek(void) {
    void *objects[4] = {NULL, NULL, NULL, NULL};
    uint64_t small = 0; /* aligned as a word, so that only its size is another one */
    struct rte_ring *r = rte_ring_create("r", 8, SOCKET_ID_ANY, RING_F_SP_ENQ | RING_F_SC_DEQ);
    CHECK(r && rte_ring_enqueue_bulk(r, objects, 4, NULL) == 4);
    CHECK(rte_ring_dequeue_bulk_start(r, objects, 3, NULL) == 3);
    CHECK(rte_ring_count(r) == 4 && rte_ring_free_count(r) == 3 && count_elsewhere(r) == 4);
    CHECK(rte_ring_dequeue(r, objects) == -ENOENT);
    rte_ring_dequeue_finish(r, 1);
    CHECK(rte_ring_count(r) == 3);
    CHECK(rte_ring_enqueue_burst_start(r, 8, NULL) == 4);
    CHECK(rte_ring_count(r) == 3 && rte_ring_free_count(r) == 4 && count_elsewhere(r) == 3);
    rte_ring_enqueue_finish(r, objects, 2);
    CHECK(rte_ring_count(r) == 5);
    CHECK(rte_ring_enqueue_elem(r, &small, 4) == -ENOBUFS);
    CHECK(rte_ring_dequeue_elem(r, &small, 4) == -ENOENT);
    rte_ring_reset(r);
    CHECK(rte_ring_empty(r));
    rte_ring_free(r);
}

/* Bulks of several thousand elements of 20 bytes, from an odd address. When one is on the ring, there is room for the
 * first piece of another one, but not for all of it. */
static void long_calls(void) {
    static char in[MANY * 20 + 1], out[MANY * 20 + 1];
    struct rte_ring *r = rte_ring_create_elem("r", 20, 2 * MANY - 500, SOCKET_ID_ANY, RING_F_EXACT_SZ);
    CHECK(r != NULL);
    for (size_t i = 0; i < sizeof in; i++) in[i] = (char)(i * 7);
    CHECK(rte_ring_enqueue_bulk_elem(r, in + 1, 20, MANY, NULL) == MANY);
    CHECK(rte_ring_enqueue_bulk_elem(r, in + 1, 20, MANY, NULL) == 0 && rte_ring_count(r) == MANY);
    CHECK(rte_ring_dequeue_bulk_elem(r, out + 1, 20, MANY + 1, NULL) == 0 && rte_ring_count(r) == MANY);
    CHECK(rte_ring_dequeue_bulk_elem(r, out + 1, 20, MANY, NULL) == MANY);
    CHECK(!memcmp(in + 1, out + 1, MANY * 20) && rte_ring_empty(r));
    rte_ring_free(r);
}

/* ---- Elements that have places ------------------------------------------------------------------------------------*/

struct element {
    uint32_t number, other, third;
};

static struct element element_of(uint32_t number) {
    struct element made = {number, number ^ 0x5a5a5a5a, number * 7};
    return made;
}

static int is_element(const struct element *e, uint32_t number) {
    struct element made = element_of(number);
    return !memcmp(e, &made, sizeof made);
}

/* Zero copy shows the places themselves, and those after the last one are the first ones. */
static void zero_copy(void) {
    struct rte_ring_zc_data in, out;
    unsigned left;
    struct rte_ring *r = rte_ring_create_elem("r", sizeof(struct element), 10, SOCKET_ID_ANY,
                                              RING_F_SP_ENQ | RING_F_SC_DEQ | RING_F_EXACT_SZ);
    CHECK(r != NULL);
    uint32_t put = 0, taken = 0;
    for (unsigned round = 0; round < 40; round++) {
        unsigned n = 1 + round % 9, kept = round % (n + 1);
        CHECK(rte_ring_enqueue_zc_bulk_elem_start(r, sizeof(struct element), n, &in, &left) == n && left == 10 - n);
        CHECK(in.n1 == RTE_MIN(n, 10 - put % 10) && (in.n1 < n) == (in.ptr2 != NULL));
        struct element *first = in.ptr1, *second = in.ptr2;
        for (unsigned i = 0; i < n; i++) *(i < in.n1 ? &first[i] : &second[i - in.n1]) = element_of(put + i);
        rte_ring_enqueue_zc_elem_finish(r, kept);
        put += kept;
        CHECK(rte_ring_count(r) == kept);
        CHECK(rte_ring_dequeue_zc_burst_elem_start(r, sizeof(struct element), 10, &out, &left) == kept && left == 0);
        CHECK(kept == 0 || (out.ptr1 == in.ptr1 && out.n1 == RTE_MIN(kept, in.n1)));
        first = out.ptr1, second = out.ptr2;
        for (unsigned i = 0; i < kept; i++)
            CHECK(is_element(i < out.n1 ? &first[i] : &second[i - out.n1], taken + i));
        rte_ring_dequeue_zc_elem_finish(r, kept);
        taken += kept;
        CHECK(rte_ring_empty(r));
    }
    rte_ring_free(r);
}

/* A finish of more than the peek has, without a peek, or of elements of another size changes nothing: the places of
 * what is put later are those that are free. */
static void wrong_finishes(void) {
    struct element e[9], got[8];
    struct rte_ring *r = rte_ring_create_elem("r", sizeof e[0], 8, SOCKET_ID_ANY, RING_F_EXACT_SZ | RING_F_MP_HTS_ENQ |
                                                                                    RING_F_MC_HTS_DEQ);
    CHECK(r != NULL);
    for (uint32_t i = 0; i < 9; i++) e[i] = element_of(i);
    rte_ring_enqueue_elem_finish(r, e, sizeof e[0], 1);
    rte_ring_dequeue_elem_finish(r, 1);
    CHECK(rte_ring_enqueue_bulk_elem(r, e, sizeof e[0], 3, NULL) == 3);
    CHECK(rte_ring_enqueue_bulk_elem_start(r, 4, NULL) == 4);
    rte_ring_enqueue_elem_finish(r, e + 3, sizeof e[0], 5);
    rte_ring_enqueue_elem_finish(r, e + 3, 8, 4);
    CHECK(rte_ring_count(r) == 3 && rte_ring_enqueue_elem(r, e + 3, sizeof e[0]) == -ENOBUFS);
    rte_ring_enqueue_elem_finish(r, e + 3, sizeof e[0], 2);
    rte_ring_enqueue_elem_finish(r, e, sizeof e[0], 4);
    CHECK(rte_ring_enqueue_bulk_elem(r, e + 5, sizeof e[0], 3, NULL) == 3 && rte_ring_full(r));
    CHECK(rte_ring_dequeue_bulk_elem_start(r, got, sizeof e[0], 7, NULL) == 7);
    rte_ring_dequeue_elem_finish(r, 8);
    CHECK(rte_ring_count(r) == 8 && rte_ring_dequeue_elem(r, got, sizeof e[0]) == -ENOENT);
    rte_ring_dequeue_elem_finish(r, 3);
    CHECK(rte_ring_dequeue_burst_elem(r, got + 3, sizeof e[0], 5, NULL) == 5);
    for (uint32_t i = 0; i < 8; i++) CHECK(is_element(&got[i], i));
    rte_ring_free(r);
}

/* A side of many threads has no peeks, though it would allow them here. */
static void no_peeks(void) {
    struct element e = element_of(1);
    struct rte_ring *r = a_wide_ring();
    CHECK(r && rte_ring_enqueue_elem(r, &e, sizeof e) == 0);
    CHECK(rte_ring_enqueue_bulk_elem_start(r, 1, NULL) == 0);
    CHECK(rte_ring_dequeue_bulk_elem_start(r, &e, sizeof e, 1, NULL) == 0);
    CHECK(rte_ring_dequeue_elem(r, &e, sizeof e) == 0 && is_element(&e, 1));
    rte_ring_free(r);
}

static pthread_barrier_t barrier;

enum { OF_EACH = 200000, BURST = 24, PAIRS = 2 };

static _Atomic uint32_t arrived;

/* Elements of each producer come in their order, each whole and once. Each third call is a peek that gives some up. */
static void *produces(void *at) {
    struct rte_ring *r = at;
    static _Atomic uint32_t producers;
    uint32_t sent = 0, mine = producers++ % PAIRS << 24;
    struct element e[BURST];
    for (unsigned turn = 0; sent < OF_EACH; turn++) {
        unsigned n = RTE_MIN(1 + turn % BURST, OF_EACH - sent);
        for (unsigned i = 0; i < n; i++) e[i] = element_of(mine | (sent + i));
        if (turn % 3 || rte_ring_get_prod_sync_type(r) == RTE_RING_SYNC_MT) {
            sent += rte_ring_enqueue_burst_elem(r, e, sizeof e[0], n, NULL);
        } else if ((n = rte_ring_enqueue_burst_elem_start(r, n, NULL)) != 0) {
            rte_ring_enqueue_elem_finish(r, e, sizeof e[0], n - turn % 2);
            sent += n - turn % 2;
        }
    }
    return NULL;
}

static void *consumes(void *at) {
    struct rte_ring *r = at;
    uint32_t last[PAIRS] = {0};
    struct element e[BURST];
    for (unsigned turn = 0; arrived < PAIRS * OF_EACH; turn++) {
        unsigned n = 1 + turn % BURST;
        if (turn % 3 || rte_ring_get_cons_sync_type(r) == RTE_RING_SYNC_MT) {
            n = rte_ring_dequeue_burst_elem(r, e, sizeof e[0], n, NULL);
        } else if ((n = rte_ring_dequeue_burst_elem_start(r, e, sizeof e[0], n, NULL)) != 0) {
            n -= turn % 2;
            rte_ring_dequeue_elem_finish(r, n);
        }
        arrived += n;
        for (unsigned i = 0; i < n; i++) {
            uint32_t of = e[i].number >> 24, number = e[i].number & 0xffffff;
            CHECK(of < PAIRS && is_element(&e[i], e[i].number) && number + 1 > last[of]);
            last[of % PAIRS] = number + 1;
        }
    }
    return NULL;
}

static void side_by_side(unsigned flags) {
    pthread_t threads[2 * PAIRS];
    struct rte_ring *r = rte_ring_create_elem("r", sizeof(struct element), 50, SOCKET_ID_ANY, flags | RING_F_EXACT_SZ);
    CHECK(r != NULL);
    arrived = 0;
    for (int i = 0; i < 2 * PAIRS; i++) CHECK(pthread_create(&threads[i], NULL, i % 2 ? consumes : produces, r) == 0);
    for (int i = 0; i < 2 * PAIRS; i++) CHECK(pthread_join(threads[i], NULL) == 0);
    CHECK(arrived == PAIRS * OF_EACH && rte_ring_empty(r));
    rte_ring_free(r);
}

static void places_multi(void) { side_by_side(0); }
static void places_hts(void) { side_by_side(RING_F_MP_HTS_ENQ | RING_F_MC_HTS_DEQ); }

/* ---- Long calls beside each other ---------------------------------------------------------------------------------*/

enum { LONG = 3000, RACES = 1000 };

static _Atomic unsigned won[2];

/* Two threads enqueue bulks of several pieces at once, and there is room for one; then they dequeue, and one is
 * there. */
static void *races(void *at) {
    struct rte_ring *r = at;
    static __thread void *table[LONG];
    for (int race = 0; race < RACES; race++) {
        (void)pthread_barrier_wait(&barrier);
        unsigned put = rte_ring_enqueue_bulk(r, table, LONG, NULL);
        (void)pthread_barrier_wait(&barrier);
        unsigned taken = rte_ring_dequeue_bulk(r, table, LONG, NULL);
        CHECK((put == 0 || put == LONG) && (taken == 0 || taken == LONG));
        won[0] += put == LONG;
        won[1] += taken == LONG;
    }
    return NULL;
}

static void long_beside_long(void) {
    pthread_t threads[2];
    struct rte_ring *r = rte_ring_create("r", 4096, SOCKET_ID_ANY, 0);
    CHECK(r && pthread_barrier_init(&barrier, NULL, 2) == 0);
    for (int i = 0; i < 2; i++) CHECK(pthread_create(&threads[i], NULL, races, r) == 0);
    for (int i = 0; i < 2; i++) CHECK(pthread_join(threads[i], NULL) == 0);
    CHECK(won[0] == RACES && won[1] == RACES && rte_ring_empty(r));
    rte_ring_free(r);
}

/* Puts a number and takes one, while all others have a hand too. */
static void *together(void *at) {
    struct rte_ring *r = at;
    void *object = r;
    CHECK(rte_ring_enqueue(r, object) == 0);
    (void)pthread_barrier_wait(&barrier);
    CHECK(rte_ring_dequeue(r, &object) == 0 && object == r);
    return NULL;
}

static void many_threads(void) {
    pthread_t threads[THREADS];
    struct rte_ring *r = rte_ring_create("r", 256, SOCKET_ID_ANY, 0);
    CHECK(r && pthread_barrier_init(&barrier, NULL, THREADS) == 0);
    for (int round = 0; round < ROUNDS; round++) {
        for (int i = 0; i < THREADS; i++) CHECK(pthread_create(&threads[i], NULL, together, r) == 0);
        for (int i = 0; i < THREADS; i++) CHECK(pthread_join(threads[i], NULL) == 0);
    }
    CHECK(rte_ring_empty(r));
    rte_ring_free(r);
}

/* ---- Tables -------------------------------------------------------------------------------------------------------*/

static void tables(void) {
    uint32_t hop, hops[2], ips[2] = {0x0a000001, 0x0b000001};
    struct rte_lpm *lpm = a_table();
    CHECK(lpm != NULL);
    for (uint32_t i = 1; i <= 4; i++) CHECK(rte_lpm_add(lpm, i << 24, 8, i) == 0);
    CHECK(rte_lpm_add(lpm, 5u << 24, 8, 5) == -ENOSPC); /* max_rules */
    CHECK(rte_lpm_add(lpm, 4u << 24, 8, 6) == 0);
    CHECK(rte_lpm_lookup(lpm, 4u << 24, &hop) == 0 && hop == 6);
    CHECK(rte_lpm_delete(lpm, 4u << 24, 8) == 0 && rte_lpm_delete(lpm, 4u << 24, 8) == -EINVAL);
    CHECK(rte_lpm_add(lpm, 10u << 24, 8, 9) == 0);
    CHECK(rte_lpm_lookup_bulk(lpm, ips, hops, 2) == 0 && hops[0] == (9 | RTE_LPM_LOOKUP_SUCCESS) && hops[1] == 0);
    rte_lpm_delete_all(lpm);
    CHECK(rte_lpm_lookup(lpm, 0x0a000001, &hop) == -ENOENT);
    rte_lpm_free(lpm);
}

static const struct {
    const char *name;
    void (*run)(void);
} tests[] = {{"a ring without memory", ring_memory},
             {"a ring of elements without memory", wide_memory},
             {"a table without memory", table_memory},
             {"a window without memory", window_memory},
             {"a thread without memory", no_hand},
             {"changes of routes without memory", changes_without_memory},
             {"what a ring refuses", refusals},
             {"counts beside a peek", beside_a_peek},
             {"long calls", long_calls},
             {"elements shown in their places", zero_copy},
             {"finishes that are refused", wrong_finishes},
             {"no peeks on a side of many threads", no_peeks},
             {"elements of four threads", places_multi},
             {"elements of four threads, with peeks", places_hts},
             {"long calls beside each other", long_beside_long},
             {"200 threads at once", many_threads},
             {"routes", tables}};

/* EAL leaves its main thread one processor, and the threads that it starts would have no other. */
static void use_all_processors(void) {
    cpu_set_t all;
    memset(&all, 0xff, sizeof all);
    CHECK(pthread_setaffinity_np(pthread_self(), sizeof all, &all) == 0);
}

int main(int argc, char **argv) {
    if (argc == 2 && !strcmp(argv[1], "list")) {
        for (size_t i = 0; i < RTE_DIM(tests); i++) puts(tests[i].name);
        return 0;
    }
    int used = rte_eal_init(argc, argv);
    if (used < 0 || used + 1 >= argc) return 2;
    size_t i = 0;
    while (i < RTE_DIM(tests) && strcmp(tests[i].name, argv[used + 1])) i++;
    if (i == RTE_DIM(tests)) return 2;
    use_all_processors();
    tests[i].run();
    fflush(stdout);
    return wrong;
}
