/* Tests of the driver of rte_mempool: driver [EAL's options] -- OPS NAME. `driver list` prints all names. The
 * program has a process type and an allocator of its own in place of EAL's, so that both can refuse. */
#define _GNU_SOURCE /* for RTLD_NEXT and pthread_setaffinity_np */
#include <dlfcn.h>
#include <pthread.h>
#include <stdio.h>
#include <stdlib.h>
#include <string.h>

#include <rte_eal.h>
#include <rte_errno.h>
#include <rte_lcore.h>
#include <rte_malloc.h>
#include <rte_mempool.h>

enum { MAX_OBJECTS = (1 << 20) - 1, THREADS = 200, ROUNDS = 10 };

static const char *ops;
static int wrong;

#define CHECK(good) \
    do { \
        if (!(good)) { \
            printf("%s:%d: not so: %s\n", __FILE__, __LINE__, #good); \
            wrong = 1; \
        } \
    } while (0)

/* ---- In place of EAL's --------------------------------------------------------------------------------------------*/

static enum rte_proc_type_t type = RTE_PROC_PRIMARY;
enum rte_proc_type_t rte_eal_process_type(void) { return type; }

/* Which request of the driver's is refused, with all after it, or 0; how many were made, and how many blocks it has. */
static _Atomic long refused;
static _Atomic long requests;
static _Atomic long living;

/* The blocks of the driver. None is given back to EAL: it is emptied, so that nobody can go on with it unnoticed. */
static struct {
    void *at;
    size_t size;
} blocks[100000];

/* rte_zmalloc_socket asks it, too. */
void *rte_malloc_socket(const char *what, size_t size, unsigned int align, int socket) {
    static void *(*real)(const char *, size_t, unsigned int, int);
    if (!real) real = (void *(*)(const char *, size_t, unsigned int, int))dlsym(RTLD_NEXT, "rte_malloc_socket");
    if (!what || strcmp(what, "hokhtura")) return real(what, size, align, socket);
    long number = requests++;
    if ((refused != 0 && number + 1 >= refused) || number >= (long)RTE_DIM(blocks)) return NULL;
    void *at = real(what, size, align, socket);
    blocks[number].at = at;
    blocks[number].size = size;
    living += at != NULL;
    return at;
}

void rte_free(void *at) {
    static void (*real)(void *);
    if (!real) real = (void (*)(void *))dlsym(RTLD_NEXT, "rte_free");
    for (long i = 0; i < requests && at; i++)
        if (blocks[i].at == at) {
            memset(at, 0, blocks[i].size);
            living--;
            return;
        }
    real(at);
}

/* ---- Mempools -----------------------------------------------------------------------------------------------------*/

/* A mempool without a cache; null with rte_errno if it is refused. */
static struct rte_mempool *pool_of(unsigned n) {
    struct rte_mempool *mp = rte_mempool_create_empty("tested", n, 8, 0, 0, SOCKET_ID_ANY, 0);
    if (!mp) return NULL;
    int code = rte_mempool_set_ops_byname(mp, ops, NULL);
    if (code >= 0) code = rte_mempool_populate_default(mp);
    if (code >= 0) return mp;
    rte_mempool_free(mp);
    rte_errno = -code;
    return NULL;
}

static void is_refused(unsigned n, int code) {
    rte_errno = 0;
    struct rte_mempool *mp = pool_of(n);
    CHECK(!mp && rte_errno == code);
    rte_mempool_free(mp);
}

/* All objects can be taken, each once, and put back. */
static void all_there(struct rte_mempool *mp) {
    void **objects = calloc(mp->size, sizeof *objects), *more;
    CHECK(objects != NULL);
    if (!objects) return;
    CHECK(rte_mempool_avail_count(mp) == mp->size);
    CHECK(rte_mempool_get_bulk(mp, objects, mp->size) == 0);
    CHECK(rte_mempool_get(mp, &more) < 0);
    for (unsigned i = 0; i < mp->size; i++) *(uint64_t *)objects[i] = 0;
    for (unsigned i = 0; i < mp->size; i++) CHECK(++*(uint64_t *)objects[i] == 1);
    rte_mempool_put_bulk(mp, objects, mp->size);
    CHECK(rte_mempool_avail_count(mp) == mp->size);
    free(objects);
}

static void sizes(void) {
    struct rte_mempool *mp = pool_of(MAX_OBJECTS);
    CHECK(mp != NULL);
    if (mp) all_there(mp);
    rte_mempool_free(mp);
    is_refused(MAX_OBJECTS + 1, EINVAL);
}

/* A long get takes all or none, also if there is enough for its first piece: what that took goes back. */
static void all_or_none(void) {
    static void *objects[5000], *others[5000];
    struct rte_mempool *mp = pool_of(9500);
    CHECK(mp != NULL);
    if (!mp) return;
    CHECK(rte_mempool_get_bulk(mp, objects, 5000) == 0);
    CHECK(rte_mempool_get_bulk(mp, others, 5000) == -ENOBUFS);
    CHECK(rte_mempool_avail_count(mp) == 4500);
    rte_mempool_put_bulk(mp, objects, 5000);
    all_there(mp);
    rte_mempool_free(mp);
}

/* A secondary process has no rings, whatever mempools it finds. */
static void secondary(void) {
    void *object;
    struct rte_mempool *mp = pool_of(100);
    CHECK(mp != NULL);
    if (!mp) return;
    uint64_t number = mp->pool_id;
    mp->pool_id = number + 1; /* a number that leads nowhere in this process */
    CHECK(rte_mempool_get(mp, &object) == -E_RTE_SECONDARY);
    CHECK(rte_mempool_avail_count(mp) == 0);
    mp->pool_id = number;
    all_there(mp);
    rte_mempool_free(mp);
    type = RTE_PROC_SECONDARY;
    is_refused(100, E_RTE_SECONDARY);
    type = RTE_PROC_PRIMARY;
}

/* Each request for memory is refused once, and all later ones of that mempool. */
static void memory(void) {
    struct rte_mempool *mp = NULL;
    long tried = 0;
    while (!mp && tried < 1000) {
        refused = requests + ++tried;
        long before = living;
        mp = pool_of(100);
        CHECK(mp || (rte_errno == ENOMEM && living == before));
    }
    printf("%ld requests were refused\n", tried - 1);
    CHECK(mp && tried > 2);
    /* No thread gets a hand of its own now, and objects are there all the same. */
    long before = requests;
    refused = 1;
    if (mp) all_there(mp);
    CHECK(requests > before);
    refused = 0;
    if (mp) all_there(mp);
    rte_mempool_free(mp);
}

/* ---- Threads ------------------------------------------------------------------------------------------------------*/

static pthread_barrier_t barrier;

static void *takes_and_puts(void *at) {
    struct rte_mempool *mp = at;
    void *objects[8];
    CHECK(rte_mempool_get_bulk(mp, objects, 8) == 0);
    rte_mempool_put_bulk(mp, objects, 8);
    return NULL;
}

static void *registered(void *at) {
    CHECK(rte_thread_register() == 0);
    takes_and_puts(at);
    rte_thread_unregister();
    return takes_and_puts(at);
}

/* All threads have the hands of their lcores at the same time, and then hands of their own. */
static void *registered_together(void *at) {
    CHECK(rte_thread_register() == 0);
    takes_and_puts(at);
    (void)pthread_barrier_wait(&barrier);
    rte_thread_unregister();
    takes_and_puts(at);
    (void)pthread_barrier_wait(&barrier);
    return NULL;
}

static void *together(void *at) {
    void *object;
    CHECK(rte_mempool_get(at, &object) == 0);
    (void)pthread_barrier_wait(&barrier);
    rte_mempool_put(at, object);
    return NULL;
}

static void run(struct rte_mempool *mp, unsigned n, unsigned side_by_side, void *(*what)(void *)) {
    pthread_t threads[THREADS];
    for (unsigned i = 0; i < n; i += side_by_side) {
        unsigned k = 0;
        for (; k < side_by_side; k++)
            if (pthread_create(&threads[k], NULL, what, mp) != 0) break;
        CHECK(k == side_by_side);
        while (k-- > 0) (void)pthread_join(threads[k], NULL);
    }
}

/* Threads that end leave their hands to others, so that later ones need no memory. */
static void come_and_go(void) {
    struct rte_mempool *mp = pool_of(5000);
    CHECK(mp != NULL);
    if (!mp || pthread_barrier_init(&barrier, NULL, 4) != 0) return;
    run(mp, 4, 4, registered_together);
    long before = requests;
    run(mp, ROUNDS * THREADS, 4, takes_and_puts);
    run(mp, ROUNDS * 4, 4, registered);
    CHECK(requests == before);
    all_there(mp);
    rte_mempool_free(mp);
}

/* More threads at once than one hand can be split into: each has its own. */
static void many(void) {
    struct rte_mempool *mp = pool_of(5000);
    CHECK(mp != NULL);
    if (!mp || pthread_barrier_init(&barrier, NULL, THREADS) != 0) return;
    long before = living;
    run(mp, THREADS, THREADS, together);
    printf("%ld blocks for %d hands\n", living - before, THREADS);
    CHECK(living - before >= THREADS);
    for (int round = 1; round < ROUNDS; round++) run(mp, THREADS, THREADS, together);
    all_there(mp);
    rte_mempool_free(mp);
}

/* A mempool that is freed and made anew isn't taken for the one before by a thread that used that. */
static void *makes_anew(void *at) {
    (void)at;
    for (int round = 0; round < 100; round++) {
        struct rte_mempool *mp = pool_of(100);
        CHECK(mp != NULL);
        if (!mp) break;
        takes_and_puts(mp);
        rte_mempool_free(mp);
    }
    return NULL;
}

static void anew(void) {
    run(NULL, 1, 1, makes_anew);
    (void)makes_anew(NULL); /* by an lcore */
}

static const struct {
    const char *name;
    void (*run)(void);
} tests[] = {{"2^20 - 1 objects, and one more", sizes},
             {"all or none", all_or_none},
             {"a secondary process", secondary},
             {"no memory", memory},
             {"threads that come and go", come_and_go},
             {"200 threads at once", many},
             {"mempools made anew", anew}};

/* EAL leaves its main thread one processor, and the threads that it starts would have no other. */
static void use_all_processors(void) {
    cpu_set_t all;
    memset(&all, 0xff, sizeof all);
    CHECK(pthread_setaffinity_np(pthread_self(), sizeof all, &all) == 0);
}

int main(int argc, char **argv) {
    if (argc == 2 && !strcmp(argv[1], "list")) {
        for (size_t i = 0; i < RTE_DIM(tests); i++) puts(tests[i].name);
        return 0;
    }
    int used = rte_eal_init(argc, argv);
    if (used < 0 || used + 2 >= argc) return 2;
    ops = argv[used + 1];
    size_t i = 0;
    while (i < RTE_DIM(tests) && strcmp(tests[i].name, argv[used + 2])) i++;
    if (i == RTE_DIM(tests)) return 2;
    use_all_processors();
    tests[i].run();
    fflush(stdout);
    return wrong;
}
