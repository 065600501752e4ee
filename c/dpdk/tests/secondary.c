/* A test of the driver with a secondary process: secondary OPS [EAL's options]. The primary process makes a mempool and
 * starts this program again, with --proc-type=secondary. That finds the mempool, and each of its calls on it has to be
 * refused. Both have the memory of EAL in common, and so they need huge pages. */
#define _GNU_SOURCE
#include <stdio.h>
#include <string.h>
#include <sys/wait.h>
#include <unistd.h>

#include <rte_eal.h>
#include <rte_errno.h>
#include <rte_mempool.h>

enum { OBJECTS = 100, TAKEN = 10, MAX_WORDS = 64 };

static int wrong;

#define CHECK(good) \
    do { \
        if (!(good)) { \
            printf("%s:%d: not so: %s\n", __FILE__, __LINE__, #good); \
            wrong = 1; \
        } \
    } while (0)

/* A mempool without a cache; null with rte_errno if it is refused. */
static struct rte_mempool *pool_of(const char *name, const char *ops) {
    struct rte_mempool *mp = rte_mempool_create_empty(name, OBJECTS, 8, 0, 0, SOCKET_ID_ANY, 0);
    if (!mp) return NULL;
    int code = rte_mempool_set_ops_byname(mp, ops, NULL);
    if (code >= 0) code = rte_mempool_populate_default(mp);
    if (code >= 0) return mp;
    rte_mempool_free(mp);
    rte_errno = -code;
    return NULL;
}

/* What each call on the primary's mempool answers in the secondary process. */
static void in_secondary(const char *ops) {
    void *object = NULL, *objects[TAKEN];
    struct rte_mempool *mp = rte_mempool_lookup("of the primary");
    CHECK(mp != NULL);
    if (!mp) return;
    CHECK(rte_mempool_get(mp, &object) == -E_RTE_SECONDARY && object == NULL);
    CHECK(rte_mempool_get_bulk(mp, objects, TAKEN) == -E_RTE_SECONDARY);
    CHECK(rte_mempool_ops_enqueue_bulk(mp, &object, 1) == -E_RTE_SECONDARY);
    CHECK(rte_mempool_avail_count(mp) == 0);
    rte_errno = 0;
    CHECK(!pool_of("of the secondary", ops) && rte_errno == E_RTE_SECONDARY);
}

/* Starts this program as a secondary process and returns its status. */
static int run_secondary(char **words) {
    int status = -1;
    pid_t child = fork();
    if (child == 0) {
        execv("/proc/self/exe", words);
        _exit(127);
    }
    CHECK(child > 0 && waitpid(child, &status, 0) == child);
    return WIFEXITED(status) ? WEXITSTATUS(status) : -1;
}

static void in_primary(const char *ops, char **words) {
    void *objects[OBJECTS];
    struct rte_mempool *mp = pool_of("of the primary", ops);
    CHECK(mp != NULL);
    if (!mp) return;
    CHECK(rte_mempool_get_bulk(mp, objects, TAKEN) == 0);
    CHECK(run_secondary(words) == 0);
    CHECK(rte_mempool_avail_count(mp) == OBJECTS - TAKEN);
    rte_mempool_put_bulk(mp, objects, TAKEN);
    CHECK(rte_mempool_get_bulk(mp, objects, OBJECTS) == 0);
    CHECK(rte_mempool_get_bulk(mp, objects, 1) == -ENOBUFS);
    rte_mempool_put_bulk(mp, objects, OBJECTS);
    rte_mempool_free(mp);
}

int main(int argc, char **argv) {
    char *words[MAX_WORDS], type[] = "--proc-type=secondary";
    if (argc < 2 || argc + 2 > MAX_WORDS) return 2;
    const char *ops = argv[1];
    for (int i = 0; i < argc; i++) words[i] = argv[i];
    words[argc] = type;
    words[argc + 1] = NULL;
    if (rte_eal_init(argc - 1, argv + 1) < 0) return 2;
    if (rte_eal_process_type() == RTE_PROC_PRIMARY) in_primary(ops, words);
    else in_secondary(ops);
    fflush(stdout);
    (void)rte_eal_cleanup();
    return wrong;
}
