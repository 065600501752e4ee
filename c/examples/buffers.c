/* A pool that passes buffers: a reader gets free buffers and fills them, two workers change them, and a writer looks at
 * them and puts them back. The pool's numbers stand for the buffers, and a number is with one thread at a time. */
#include <hokhtura.h>
#include <hokhtura_wait.h>
#include <pthread.h>
#include <stdio.h>

enum { BUFFERS = 256, CACHE = 32, PACKETS = 200000, WORKERS = 2, BURST = 16 };
enum { TO_WORKERS, TO_WRITER, RINGS };

static struct buffer {
    uint32_t length;
    uint8_t bytes[60];
} buffers[BUFFERS];

struct job {
    hk_pool *pool;
    uint64_t bytes;
    int64_t code;
};

static void *read_all(void *at) {
    struct job *job = at;
    uint32_t numbers[BURST], length = 0;
    for (int done = 0; done < PACKETS && job->code >= 0; done += BURST) {
        job->code = hk_pool_get_bulk(job->pool, numbers, BURST, hk_relax_yield);
        if (job->code < 0) break;
        for (int i = 0; i < BURST; i++) buffers[numbers[i]].length = length++ % 50;
        job->code = hk_pool_send_bulk(job->pool, TO_WORKERS, numbers, BURST, hk_relax_yield);
    }
    return NULL;
}

/* Each packet gets a head of 10 bytes. */
static void *work(void *at) {
    struct job *job = at;
    uint32_t numbers[BURST];
    for (int done = 0; done < PACKETS / WORKERS && job->code >= 0; done += BURST) {
        job->code = hk_pool_receive_bulk(job->pool, TO_WORKERS, numbers, BURST, hk_relax_yield);
        if (job->code < 0) break;
        for (int i = 0; i < BURST; i++) buffers[numbers[i]].length += 10;
        job->code = hk_pool_send_bulk(job->pool, TO_WRITER, numbers, BURST, hk_relax_yield);
    }
    return NULL;
}

static void *write_all(void *at) {
    struct job *job = at;
    uint32_t numbers[BURST];
    for (int done = 0; done < PACKETS && job->code >= 0; done += BURST) {
        job->code = hk_pool_receive_bulk(job->pool, TO_WRITER, numbers, BURST, hk_relax_yield);
        if (job->code < 0) break;
        for (int i = 0; i < BURST; i++) job->bytes += buffers[numbers[i]].length;
        job->code = hk_pool_put_bulk(job->pool, numbers, BURST, hk_relax_yield);
    }
    return NULL;
}

int main(void) {
    static void *(*const works[])(void *) = {read_all, write_all, work, work};
    enum { THREADS = 2 + WORKERS };
    struct job jobs[THREADS] = {{0}};
    pthread_t threads[THREADS];
    hk_pool *pool;
    int64_t code = hk_pool_open(&pool, BUFFERS, CACHE, RINGS);
    for (int i = 0; i < THREADS && code >= 0; i++) code = hk_pool_split(pool, &jobs[i].pool);
    if (code < 0) return fprintf(stderr, "buffers: %s\n", hk_strerror(code)), 1;
    for (int i = 0; i < THREADS; i++) {
        if (pthread_create(&threads[i], NULL, works[i], &jobs[i])) return 1;
    }
    for (int i = 0; i < THREADS; i++) {
        pthread_join(threads[i], NULL);
        if (jobs[i].code >= 0) jobs[i].code = hk_pool_flush(jobs[i].pool, hk_relax_yield);
        if (jobs[i].code < 0) code = jobs[i].code;
        hk_pool_free(jobs[i].pool);
    }
    uint32_t numbers[BUFFERS];
    if (code >= 0) code = hk_pool_try_get_bulk(pool, numbers, BUFFERS);
    hk_pool_free(pool);
    if (code < 0) return fprintf(stderr, "buffers: %s\n", hk_strerror(code)), 1;
    printf("%d packets, %llu bytes, %lld buffers are back\n", PACKETS, (unsigned long long)jobs[1].bytes,
           (long long)code);
}
