/* Programs with a race, which ThreadSanitizer has to report. With the argument `ring` a buffer is written by the thread
 * that put its pointer on a ring, and with `pool` by the thread that sent its number; with `ahead` a buffer is used by
 * a thread that took another one. With `none` there is no race. */
#include "tests.h"

#include <pthread.h>
#include <sched.h>
#include <stdlib.h>
#include <string.h>

static uint64_t buffers[2];
static hk_hand *giver, *taker;
static hk_pool *sender, *receiver;
static const char *kind;

static int is(const char *wanted) {
    return strcmp(kind, wanted) == 0;
}

/* A call that has to do all it is asked for. It counts nothing, as both threads make calls. */
static void does(int64_t code) {
    if (code != 1) abort();
}

static void *give(void *nothing) {
    uint64_t word = (uintptr_t)&buffers[0];
    uint32_t number = 0;
    buffers[0] = 1;
    if (is("pool")) {
        does(hk_pool_try_get_bulk(sender, &number, 1)), does(hk_pool_try_send_bulk(sender, 0, &number, 1));
    } else {
        does(hk_ring_try_put_bulk(giver, 0, &word, 1));
    }
    if (is("ring") || is("pool")) buffers[0] = 2;
    if (is("ahead")) {
        buffers[1] = 2;
        word = (uintptr_t)&buffers[1];
        does(hk_ring_try_put_bulk(giver, 0, &word, 1));
    }
    return nothing;
}

static void *receive(void *nothing) {
    uint64_t word = 0;
    uint32_t number = 0;
    if (is("pool")) {
        while (hk_pool_try_receive_bulk(receiver, 0, &number, 1) < 0) sched_yield();
    } else {
        while (hk_ring_try_take_bulk(taker, 0, &word, 1) < 0) sched_yield();
    }
    buffers[is("ahead")]++;
    return nothing;
}

int main(int argc, char **argv) {
    hk_ring_plan plan = {8, 1, HK_HTS, HK_HTS, 0, 0};
    pthread_t threads[2];
    kind = argc > 1 ? argv[1] : "none";
    IS(hk_hand_open(&giver, &plan, 1), HK_OK), IS(hk_hand_split(giver, &taker), HK_OK);
    IS(hk_pool_open(&sender, 4, 0, 1), HK_OK), IS(hk_pool_split(sender, &receiver), HK_OK);
    IS(pthread_create(&threads[0], NULL, give, NULL), 0), IS(pthread_create(&threads[1], NULL, receive, NULL), 0);
    IS(pthread_join(threads[0], NULL), 0), IS(pthread_join(threads[1], NULL), 0);
    hk_hand_free(giver), hk_hand_free(taker), hk_pool_free(sender), hk_pool_free(receiver);
    return hk_count_up("races");
}
