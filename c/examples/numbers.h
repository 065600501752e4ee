/* A number of a pool goes to another thread. */
#include <hokhtura.h>
#include <sched.h>

static int64_t send_one(hk_pool *pool, size_t ring) {
    uint32_t number;
    int64_t code = hk_pool_try_get_bulk(pool, &number, 1);
    if (code < 0) return code;
    while ((code = hk_pool_try_send_bulk(pool, ring, &number, 1)) == HK_E_AGAIN) sched_yield();
    return code; /* below 0: the handle still has the number */
}

static int64_t receive_one(hk_pool *pool, size_t ring, uint32_t *number) {
    return hk_pool_try_receive_bulk(pool, ring, number, 1);
}
