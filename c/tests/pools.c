/* Each call on pools of numbers, and each code that one thread can meet. */
#include "tests.h"

#include <string.h>

/* LONGEST is the longest get that fills the cache, too, and CACHE the size of a large cache. */
enum { FEW = 6, MANY = (1 << 20) - 1, LARGE = 20000, LONGEST = 512, CACHE = 300 };

static uint32_t got[HK_MAX_NUMBERS + 1];
static unsigned char met[MANY];

static void mark(void) {
    memset(got, 0xff, sizeof got);
}

/* Gets n numbers by this many a call, each below n and none twice. */
static void get_all(hk_pool *pool, uint32_t n, size_t step) {
    memset(met, 0, sizeof met);
    uint32_t once = 0;
    for (uint32_t i = 0; i < n; i += (uint32_t)step) {
        size_t k = n - i < step ? n - i : step;
        if (hk_pool_try_get_bulk(pool, got, k) != (int64_t)k) break;
        for (size_t j = 0; j < k; j++) once += got[j] < n && met[got[j]]++ == 0;
    }
    IS(once, n);
}

static void openings(void) {
    hk_pool *pool = NULL;
    IS(hk_pool_open(NULL, FEW, 2, 1), HK_E_NULL);
    IS(hk_pool_open(&pool, 0, 2, 1), HK_E_PLAN);
    IS(hk_pool_open(&pool, MANY + 1, 2, 1), HK_E_PLAN);
    IS(hk_pool_open(&pool, UINT32_MAX, 2, 1), HK_E_PLAN);
    IS(hk_pool_open(&pool, FEW, 513, 1), HK_E_PLAN);
    IS(hk_pool_open(&pool, FEW, UINT32_MAX, 1), HK_E_PLAN);
    IS(hk_pool_open(&pool, FEW, 2, 64), HK_E_PLAN);
    IS(hk_pool_open(&pool, FEW, 2, UINT32_MAX), HK_E_PLAN);
    IS(pool == NULL, 1);
    hk_pool_free(NULL);
}

/* All numbers of a pool of this size come out, whatever its cache, and go back. */
static void sizes(uint32_t n, uint32_t cache, size_t step) {
    hk_pool *pool = NULL;
    IS(hk_pool_open(&pool, n, cache, 0), HK_OK);
    for (int round = 0; round < 2; round++) {
        get_all(pool, n, step);
        IS(hk_pool_cached(pool), 0);
        IS(hk_pool_try_get_bulk(pool, got, 1), HK_E_NOROOM);
        int64_t back = 0;
        for (uint32_t i = 0; i < n; i++) back += hk_pool_try_put_bulk(pool, &i, 1);
        IS(back, n);
        IS(hk_pool_cached(pool) <= 3 * cache / 2, 1);
    }
    int64_t cached = hk_pool_cached(pool);
    IS(hk_pool_try_flush(pool), cached);
    IS(hk_pool_cached(pool), 0);
    get_all(pool, n, step);
    hk_pool_free(pool);
}

static void refusals(void) {
    hk_pool *pool = NULL;
    uint32_t one = 0;
    IS(hk_pool_open(&pool, FEW, 2, 1), HK_OK);
    IS(hk_pool_try_get_bulk(NULL, got, 1), HK_E_NULL);
    IS(hk_pool_try_get_bulk(pool, NULL, 1), HK_E_NULL);
    IS(hk_pool_try_get_bulk(pool, NULL, 0), HK_E_COUNT);
    IS(hk_pool_try_get_bulk(pool, got, 0), HK_E_COUNT);
    IS(hk_pool_try_get_bulk(pool, got, HK_MAX_NUMBERS + 1), HK_E_COUNT);
    IS(hk_pool_try_get_bulk(pool, got, SIZE_MAX), HK_E_COUNT);
    mark();
    IS(hk_pool_try_get_bulk(pool, got, FEW + 1), HK_E_NOROOM);
    IS(hk_pool_try_get_bulk(pool, got, HK_MAX_NUMBERS), HK_E_NOROOM);
    IS(got[0], UINT32_MAX);
    IS(hk_pool_try_put_bulk(NULL, &one, 1), HK_E_NULL);
    IS(hk_pool_try_put_bulk(pool, NULL, 1), HK_E_NULL);
    IS(hk_pool_try_put_bulk(pool, NULL, 0), HK_E_COUNT);
    IS(hk_pool_try_put_bulk(pool, got, HK_MAX_NUMBERS + 1), HK_E_COUNT);
    IS(hk_pool_try_put_bulk(pool, &one, 1), HK_E_NOTYOURS);
    IS(hk_pool_try_flush(NULL), HK_E_NULL);
    IS(hk_pool_try_flush(pool), 0);
    IS(hk_pool_cached(NULL), HK_E_NULL);
    IS(hk_pool_owns(NULL, 0), HK_E_NULL);
    IS(hk_pool_split(NULL, &pool), HK_E_NULL);
    IS(hk_pool_split(pool, NULL), HK_E_NULL);
    hk_pool_free(pool);
}

/* The order that the header states: the cache's newest first, then what the free ring gives. */
static void orders(void) {
    hk_pool *pool = NULL;
    IS(hk_pool_open(&pool, FEW, 2, 0), HK_OK);
    mark();
    IS(hk_pool_try_get_bulk(pool, got, 1), 1), IS(got[0], 0), IS(got[1], UINT32_MAX);
    IS(hk_pool_cached(pool), 2);
    IS(hk_pool_try_get_bulk(pool, got, 3), 3), IS(got[0], 2), IS(got[1], 1), IS(got[2], 3);
    IS(hk_pool_cached(pool), 2);
    uint32_t some[2] = {0, 3};
    IS(hk_pool_try_put_bulk(pool, some, 1), 1);
    IS(hk_pool_cached(pool), 3);
    /* The cache has 4, 5 and 0: it takes three numbers, so the next goes to the free ring. */
    IS(hk_pool_try_put_bulk(pool, some + 1, 1), 1);
    IS(hk_pool_cached(pool), 3);
    IS(hk_pool_owns(pool, 3), 0), IS(hk_pool_owns(pool, 0), 1);
    IS(hk_pool_owns(pool, 4), 1), IS(hk_pool_owns(pool, 2), 1);
    IS(hk_pool_try_get_bulk(pool, got, 4), 4);
    IS(got[0], 0), IS(got[1], 5), IS(got[2], 4), IS(got[3], 3);
    hk_pool_free(pool);
}

/* Whether the first n places have numbers that follow each other from this one on, upwards or downwards, and the places
 * after them are as they were. */
static int is_row(const uint32_t *row, size_t n, uint32_t from, int step) {
    int same = 1;
    for (size_t i = 0; i < n; i++) same &= row[i] == from + (uint32_t)step * (uint32_t)i;
    return same && row[n] == UINT32_MAX;
}

/* What this handle has cached, and what is on the free ring. */
static void is_left(hk_pool *pool, int64_t cached, int64_t on_ring) {
    IS(hk_pool_cached(pool), cached), IS(hk_pool_free_count(pool), on_ring);
}

/* A get of up to 512 numbers fills the cache, too, and a longer one takes no more than the cache lacks. */
static void fills(size_t n, int64_t more) {
    hk_pool *pool = NULL;
    IS(hk_pool_open(&pool, LARGE, CACHE, 0), HK_OK);
    mark();
    IS(hk_pool_try_get_bulk(pool, got, n), (int64_t)n), IS(is_row(got, n, 0, 1), 1);
    is_left(pool, more, LARGE - (int64_t)n - more);
    hk_pool_free(pool);
}

/* The longest gets, from the cache and the free ring: the cache's newest first, then the ring's oldest first. */
static void long_gets(void) {
    hk_pool *pool = NULL;
    static uint32_t back[CACHE];
    IS(hk_pool_open(&pool, LARGE, CACHE, 0), HK_OK);
    IS(hk_pool_try_get_bulk(pool, got, 1), 1), is_left(pool, CACHE, LARGE - 1 - CACHE);
    /* The cache has 1 to 300, and 300 is the newest. */
    mark();
    IS(hk_pool_try_get_bulk(pool, got, HK_MAX_NUMBERS), HK_MAX_NUMBERS);
    is_left(pool, 0, LARGE - 1 - HK_MAX_NUMBERS);
    IS(is_row(got + CACHE, HK_MAX_NUMBERS - CACHE, CACHE + 1, 1), 1);
    got[CACHE] = UINT32_MAX, IS(is_row(got, CACHE, CACHE, -1), 1);
    for (uint32_t i = 0; i < CACHE; i++) back[i] = CACHE - i;
    IS(hk_pool_try_put_bulk(pool, back, CACHE), CACHE), is_left(pool, CACHE, LARGE - 1 - HK_MAX_NUMBERS);
    /* Now 1 is the newest. A get that the cache has enough for leaves the free ring alone. */
    mark();
    IS(hk_pool_try_get_bulk(pool, got, CACHE), CACHE), IS(is_row(got, CACHE, 1, 1), 1);
    is_left(pool, 0, LARGE - 1 - HK_MAX_NUMBERS);
    mark();
    IS(hk_pool_try_get_bulk(pool, got, LONGEST), LONGEST), IS(is_row(got, LONGEST, HK_MAX_NUMBERS + 1, 1), 1);
    is_left(pool, CACHE, LARGE - 1 - HK_MAX_NUMBERS - LONGEST - CACHE);
    hk_pool_free(pool);
}

/* A long get that is refused changes nothing: with one number less it has all. */
static void long_refusals(void) {
    hk_pool *pool = NULL;
    enum { N = LONGEST + CACHE, CACHED = 100 };
    IS(hk_pool_open(&pool, N, CACHE, 0), HK_OK);
    IS(hk_pool_try_get_bulk(pool, got, CACHED), CACHED), is_left(pool, CACHE, N - CACHED - CACHE);
    IS(hk_pool_try_flush(pool), CACHE), IS(hk_pool_try_put_bulk(pool, got, CACHED), CACHED);
    mark();
    IS(hk_pool_try_get_bulk(pool, got, N + 1), HK_E_NOROOM);
    IS(hk_pool_try_get_bulk(pool, got, HK_MAX_NUMBERS), HK_E_NOROOM);
    is_left(pool, CACHED, N - CACHED), IS(got[0], UINT32_MAX), IS(got[N], UINT32_MAX);
    get_all(pool, N, N), is_left(pool, 0, 0);
    hk_pool_free(pool);
}

/* Puts, sends and receives of as many numbers as a call may have: the order stays. */
static void long_calls(void) {
    hk_pool *pool = NULL;
    static uint32_t all[HK_MAX_NUMBERS + 1];
    enum { N = HK_MAX_NUMBERS + 1 };
    IS(hk_pool_open(&pool, N, LONGEST, 1), HK_OK);
    mark();
    IS(hk_pool_try_get_bulk(pool, got, HK_MAX_NUMBERS), HK_MAX_NUMBERS), IS(is_row(got, HK_MAX_NUMBERS, 0, 1), 1);
    IS(hk_pool_try_send_bulk(pool, 0, got, HK_MAX_NUMBERS), HK_MAX_NUMBERS);
    IS(hk_pool_ring_count(pool, 0), HK_MAX_NUMBERS);
    memset(all, 0xff, sizeof all);
    IS(hk_pool_try_receive_bulk(pool, 0, all, HK_MAX_NUMBERS), HK_MAX_NUMBERS), IS(memcmp(all, got, sizeof all), 0);
    IS(hk_pool_try_send_burst(pool, 0, all, HK_MAX_NUMBERS), HK_MAX_NUMBERS), IS(hk_pool_ring_room(pool, 0), 1);
    memset(all, 0xff, sizeof all);
    IS(hk_pool_try_receive_burst(pool, 0, all, HK_MAX_NUMBERS), HK_MAX_NUMBERS), IS(memcmp(all, got, sizeof all), 0);
    is_left(pool, 0, 1);
    IS(hk_pool_try_put_bulk(pool, all, HK_MAX_NUMBERS), HK_MAX_NUMBERS), is_left(pool, 0, N);
    IS(hk_pool_try_put_bulk(pool, all, HK_MAX_NUMBERS), HK_E_NOTYOURS);
    IS(hk_pool_try_get_bulk(pool, got, 1), 1), IS(got[0], HK_MAX_NUMBERS), is_left(pool, LONGEST, N - 1 - LONGEST);
    hk_pool_free(pool);
}

/* A number that the handle doesn't have, that is cached, or that is given twice is refused, and nothing moves. */
static void strangers(void) {
    hk_pool *pool = NULL;
    IS(hk_pool_open(&pool, FEW, 2, 1), HK_OK);
    IS(hk_pool_try_get_bulk(pool, got, 2), 2);
    int64_t cached = hk_pool_cached(pool);
    uint32_t twice[2] = {got[0], got[0]}, wrong[2] = {got[0], 5}, high[2] = {got[0], FEW}, far[1] = {UINT32_MAX};
    IS(hk_pool_try_put_bulk(pool, twice, 2), HK_E_NOTYOURS);
    IS(hk_pool_try_put_bulk(pool, wrong, 2), HK_E_NOTYOURS);
    IS(hk_pool_try_put_bulk(pool, high, 2), HK_E_NOTYOURS);
    IS(hk_pool_try_put_bulk(pool, far, 1), HK_E_NOTYOURS);
    IS(hk_pool_try_send_bulk(pool, 0, twice, 2), HK_E_NOTYOURS);
    IS(hk_pool_try_send_burst(pool, 0, twice, 2), HK_E_NOTYOURS);
    IS(hk_pool_try_send_burst(pool, 0, wrong, 2), HK_E_NOTYOURS), IS(hk_pool_ring_count(pool, 0), 0);
    IS(hk_pool_cached(pool), cached);
    IS(hk_pool_owns(pool, got[0]), 1), IS(hk_pool_owns(pool, got[1]), 1);
    IS(hk_pool_owns(pool, FEW), 0), IS(hk_pool_owns(pool, UINT32_MAX), 0);
    IS(hk_pool_try_put_bulk(pool, got, 1), 1);
    IS(hk_pool_try_put_bulk(pool, got, 1), HK_E_NOTYOURS);
    IS(hk_pool_try_send_bulk(pool, 0, got, 1), HK_E_NOTYOURS);
    IS(hk_pool_cached(pool), cached + 1);
    IS(hk_pool_try_put_bulk(pool, got + 1, 1), 1);
    IS(hk_pool_try_flush(pool), 3);
    IS(hk_pool_owns(pool, got[0]), 0);
    hk_pool_free(pool);
}

/* Numbers that are passed on belong to the handle that takes them over. */
static void passed(void) {
    hk_pool *first = NULL, *second = NULL;
    uint32_t taken[FEW];
    IS(hk_pool_open(&first, FEW, 2, 2), HK_OK);
    IS(hk_pool_split(first, &second), HK_OK);
    IS(hk_pool_cached(second), 0);
    IS(hk_pool_try_get_bulk(first, got, 4), 4);
    IS(hk_pool_try_put_bulk(second, got, 1), HK_E_NOTYOURS);
    IS(hk_pool_try_send_bulk(first, 2, got, 1), HK_E_RING);
    IS(hk_pool_try_send_bulk(first, SIZE_MAX, got, 1), HK_E_RING);
    IS(hk_pool_try_send_bulk(first, 0, NULL, 1), HK_E_NULL);
    IS(hk_pool_try_send_bulk(first, 0, got, 0), HK_E_COUNT);
    IS(hk_pool_try_receive_bulk(second, 2, taken, 1), HK_E_RING);
    IS(hk_pool_try_receive_bulk(second, SIZE_MAX, taken, 1), HK_E_RING);
    IS(hk_pool_try_receive_bulk(second, 0, taken, HK_MAX_NUMBERS + 1), HK_E_COUNT);
    IS(hk_pool_try_receive_bulk(second, 0, NULL, 1), HK_E_NULL);
    IS(hk_pool_try_receive_bulk(second, 0, taken, 1), HK_E_NOROOM);
    IS(hk_pool_try_send_bulk(first, 1, got, 3), 3);
    IS(hk_pool_owns(first, got[0]), 0);
    IS(hk_pool_try_put_bulk(first, got, 1), HK_E_NOTYOURS);
    IS(hk_pool_try_receive_bulk(second, 0, taken, 1), HK_E_NOROOM);
    IS(hk_pool_try_receive_bulk(second, 1, taken, 4), HK_E_NOROOM);
    IS(hk_pool_try_receive_bulk(second, 1, taken, 3), 3);
    for (int i = 0; i < 3; i++) IS(taken[i], got[i]);
    IS(hk_pool_owns(second, taken[0]), 1), IS(hk_pool_cached(second), 0);
    IS(hk_pool_try_put_bulk(second, taken, 3), 3);
    IS(hk_pool_cached(second), 3);
    IS(hk_pool_try_flush(second), 3);
    IS(hk_pool_try_put_bulk(first, got + 3, 1), 1);
    IS(hk_pool_try_flush(first), 3);
    hk_pool_free(first);
    get_all(second, FEW, 1);
    hk_pool_free(second);
}

/* By burst all numbers are sent, and at most as many are received as are there. */
static void bursts(void) {
    hk_pool *first = NULL, *second = NULL;
    uint32_t taken[FEW + 1];
    IS(hk_pool_open(&first, FEW, 2, 2), HK_OK), IS(hk_pool_split(first, &second), HK_OK);
    IS(hk_pool_try_get_bulk(first, got, FEW), FEW);
    memset(taken, 0xff, sizeof taken);
    IS(hk_pool_try_receive_burst(second, 1, taken, FEW), HK_E_NOROOM), IS(taken[0], UINT32_MAX);
    IS(hk_pool_try_send_burst(first, 2, got, 1), HK_E_RING), IS(hk_pool_try_send_burst(first, 1, got, 0), HK_E_COUNT);
    IS(hk_pool_try_send_burst(first, 1, got, 4), 4), IS(hk_pool_try_send_burst(first, 1, got, 4), HK_E_NOTYOURS);
    IS(hk_pool_ring_count(second, 1), 4), IS(hk_pool_ring_room(second, 1), 2);
    IS(hk_pool_ring_count(first, 0), 0), IS(hk_pool_ring_room(first, 0), FEW);
    IS(hk_pool_try_receive_burst(second, 1, taken, 1), 1), IS(taken[0], got[0]), IS(taken[1], UINT32_MAX);
    IS(hk_pool_try_receive_burst(second, 0, taken + 1, FEW), HK_E_NOROOM), IS(taken[1], UINT32_MAX);
    IS(hk_pool_try_receive_bulk(second, 1, taken + 1, FEW), HK_E_NOROOM), IS(taken[1], UINT32_MAX);
    IS(hk_pool_try_receive_burst(second, 1, taken + 1, FEW), 3), IS(taken[4], UINT32_MAX);
    IS(memcmp(taken, got, 4 * sizeof *taken), 0);
    IS(hk_pool_owns(second, taken[3]), 1), IS(hk_pool_owns(first, taken[3]), 0), IS(hk_pool_cached(second), 0);
    /* A ring takes all numbers of its pool. */
    IS(hk_pool_try_send_burst(second, 1, taken, 4), 4), IS(hk_pool_try_send_burst(first, 1, got + 4, 2), 2);
    IS(hk_pool_ring_count(first, 1), FEW), IS(hk_pool_ring_room(first, 1), 0);
    IS(hk_pool_try_receive_burst(first, 1, taken, FEW + 1), FEW), IS(memcmp(taken, got, FEW * sizeof *taken), 0);
    hk_pool_free(first), hk_pool_free(second);
}

/* Each number is counted in one place: in the cache, on the free ring or on a ring that passes it on. */
static void counts(void) {
    hk_pool *pool = NULL;
    IS(hk_pool_open(&pool, FEW, 2, 1), HK_OK), is_left(pool, 0, FEW);
    IS(hk_pool_ring_count(NULL, 0), HK_E_NULL), IS(hk_pool_ring_room(NULL, 0), HK_E_NULL);
    IS(hk_pool_free_count(NULL), HK_E_NULL);
    IS(hk_pool_ring_count(pool, 1), HK_E_RING), IS(hk_pool_ring_room(pool, SIZE_MAX), HK_E_RING);
    IS(hk_pool_try_get_bulk(pool, got, 2), 2), is_left(pool, 2, 2);
    IS(hk_pool_try_send_bulk(pool, 0, got, 1), 1), is_left(pool, 2, 2), IS(hk_pool_ring_count(pool, 0), 1);
    IS(hk_pool_try_put_bulk(pool, got + 1, 1), 1), is_left(pool, 3, 2);
    IS(hk_pool_try_receive_bulk(pool, 0, got, 1), 1), is_left(pool, 3, 2), IS(hk_pool_ring_count(pool, 0), 0);
    IS(hk_pool_try_put_bulk(pool, got, 1), 1), is_left(pool, 3, 3);
    IS(hk_pool_try_flush(pool), 3), is_left(pool, 0, FEW), IS(hk_pool_ring_room(pool, 0), FEW);
    hk_pool_free(pool);
}

/* What is cached goes to the free ring when a handle is freed; what was got and not put back is lost to the others. */
static void freed(void) {
    hk_pool *first = NULL, *second = NULL, *third = NULL;
    IS(hk_pool_open(&first, FEW, 4, 0), HK_OK), IS(hk_pool_split(first, &second), HK_OK);
    IS(hk_pool_try_get_bulk(first, got, 4), 4), IS(hk_pool_try_put_bulk(first, got, 4), 4), is_left(first, 4, 2);
    IS(hk_pool_try_get_bulk(second, got, FEW), HK_E_NOROOM);
    hk_pool_free(first);
    is_left(second, 0, FEW), get_all(second, FEW, FEW);
    /* The oldest of the cache went first, after those that were on the ring. */
    for (uint32_t i = 0; i < FEW; i++) IS(got[i], (4 + i) % FEW);
    IS(hk_pool_split(second, &third), HK_OK), IS(hk_pool_try_put_bulk(second, got, 3), 3);
    hk_pool_free(second);
    is_left(third, 0, 3), IS(hk_pool_try_get_bulk(third, got, 4), HK_E_NOROOM);
    IS(hk_pool_try_get_bulk(third, got, 3), 3), is_left(third, 0, 0);
    hk_pool_free(third);
}

/* A handle whose first one was freed, on the last ring. */
static void others(void) {
    hk_pool *first = NULL, *second = NULL, *third = NULL;
    IS(hk_pool_open(&first, FEW, 0, 63), HK_OK), IS(hk_pool_split(first, &second), HK_OK);
    hk_pool_free(first);
    IS(hk_pool_split(second, &third), HK_OK);
    get_all(third, FEW, FEW);
    IS(hk_pool_try_send_bulk(third, 62, got, FEW), FEW);
    hk_pool_free(third);
    IS(hk_pool_try_receive_bulk(second, 62, got, FEW), FEW);
    IS(hk_pool_try_put_bulk(second, got, FEW), FEW);
    hk_pool_free(second);
}

static void kinds(void) {
    hk_pool *pool = NULL, *none = NULL;
    hk_routes *table = NULL;
    uint64_t word = 0;
    IS(hk_pool_open(&pool, FEW, 2, 1), HK_OK);
    IS(hk_routes_open(&table, 16, 1), HK_OK);
    IS(hk_pool_try_get_bulk((hk_pool *)table, got, 1), HK_E_KIND);
    IS(hk_pool_try_put_bulk((hk_pool *)table, got, 1), HK_E_KIND);
    IS(hk_pool_try_flush((hk_pool *)table), HK_E_KIND);
    IS(hk_pool_cached((hk_pool *)table), HK_E_KIND);
    IS(hk_pool_owns((hk_pool *)table, 1), HK_E_KIND);
    IS(hk_pool_try_send_bulk((hk_pool *)table, 0, got, 1), HK_E_KIND);
    IS(hk_pool_try_receive_bulk((hk_pool *)table, 0, got, 1), HK_E_KIND);
    IS(hk_pool_try_send_burst((hk_pool *)table, 0, got, 1), HK_E_KIND);
    IS(hk_pool_try_receive_burst((hk_pool *)table, 0, got, 1), HK_E_KIND);
    IS(hk_pool_ring_count((hk_pool *)table, 0), HK_E_KIND), IS(hk_pool_ring_room((hk_pool *)table, 0), HK_E_KIND);
    IS(hk_pool_free_count((hk_pool *)table), HK_E_KIND);
    IS(hk_pool_split((hk_pool *)table, &none), HK_E_KIND);
    IS(hk_routes_lookup((hk_routes *)pool, 1), HK_E_KIND);
    IS(hk_reorder_next((hk_reorder *)pool, &word), HK_E_KIND);
    IS(hk_ring_count((hk_hand *)pool, 0), HK_E_KIND);
    IS(hk_hand_close((hk_hand *)pool), HK_E_KIND);
    IS(none == NULL, 1);
    hk_routes_free(table);
    hk_pool_free(pool);
}

int main(void) {
    openings();
    sizes(1, 0, 1);
    sizes(FEW, 2, 2);
    sizes(1000, 512, 512);
    sizes(5000, 0, HK_MAX_NUMBERS);
    sizes(LARGE, 512, HK_MAX_NUMBERS);
    sizes(1025, 1, 7);
    sizes(MANY, 32, 33);
    refusals();
    orders();
    fills(LONGEST, CACHE);
    fills(LONGEST + 1, 0);
    long_gets();
    long_refusals();
    long_calls();
    strangers();
    passed();
    bursts();
    counts();
    freed();
    others();
    kinds();
    return hk_count_up("pools");
}
