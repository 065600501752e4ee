/* Hokhtura for C and C++: rings of 64-bit words, pools of numbers, routes by longest prefix, forwarding of frames,
 * reorder windows.
 *
 * HANDLES. `hk_hand`, `hk_pool`, `hk_routes`, `hk_fib`, `hk_forward` and `hk_reorder` are handles. Each is used by one
 * thread at a time: no two calls on one handle overlap. Different handles may be used at the same time, without a lock.
 * Threads reach what they share, a set of rings, a pool, a table of routes or a forwarding table, through a handle for
 * each thread: `hk_hand_split`, `hk_pool_split`, `hk_routes_share`, `hk_fib_share`. To pass a handle to another thread,
 * let the first thread's calls on it happen before the second's, as C11 has it: by the start or the end of a thread, a
 * lock, or a store with release order and a load with acquire order. A hand that was closed stays with its thread.
 * A call with a const handle changes nothing that other calls on it return. It is a call on that handle all the same:
 * two threads may not make it at the same time.
 *
 * WHAT THREADS SEE. What a thread did before it put a word, or put or sent a number of a pool, is seen by the thread
 * that takes that word, or gets or receives that number; what it did before hk_fib_publish, by a reader whose call uses
 * that version of the table; what a reader did before hk_forward_release, by the writer once hk_fib_settle returns
 * HK_OK.
 *
 * RETURN VALUES. A call returns a count of 0 or more (HK_OK is 0), or a code below 0, `enum hk_code`. Unless a call
 * says otherwise, a code means that nothing was changed: no handle, no array, no ring. Of several mistakes a call
 * returns the first of these: HK_E_COUNT, if it is given an array of words, numbers, addresses or frames and a count
 * above the largest; HK_E_NULL; the others in the order in which its comment lists them. Such an array may be null if
 * its count is 0. HK_E_MEMORY may come before any of these. If another call has a head/tail-sync side open, HK_E_AGAIN
 * comes before HK_E_NOROOM and HK_E_WORN. No call ends the process, waits for another thread, sleeps or loops without a
 * limit; what the allocator does comes on top.
 *
 * TRIES. A put or a take has two halves: it reserves positions, and finishes. A peek has only the first half, and a
 * call that finishes only the second. If other threads come first, a call tries each half 1,024 times at most, the
 * first try included, with a pause of the processor before each further one.
 *
 * MEMORY. Only calls marked [memory] allocate memory, with aligned_alloc of the C library or with what
 * hk_set_allocator was given: from aligned_alloc a block begins on a cache line. If they return HK_E_MEMORY, nothing
 * was changed. Freeing a handle frees its memory; freeing the last one also frees what they share.
 *
 * WHAT A CALL CAN'T SEE, and the caller must avoid: a handle that was freed; one handle in two calls at once; an array
 * with fewer places than the count that is given, or that overlaps another argument; a frame that overlaps another one
 * of the same call; an allocator that doesn't do what is said of it; a call from a signal handler, or in the child of a
 * process with threads after fork. Everything else returns a code. */
#ifndef HOKHTURA_H
#define HOKHTURA_H 1

#include <stddef.h>
#include <stdint.h>

#ifdef __cplusplus
extern "C" {
#endif

/* The version of this header. */
#define HK_VERSION_MAJOR 0
#define HK_VERSION_MINOR 1
#define HK_VERSION_PATCH 0
#define HK_VERSION (HK_VERSION_MAJOR * 10000 + HK_VERSION_MINOR * 100 + HK_VERSION_PATCH)

#if defined(__GNUC__)
#define HK_API __attribute__((visibility("default")))
#define HK_CHECKED __attribute__((warn_unused_result))
#define HK_RESTRICT __restrict__
#else
#define HK_API
#define HK_CHECKED
#define HK_RESTRICT
#endif

/* The largest number of words in one call on an HK_HTS side, and in a drain. */
#define HK_MAX_WORDS 4095
/* The largest number of words in one put or take on an HK_MULTI side: as many as any ring holds. */
#define HK_MAX_WORDS_MULTI 1048575
/* The largest number of rings in one set. */
#define HK_MAX_RINGS 64
/* The largest count of numbers in one call on a pool. */
#define HK_MAX_NUMBERS 4096

enum hk_code {
    HK_OK = 0,
    HK_E_NOROOM = -1,   /* too little room for a put, or too few words for a take */
    HK_E_AGAIN = -2,    /* other threads came first on this side of the ring each time this call tried: call again */
    HK_E_PENDING = -3,  /* of a ring: the positions are reserved, an earlier call of another thread isn't finished yet:
                         * finish; of a forwarding table: nothing was changed, call again */
    HK_E_OPEN = -4,     /* the hand has an open span: finish it first; or it has an end of that side already */
    HK_E_NOTOPEN = -5,  /* the hand has no open span, or no end, of that side */
    HK_E_RING = -6,     /* there is no ring of this number */
    HK_E_COUNT = -7,    /* a count of 0, above the largest, or not that of the open span; no such port */
    HK_E_MODE = -8,     /* that side of the ring is not head/tail-sync */
    HK_E_NULL = -9,     /* a null pointer */
    HK_E_KIND = -10,    /* a handle of another kind, or a hand whose rings were closed */
    HK_E_SHARED = -12,  /* other handles share it */
    HK_E_MEMORY = -13,  /* out of memory */
    HK_E_PLAN = -14,    /* invalid size, mode or depth: no such rings, pool, table, port or window */
    HK_E_WORN = -15,    /* as many words as the ring's plan allows were put */
    HK_E_PARTS = -16,   /* the limit of 2^62 handles on one set of rings or one pool */
    HK_E_NOTYOURS = -17, /* a number that this handle of the pool doesn't have, has cached, or that is given twice */
    HK_E_DEPTH = -20,   /* a depth that is not 1 to 32 */
    HK_E_HOP = -21,     /* no such next hop, or one of 2^24 or more */
    HK_E_GROUPS = -22,  /* the routes would need more groups than the table may have */
    HK_E_NOROUTE = -23, /* no such route */
    HK_E_LATE = -24,    /* the number's turn has passed */
    HK_E_EARLY = -25,   /* the number is a whole window or more ahead, or is 2^64 - 1 */
    HK_E_DOUBLE = -26,  /* a word with this number is already waiting */
    HK_E_NOTHING = -27, /* the word whose turn it is hasn't arrived */
    HK_E_BEGUN = -28    /* memory was asked for already, or the program's own allocator is set */
};

/* The version of the library that the program runs with: HK_VERSION of the header it was built with. Any thread. */
HK_API uint32_t hk_version(void);
/* The text of a code, and its name as in "HK_E_NOROOM". Never null, and constant. A count of 1 or more has those of
 * HK_OK, and a number that is no code "no code of hokhtura". Any thread. */
HK_API const char *hk_strerror(int64_t code);
HK_API const char *hk_code_name(int64_t code);

/* ---- Memory of the program's own --------------------------------------------------------------------------------- */

/* An allocator, for huge pages or the memory of one NUMA node. Any thread may call it, and several at once.
 *
 * `allocate` returns a block of `size` bytes, or null. `size` is a multiple of 64, a cache line. A block must begin at
 * a multiple of 16; on a cache line it is faster.
 * `resize` returns such a block whose first `kept` bytes are those of the block `at`, and releases `at`; or null, and
 * leaves `at` as it is. `kept` is at most `size`. `resize` may be a null pointer: then blocks are allocated, copied and
 * released.
 * `release` takes back a block of the other two. */
typedef struct hk_allocator {
    void *(*allocate)(size_t size);
    void *(*resize)(void *at, size_t kept, size_t size);
    void (*release)(void *at);
} hk_allocator;

/* Sets the allocator of all handles, which is copied: once, before the first call marked [memory]. Without it memory
 * comes from aligned_alloc and goes back by free. Any thread. HK_E_NULL, also if `allocate` or `release` is null;
 * HK_E_BEGUN. */
HK_API HK_CHECKED int64_t hk_set_allocator(const hk_allocator *allocator);

/* ---- Rings ------------------------------------------------------------------------------------------------------- */

enum hk_mode {
    HK_MULTI = 0, /* any number of threads, as RTE_RING_SYNC_MT */
    HK_HTS = 1    /* head/tail-sync: one call of the side at a time, as RTE_RING_SYNC_MT_HTS; it allows peeks */
};

/* One ring of a set. exact = 1: it holds `size` words, 1 to 2^20 - 1, as with RING_F_EXACT_SZ. exact = 0: it has `size`
 * slots, a power of two from 2 to 2^20, and holds size - 1 words. `put` and `take` are the modes of its two sides.
 * `last` is the number of words after which the ring ends: a put returns HK_E_WORN then, and what is queued can still
 * be taken. 0 stands for the most that the modes allow, and `last` may not exceed that: 2^63 - 1 if both are HK_MULTI
 * (2,900 years at 100 million words a second), else 2^52 - 1 (14 years at ten million). `reserved` is 0. */
typedef struct hk_ring_plan {
    uint32_t size;
    uint32_t exact;
    uint32_t put;
    uint32_t take;
    uint64_t last;
    uint64_t reserved;
} hk_ring_plan;

/* One thread's hand on a set of rings, which have the numbers 0, 1 and so on. */
typedef struct hk_hand hk_hand;

/* [memory] Makes a set of `count` empty rings, 1 to HK_MAX_RINGS, and the first hand on it. HK_E_NULL, HK_E_PLAN,
 * HK_E_MEMORY. */
HK_API HK_CHECKED int64_t hk_hand_open(hk_hand **out, const hk_ring_plan *plans, size_t count);
/* [memory] Makes another hand on the same rings, for another thread. At most 2^62 can be made in all: freeing a hand
 * doesn't make room for another. HK_E_AGAIN: other threads were splitting hands of these rings each of the 1,024 times
 * that the call tried. HK_E_NULL, HK_E_KIND, HK_E_OPEN, HK_E_AGAIN, HK_E_PARTS, HK_E_MEMORY. */
HK_API HK_CHECKED int64_t hk_hand_split(hk_hand *hand, hk_hand **out);
/* Frees a hand, and with the last one the rings; null is allowed. Like every call that frees a handle (not those of
 * ends), it takes a handle of any kind. A span that the hand has open stays reserved forever: no word of an open put
 * comes out, and none that an open take showed comes out any more. From then on the calls of other threads on that side
 * return HK_E_AGAIN if it is head/tail-sync, and if it is multi HK_E_PENDING, or HK_E_NOROOM once no position is
 * left. */
HK_API void hk_hand_free(hk_hand *hand);

/* Puts n words on a ring, 1 to HK_MAX_WORDS, or to HK_MAX_WORDS_MULTI on a multi side: by bulk all of them or none, by
 * burst as many as there is room for. Returns how many were put: the first words of the array, in order, next to each
 * other on the ring.
 * HK_E_NULL, HK_E_KIND, HK_E_RING, HK_E_OPEN, HK_E_COUNT, HK_E_NOROOM, HK_E_WORN, HK_E_AGAIN: nothing was put. A burst
 * that would pass the ring's last position isn't shortened: it is HK_E_WORN.
 * HK_E_PENDING, only on a multi side: the positions are the hand's, the words are not put yet. Call
 * hk_ring_finish_put with the same words until it returns a count. */
HK_API HK_CHECKED int64_t hk_ring_try_put_bulk(hk_hand *hand, size_t ring, const uint64_t *words, size_t n);
HK_API HK_CHECKED int64_t hk_ring_try_put_burst(hk_hand *hand, size_t ring, const uint64_t *words, size_t n);
/* Takes n words from a ring, 1 to HK_MAX_WORDS, or to HK_MAX_WORDS_MULTI on a multi side, the oldest first: by bulk all
 * n or none, by burst at most n. Returns how many are at the front of the array; its other places are unchanged. Codes
 * as above, except HK_E_WORN, which no take returns.
 * HK_E_PENDING, only on a multi side: the words are at the front of the array, and still on the ring. Call
 * hk_ring_finish_take with the same n until it returns a count. */
HK_API HK_CHECKED int64_t hk_ring_try_take_bulk(hk_hand *hand, size_t ring, uint64_t *words, size_t n);
HK_API HK_CHECKED int64_t hk_ring_try_take_burst(hk_hand *hand, size_t ring, uint64_t *words, size_t n);
/* Puts a word, passed by value, on a ring: what hk_ring_try_put_bulk does with n = 1, in less time. Returns 1.
 * HK_E_NULL, HK_E_KIND, HK_E_RING, HK_E_OPEN, HK_E_NOROOM, HK_E_WORN, HK_E_AGAIN: nothing was put. HK_E_PENDING: call
 * hk_ring_finish_put with this word and n = 1. */
HK_API HK_CHECKED int64_t hk_ring_try_put_one(hk_hand *hand, size_t ring, uint64_t word);
/* Takes the oldest word from a ring: what hk_ring_try_take_bulk does with n = 1, in less time. Returns 1. HK_E_NULL,
 * HK_E_KIND, HK_E_RING, HK_E_OPEN, HK_E_NOROOM, HK_E_AGAIN: nothing was taken. HK_E_PENDING: the word is written, and
 * still on the ring. Call hk_ring_finish_take with n = 1. */
HK_API HK_CHECKED int64_t hk_ring_try_take_one(hk_hand *hand, size_t ring, uint64_t *word);

/* Peeks, only on head/tail-sync sides. A put reserves up to n positions; a take shows up to n words at the front of the
 * array without taking them. Both return how many. While a peek is open, other threads' calls on that side return
 * HK_E_AGAIN. If the hand is freed before the take is finished, the words that it showed are lost: no call takes them
 * any more, and they are only in the array. HK_E_NULL, HK_E_KIND, HK_E_RING, HK_E_MODE, HK_E_OPEN, HK_E_COUNT,
 * HK_E_NOROOM, HK_E_WORN (a put), HK_E_AGAIN; never HK_E_PENDING. */
HK_API HK_CHECKED int64_t hk_ring_peek_put_bulk(hk_hand *hand, size_t ring, size_t n);
HK_API HK_CHECKED int64_t hk_ring_peek_put_burst(hk_hand *hand, size_t ring, size_t n);
HK_API HK_CHECKED int64_t hk_ring_peek_take_bulk(hk_hand *hand, size_t ring, uint64_t *words, size_t n);
HK_API HK_CHECKED int64_t hk_ring_peek_take_burst(hk_hand *hand, size_t ring, uint64_t *words, size_t n);

/* Finishes the put that the hand has open. After HK_E_PENDING: give the words and the n of the first call. After a
 * peek: n is at most its count, the other positions are given up, and 0 gives up all. Returns how many words were put.
 * HK_E_NULL, HK_E_KIND, HK_E_NOTOPEN; HK_E_COUNT: n doesn't fit the open span; HK_E_PENDING: still open. */
HK_API HK_CHECKED int64_t hk_ring_finish_put(hk_hand *hand, const uint64_t *words, size_t n);
/* Finishes the take that the hand has open. After HK_E_PENDING: give the n of the first call. After a peek: takes
 * the first n of the words that it showed; the others stay on the ring, and 0 takes none. Returns how many were taken:
 * the first of those that are in the array already. Codes as above. */
HK_API HK_CHECKED int64_t hk_ring_finish_take(hk_hand *hand, size_t n);

/* Held sides, only head/tail-sync ones: a hand keeps its span open over several puts or takes, each of which is one
 * store. Other threads' calls on that side return HK_E_AGAIN meanwhile; those on the other side of the ring go on as
 * always. The ends below hold a side word by word.
 *
 * A put side is held from a peek to a finish. In between this call puts n words at the first positions of the span, and
 * keeps the others. Returns n. HK_E_NULL, HK_E_KIND, HK_E_NOTOPEN; HK_E_MODE: the side is multi; HK_E_COUNT: no
 * position would stay reserved, so hk_ring_finish_put has to put the last ones. */
HK_API HK_CHECKED int64_t hk_ring_advance_put(hk_hand *hand, const uint64_t *words, size_t n);
/* Holds a take side, with up to n of its words, which stay on the ring until they are taken. Returns how many.
 * HK_E_NULL, HK_E_KIND, HK_E_RING, HK_E_MODE, HK_E_OPEN, HK_E_COUNT, HK_E_NOROOM, HK_E_AGAIN. If the hand is freed
 * meanwhile, no call takes these words any more. */
HK_API HK_CHECKED int64_t hk_ring_hold_take_bulk(hk_hand *hand, size_t ring, size_t n);
HK_API HK_CHECKED int64_t hk_ring_hold_take_burst(hk_hand *hand, size_t ring, size_t n);
/* Takes the next n words of the held side, and keeps the others. Returns n. HK_E_NULL, HK_E_KIND, HK_E_NOTOPEN;
 * HK_E_COUNT: none would be left, so hk_ring_release_take has to take the last ones. */
HK_API HK_CHECKED int64_t hk_ring_advance_take(hk_hand *hand, uint64_t *words, size_t n);
/* Takes the next n words of the held side, or none, and gives it up: the others stay on the ring, in their order.
 * Returns n. HK_E_NULL, HK_E_KIND, HK_E_NOTOPEN, HK_E_COUNT. */
HK_API HK_CHECKED int64_t hk_ring_release_take(hk_hand *hand, uint64_t *words, size_t n);

/* 0 if the hand has no open span, 1 if it has one of a put, 2 of a take, 3 while it holds a take side. HK_E_NULL,
 * HK_E_KIND. */
HK_API int64_t hk_hand_span(const hk_hand *hand);
/* What the last put, take or peek left: how many more words there was room for, or how many more were queued; after
 * HK_E_NOROOM, how many in all. After HK_E_COUNT, HK_E_WORN and HK_E_AGAIN, and after a call of an end, it says
 * nothing; HK_E_PENDING counts as a put or a take; other codes leave it as it was. HK_E_NULL, HK_E_KIND. */
HK_API int64_t hk_hand_left(const hk_hand *hand);
/* How many words are queued on a ring, and how many more there is room for, as found by two loads, between which and
 * after which others may put or take: the numbers of rte_ring_count and rte_ring_free_count. Spans may be open, of this
 * hand too: words that an open take shows are queued until they are taken, and positions that an open put has reserved
 * are room until words are put there, so that another put may find less room. HK_E_NULL, HK_E_KIND, HK_E_RING. */
HK_API int64_t hk_ring_count(const hk_hand *hand, size_t ring);
HK_API int64_t hk_ring_room(const hk_hand *hand, size_t ring);

/* Closes the set of rings, by its only hand: from then on the hand is for hk_hand_drain and hk_hand_free, by the thread
 * that closed it. HK_E_NULL, HK_E_KIND, HK_E_OPEN. HK_E_SHARED while there are other hands. */
HK_API HK_CHECKED int64_t hk_hand_close(hk_hand *hand);
/* Takes at most n words, 0 to HK_MAX_WORDS, of those that are left on a ring of a closed set, the oldest first. Returns
 * how many: fewer than n if no more are left. HK_E_COUNT, HK_E_NULL, HK_E_KIND if the set isn't closed, HK_E_RING. */
HK_API HK_CHECKED int64_t hk_hand_drain(hk_hand *hand, size_t ring, uint64_t *words, size_t n);

/* ---- Ends: word by word ------------------------------------------------------------------------------------------ */

/* An end is one side of one ring, which a hand opens to move word by word. The ring is looked up once, when the end is
 * opened. If the last call of the hand was one by this end and saw more room, or words, and no other thread was on the
 * side since, a call reserves by one compare-and-exchange, without a load before it. So open each end by a hand of its
 * own. A hand has at most one end on each side. Its other calls go on as always, on the same ring or on others.
 * An end is part of its hand: a call on it is a call on the hand, by the thread that has the hand. It needs no memory,
 * and it ends with the hand: free it before, or don't use it afterwards. A call on a freed end returns HK_E_NOTOPEN
 * until the hand opens another one on that side. From then on the old pointer is the new end: don't use it. */
typedef struct hk_producer hk_producer;
typedef struct hk_consumer hk_consumer;

/* Opens an end that puts, or takes, on a ring. HK_E_NULL, HK_E_KIND, HK_E_RING; HK_E_OPEN: the hand has such an end. */
HK_API HK_CHECKED int64_t hk_producer_open(hk_producer **out, hk_hand *hand, size_t ring);
HK_API HK_CHECKED int64_t hk_consumer_open(hk_consumer **out, hk_hand *hand, size_t ring);
/* What hk_producer_put and hk_consumer_take are made of: `_once` tries, and `_again` goes on with the code that `_once`
 * returned. A program in another language calls both, `_again` only after a code below 0. `_once` returns 1, `_again`
 * HK_OK. HK_E_NULL, HK_E_KIND, HK_E_NOTOPEN, HK_E_OPEN, HK_E_NOROOM, HK_E_WORN (a put),
 * HK_E_AGAIN, HK_E_PENDING: what they mean, the next two calls say. */
HK_API HK_CHECKED int64_t hk_producer_put_once(hk_producer *end, uint64_t word);
HK_API HK_CHECKED int64_t hk_producer_put_again(hk_producer *end, uint64_t word, int64_t code);
HK_API HK_CHECKED int64_t hk_consumer_take_once(hk_consumer *end, uint64_t *word);
HK_API HK_CHECKED int64_t hk_consumer_take_again(hk_consumer *end, uint64_t *word, int64_t code);

/* Puts a word. Returns HK_OK. HK_E_NULL, HK_E_KIND; HK_E_NOTOPEN: the end was freed, and no other was opened on that
 * side; HK_E_OPEN: the hand has a span open; HK_E_NOROOM, HK_E_WORN, HK_E_AGAIN: nothing was put. HK_E_PENDING, only on
 * a multi side: call hk_producer_finish with this word.
 * An end that holds its side uses the span that the hand has open there, also that of a peek; only a span on another
 * ring or side is HK_E_OPEN then. */
static inline HK_CHECKED int64_t hk_producer_put(hk_producer *end, uint64_t word) {
    int64_t code = hk_producer_put_once(end, word);
    if (code >= 0) return HK_OK;
    return hk_producer_put_again(end, word, code);
}
/* Takes the oldest word. Returns HK_OK. HK_E_NULL, HK_E_KIND; HK_E_NOTOPEN: the end was freed, and no other was opened
 * on that side; HK_E_OPEN: the hand has a span open; HK_E_NOROOM, HK_E_AGAIN: nothing was taken. HK_E_PENDING, only on
 * a multi side: the word is written, and still on the ring. Call hk_consumer_finish.
 * An end that holds its side uses the span by which the hand holds that side, also that of hk_ring_hold_take_bulk or
 * _burst; a span on another ring or side, and that of a peek, is HK_E_OPEN then. */
static inline HK_CHECKED int64_t hk_consumer_take(hk_consumer *end, uint64_t *word) {
    int64_t code = hk_consumer_take_once(end, word);
    if (code >= 0) return HK_OK;
    return hk_consumer_take_again(end, word, code);
}

/* Finishes a put that returned HK_E_PENDING, with its word, or such a take. Call these only after HK_E_PENDING of this
 * end: they are hk_ring_finish_put and hk_ring_finish_take with n = 1, for the put or the take that the hand has open,
 * on any ring. They return HK_OK. HK_E_NULL, HK_E_KIND, HK_E_NOTOPEN; HK_E_COUNT: it has more words, on a multi side;
 * HK_E_PENDING: still open. */
HK_API HK_CHECKED int64_t hk_producer_finish(hk_producer *end, uint64_t word);
HK_API HK_CHECKED int64_t hk_consumer_finish(hk_consumer *end);

/* Lets an end hold its side, which has to be head/tail-sync, for a thread that uses it most of the time: the next word
 * reserves up to `most` positions, 1 to HK_MAX_WORDS, and each word then takes one store. When the positions run out,
 * the next word reserves again. Meanwhile the hand has an open span, calls of other threads on that side return
 * HK_E_AGAIN, and a thread that stops stops that side. Returns HK_OK. HK_E_NULL, HK_E_KIND, HK_E_NOTOPEN, HK_E_MODE,
 * HK_E_COUNT. */
HK_API HK_CHECKED int64_t hk_producer_hold(hk_producer *end, size_t most);
HK_API HK_CHECKED int64_t hk_consumer_hold(hk_consumer *end, size_t most);
/* Gives up a side that an end holds: positions without a word, and words that weren't taken, are free for all threads
 * again. Each word is a call of its own again. This settles the span that the hand has open on that side of that ring,
 * also one of hk_ring_peek_put_bulk or hk_ring_hold_take_bulk or of their bursts; other spans stay open, and all do if
 * the end doesn't hold its side. Returns HK_OK, also if the end holds nothing. HK_E_NULL, HK_E_KIND, HK_E_NOTOPEN. */
HK_API HK_CHECKED int64_t hk_producer_release(hk_producer *end);
HK_API HK_CHECKED int64_t hk_consumer_release(hk_consumer *end);
/* Frees an end: gives up what it holds, as a release; null is allowed. The hand may open another one then. */
HK_API void hk_producer_free(hk_producer *end);
HK_API void hk_consumer_free(hk_consumer *end);

/* ---- Pools of numbers -------------------------------------------------------------------------------------------- */

/* A handle on a pool of the numbers 0 to n - 1, which may stand for buffers, as with rte_mempool. Each handle has a
 * cache of its own in front of the free ring, which all handles of the pool share.
 *
 * Each number is in one place at any time: free; on a ring of the pool; or with one handle, in its cache or got by
 * its caller. A call accepts only numbers that its handle has and that aren't cached, so none is put twice or by
 * another handle. The sides of all rings of a pool are head/tail-sync, so no call is pending: if other threads come
 * first, a call tries a ring 1,024 times at most, the first try included, and then returns HK_E_AGAIN. If the free ring
 * has too few numbers to fill the cache too, a get asks it once more, with as many tries, only for those that it needs.
 * A ring of a pool ends after 2^51 - 1 numbers (7 years at ten million a second): calls that put numbers on it return
 * HK_E_WORN then. If a call returns a code, nothing was changed: no number, no cache, no array. */
typedef struct hk_pool hk_pool;

/* [memory] Makes a pool of n numbers, 1 to 2^20 - 1, all of them free, and the first handle on it. Each handle has a
 * cache of this size, 0 to 512; `rings` rings, 0 to 63, pass numbers from one handle to another, and each has room for
 * all of them. HK_E_NULL, HK_E_PLAN, HK_E_MEMORY. */
HK_API HK_CHECKED int64_t hk_pool_open(hk_pool **out, uint32_t n, uint32_t cache, uint32_t rings);
/* [memory] Makes another handle on the same pool, for another thread. It has no numbers, and a cache of the same size.
 * The first split takes 62 times n bytes of memory, and each later one twice n bytes on average. HK_E_AGAIN: as of
 * `hk_hand_split`. HK_E_NULL, HK_E_KIND, HK_E_AGAIN, HK_E_PARTS, HK_E_MEMORY. */
HK_API HK_CHECKED int64_t hk_pool_split(hk_pool *pool, hk_pool **out);
/* Frees a handle, and with the last one the pool; null is allowed. What is cached is first put on the free ring, by one
 * hk_pool_try_flush. If that returns HK_E_AGAIN or HK_E_WORN, these numbers are lost to the other handles: if other
 * threads use the pool meanwhile, first flush until it succeeds. Numbers that the handle got or received, and that
 * weren't put back, are lost to the others in any case. */
HK_API void hk_pool_free(hk_pool *pool);

/* Gets n numbers, 1 to HK_MAX_NUMBERS, all or none: from the cache, the newest first; if it has too few, the others
 * from the free ring, the oldest first. If n is at most 512, the cache is then filled to its size from that ring, if
 * the ring has enough. Returns n. HK_E_NULL, HK_E_KIND, HK_E_COUNT. HK_E_NOROOM: the free ring has too few; numbers may
 * be in the caches of other handles. HK_E_AGAIN. */
HK_API HK_CHECKED int64_t hk_pool_try_get_bulk(hk_pool *pool, uint32_t *numbers, size_t n);
/* Puts n numbers back, 1 to HK_MAX_NUMBERS, all or none: into the cache; if that would pass one and a half times its
 * size, they go to the free ring, and the cache stays as it is. Returns n. HK_E_NULL, HK_E_KIND, HK_E_COUNT.
 * HK_E_NOTYOURS: one of them was never got by this handle, was put or sent since, is out of range, or is given twice.
 * HK_E_WORN. HK_E_AGAIN: only if the free ring was needed. */
HK_API HK_CHECKED int64_t hk_pool_try_put_bulk(hk_pool *pool, const uint32_t *numbers, size_t n);
/* Puts all that is cached on the free ring, the oldest first. Returns how many. HK_E_NULL, HK_E_KIND, HK_E_WORN,
 * HK_E_AGAIN. */
HK_API HK_CHECKED int64_t hk_pool_try_flush(hk_pool *pool);
/* How many numbers are cached. HK_E_NULL, HK_E_KIND. */
HK_API int64_t hk_pool_cached(const hk_pool *pool);
/* 1 if the handle has this number, cached or not, and otherwise 0. HK_E_NULL, HK_E_KIND. */
HK_API int64_t hk_pool_owns(const hk_pool *pool, uint32_t number);
/* Puts n numbers, 1 to HK_MAX_NUMBERS, on a ring of the pool, 0 to rings - 1: by bulk all of them or none, by burst as
 * many of the first ones as there is room for. A ring of a pool has room for all its numbers, so a burst sends all n,
 * too. Then the handle doesn't have them any more; the handle that takes them from the ring has them. Returns how many
 * were sent. HK_E_NULL, HK_E_KIND, HK_E_RING, HK_E_COUNT, HK_E_NOTYOURS, HK_E_WORN, HK_E_AGAIN. */
HK_API HK_CHECKED int64_t hk_pool_try_send_bulk(hk_pool *pool, size_t ring, const uint32_t *numbers, size_t n);
HK_API HK_CHECKED int64_t hk_pool_try_send_burst(hk_pool *pool, size_t ring, const uint32_t *numbers, size_t n);
/* Takes n numbers, 1 to HK_MAX_NUMBERS, from a ring of the pool, the oldest first: by bulk all n or none, by burst at
 * most n, as many as are queued. The handle has them then, and they aren't cached. Returns how many are at the front of
 * the array; its other places are unchanged. HK_E_NULL, HK_E_KIND, HK_E_RING, HK_E_COUNT. HK_E_NOROOM: fewer than n are
 * queued, or for a burst none. HK_E_AGAIN. */
HK_API HK_CHECKED int64_t hk_pool_try_receive_bulk(hk_pool *pool, size_t ring, uint32_t *numbers, size_t n);
HK_API HK_CHECKED int64_t hk_pool_try_receive_burst(hk_pool *pool, size_t ring, uint32_t *numbers, size_t n);
/* How many numbers are queued on a ring of the pool, 0 to rings - 1, and how many more fit, as found by two loads,
 * between which and after which others may send or receive. HK_E_NULL, HK_E_KIND, HK_E_RING. */
HK_API int64_t hk_pool_ring_count(const hk_pool *pool, size_t ring);
HK_API int64_t hk_pool_ring_room(const hk_pool *pool, size_t ring);
/* How many numbers are on the free ring, as found by two loads; those in the caches of handles aren't. HK_E_NULL,
 * HK_E_KIND. */
HK_API int64_t hk_pool_free_count(const hk_pool *pool);

/* ---- Routes by longest prefix ------------------------------------------------------------------------------------ */

/* A handle on a table of routes to IPv4 prefixes. Addresses are numbers: 10.0.0.1 is 0x0a000001. */
typedef struct hk_routes hk_routes;

/* [memory] Makes a table without routes: its first level has 2^bits entries, bits 16 or 24, and it has at most
 * `groups` groups of 2^(32 - bits) entries. HK_E_NULL, HK_E_PLAN, HK_E_MEMORY. */
HK_API HK_CHECKED int64_t hk_routes_open(hk_routes **out, uint32_t bits, uint32_t groups);
/* [memory] Makes another handle on the same table, for another thread's lookups. HK_E_NULL, HK_E_KIND, HK_E_MEMORY. */
HK_API HK_CHECKED int64_t hk_routes_share(hk_routes *routes, hk_routes **out);
/* [memory] Adds a route for the first `depth` bits of an address, 1 to 32, or changes its next hop, below 2^24.
 * HK_E_NULL, HK_E_KIND; HK_E_SHARED while the table has other handles; HK_E_DEPTH, HK_E_HOP, HK_E_GROUPS,
 * HK_E_MEMORY. */
HK_API HK_CHECKED int64_t hk_routes_add(hk_routes *routes, uint32_t address, uint32_t depth, uint32_t hop);
/* Removes a route. HK_E_NULL, HK_E_KIND, HK_E_SHARED, HK_E_DEPTH, HK_E_NOROUTE. */
HK_API HK_CHECKED int64_t hk_routes_remove(hk_routes *routes, uint32_t address, uint32_t depth);
/* The next hop of the longest route that covers an address. HK_E_NULL, HK_E_KIND, HK_E_NOROUTE. */
HK_API HK_CHECKED int64_t hk_routes_lookup(const hk_routes *routes, uint32_t address);
/* The same for n addresses: hops[i] is the next hop for addresses[i], or HK_NO_HOP. HK_E_COUNT: n is above
 * SIZE_MAX / 8. HK_E_NULL, HK_E_KIND. */
#define HK_NO_HOP UINT32_MAX
HK_API HK_CHECKED int64_t hk_routes_lookup_bulk(const hk_routes *routes, const uint32_t *HK_RESTRICT addresses,
                                                uint32_t *HK_RESTRICT hops, size_t n);
/* Frees a handle, and with the last one the table; null is allowed. */
HK_API void hk_routes_free(hk_routes *routes);

/* ---- Forwarding tables: routes that change while lookups run ----------------------------------------------------- */

/* The writer's handle on a forwarding table: routes to the numbers of next hops, the next hops, and the ports. One
 * thread at a time changes it. Readers see no change before hk_fib_publish, and then see all changes at once. No call
 * waits: while a reader may still use the version before the last one, changes and hk_fib_publish are refused with
 * HK_E_PENDING and change nothing; call again. They are refused in the same way while the second copy of the routes
 * gets no memory for the last change: hk_fib_settle then returns HK_E_MEMORY. */
typedef struct hk_fib hk_fib;

/* A reader's handle, for one thread at a time. It looks addresses up and forwards frames. Each call uses one version of
 * the table, which is no older than any that this handle used: the last one that was published, or the one that the
 * handle holds. A reader neither waits nor takes memory. */
typedef struct hk_forward hk_forward;

/* The largest number of ports, of next hops, and of frames in one burst. */
#define HK_MAX_PORTS 256
#define HK_MAX_HOPS 16777216
#define HK_MAX_FRAMES 64

/* A port: its hardware address, its IPv4 address as a number, and how many bits of that are the prefix of the port's
 * net, 1 to 32; with 0 the port has no IPv4 address. `zero` is ignored. */
typedef struct hk_port {
    uint32_t address;
    uint8_t mac[6];
    uint8_t depth;
    uint8_t zero;
} hk_port;

/* Where a hop number of the routes leads: the number of a port, and the hardware address of the neighbour on it. A hop
 * number without a next hop, or whose port isn't there, leads nowhere: so routes for the router's own addresses need no
 * port, and a table that is only looked up needs neither ports nor next hops. */
typedef struct hk_next_hop {
    uint32_t port;
    uint8_t to[6];
} hk_next_hop;

/* A route: the first `depth` bits of an address, whose other bits are 0, and the number of its next hop. */
typedef struct hk_fib_route {
    uint32_t address;
    uint32_t depth;
    uint32_t hop;
} hk_fib_route;

/* [memory] Makes a table without routes and with these ports and next hops, which are copied: 0 to HK_MAX_PORTS and 0
 * to HK_MAX_HOPS. Its first level has 2^bits entries, bits 16 or 24, and it has at most `groups` groups of 2^(32 -
 * bits) entries. `ports` and `hops` may be null where there are none. HK_E_NULL; HK_E_PLAN: other bits, too many, or a
 * depth above 32; HK_E_MEMORY. */
HK_API HK_CHECKED int64_t hk_fib_open(hk_fib **out, uint32_t bits, uint32_t groups, const hk_port *ports,
                                      size_t port_count, const hk_next_hop *hops, size_t hop_count);
/* [memory] The same, with the first level of both copies written when the table is made, 4 bytes for each entry in each
 * copy. hk_fib_open's table takes memory only for the parts of it that a route covers; a lookup in this one has a
 * branch less. Codes as above. */
HK_API HK_CHECKED int64_t hk_fib_open_whole(hk_fib **out, uint32_t bits, uint32_t groups, const hk_port *ports,
                                            size_t port_count, const hk_next_hop *hops, size_t hop_count);
/* [memory] Makes a reader, which may go to another thread. HK_E_NULL, HK_E_KIND, HK_E_MEMORY. */
HK_API HK_CHECKED int64_t hk_fib_share(hk_fib *fib, hk_forward **out);
/* [memory] Prepares a route for the first `depth` bits of an address, 1 to 32, or another next hop of it, whose number
 * is below 2^24. HK_E_NULL, HK_E_KIND, HK_E_PENDING, HK_E_DEPTH, HK_E_HOP, HK_E_GROUPS, HK_E_MEMORY. */
HK_API HK_CHECKED int64_t hk_fib_add(hk_fib *fib, uint32_t address, uint32_t depth, uint32_t hop);
/* [memory] Prepares the removal of a route. HK_E_NULL, HK_E_KIND, HK_E_PENDING, HK_E_DEPTH, HK_E_NOROUTE,
 * HK_E_MEMORY. */
HK_API HK_CHECKED int64_t hk_fib_remove(hk_fib *fib, uint32_t address, uint32_t depth);
/* [memory] Prepares the removal of all routes. HK_E_NULL, HK_E_KIND, HK_E_PENDING, HK_E_MEMORY. */
HK_API HK_CHECKED int64_t hk_fib_clear(hk_fib *fib);
/* [memory] Prepares another next hop for a number below the count that the table was opened with. HK_E_NULL, HK_E_KIND,
 * HK_E_PENDING, HK_E_HOP: there is no such number; HK_E_MEMORY. */
HK_API HK_CHECKED int64_t hk_fib_set_hop(hk_fib *fib, uint32_t number, const hk_next_hop *hop);
/* [memory] Prepares another port for a number below the count that the table was opened with. HK_E_NULL, HK_E_KIND,
 * HK_E_PLAN: a depth above 32; HK_E_PENDING, HK_E_COUNT: there is no such number; HK_E_MEMORY. */
HK_API HK_CHECKED int64_t hk_fib_set_port(hk_fib *fib, uint32_t number, const hk_port *port);
/* [memory] Publishes all prepared changes at once, as a new version. Each reader sees it from its next call on, or, if
 * it holds a version, from its first call after hk_forward_release. HK_E_NULL, HK_E_KIND; HK_E_PENDING: the last
 * version isn't settled; HK_E_MEMORY. */
HK_API HK_CHECKED int64_t hk_fib_publish(hk_fib *fib);
/* [memory] Settles the last version: takes back the copy that readers had before, and repeats the changes in it. Each
 * call that prepares a change does so first. HK_OK: changes can be made. HK_E_NULL, HK_E_KIND; HK_E_PENDING: a reader
 * still uses the previous version in a call, or holds it; HK_E_MEMORY. Call again. */
HK_API HK_CHECKED int64_t hk_fib_settle(hk_fib *fib);
/* How many changes readers don't see yet. HK_E_NULL, HK_E_KIND. */
HK_API HK_CHECKED int64_t hk_fib_pending(const hk_fib *fib);
/* The number of the next hop of exactly this route, with what is prepared. HK_E_NULL, HK_E_KIND, HK_E_DEPTH,
 * HK_E_NOROUTE. */
HK_API HK_CHECKED int64_t hk_fib_get(const hk_fib *fib, uint32_t address, uint32_t depth);
/* How many routes there are, with what is prepared. HK_E_NULL, HK_E_KIND. */
HK_API HK_CHECKED int64_t hk_fib_count(const hk_fib *fib);
/* Writes the first route, with what is prepared, that isn't before this address and depth, in the order of addresses
 * and then of depths. A walk over all routes begins with 0 and 0, and goes on with the address of the route found and
 * its depth + 1. HK_E_NULL, HK_E_KIND; HK_E_NOROUTE: there is none. */
HK_API HK_CHECKED int64_t hk_fib_walk(const hk_fib *fib, uint32_t address, uint32_t depth, hk_fib_route *route);
/* Frees the writer's handle; null is allowed. Readers keep the last version. */
HK_API void hk_fib_free(hk_fib *fib);

/* Holds the last version: the calls of this handle use it until hk_forward_release, and cost less, since none of them
 * has to take the table and give it back. If one is held already, it stays. While a reader holds the version before the
 * last one, hk_fib_settle returns HK_E_PENDING. So release every few bursts and before the thread waits or sleeps,
 * where DPDK's programs report a quiescent state to rte_rcu_qsbr. HK_E_NULL, HK_E_KIND. */
HK_API HK_CHECKED int64_t hk_forward_hold(hk_forward *forward);
/* Releases the held version, if any: the next call uses the one published last. HK_E_NULL, HK_E_KIND. */
HK_API HK_CHECKED int64_t hk_forward_release(hk_forward *forward);
/* The number of the next hop of the longest published route that covers an address. HK_E_NULL, HK_E_KIND, HK_E_NOROUTE.
 * */
HK_API HK_CHECKED int64_t hk_forward_lookup(hk_forward *forward, uint32_t address);
/* The same for n addresses, all in one version: hops[i] is the next hop for addresses[i], or HK_NO_HOP. HK_E_COUNT: n
 * is above SIZE_MAX / 8. HK_E_NULL, HK_E_KIND. */
HK_API HK_CHECKED int64_t hk_forward_lookup_bulk(hk_forward *forward, const uint32_t *HK_RESTRICT addresses,
                                                 uint32_t *HK_RESTRICT hops, size_t n);

/* ---- Forwarding of frames ---------------------------------------------------------------------------------------- */

/* A reader forwards Ethernet frames with IPv4 packets where they lie, by the routes, next hops and ports of one
 * version. What becomes of a frame is decided by its bytes and its length on the wire: it is dropped for the first
 * reason of `enum hk_drop` that holds, and is unchanged then; or it is sent. A frame that is sent has the address of
 * the next hop and that of the port it leaves through, a time to live one less, and a correct checksum; every other
 * byte is as it was, and so an 802.1Q tag is kept. The caller sends it, or drops it.
 *
 * The rest of a router is up to the caller: hk_forward_class tells which frames are for the router itself and which
 * must not be forwarded; the reasons say when ICMP is due (RFC 1812 section 4.3.3); the caller compares the length of a
 * frame with the MTU of the port that it leaves through. */

/* A frame: `held` bytes of it are there, at an address that isn't null, and it had `wire` bytes, at least `held`. */
typedef struct hk_frame {
    uint8_t *bytes;
    size_t held;
    size_t wire;
} hk_frame;

/* A verdict is the number of a port, plus HK_TAGGED if the frame has an 802.1Q tag; or HK_DROP and the number of a
 * reason. */
#define HK_TAGGED 0x10000
#define HK_DROP 0x20000
enum hk_drop {
    HK_DROP_SHORT = HK_DROP + 1,       /* the bytes end before the type, or before the end of the IPv4 header */
    HK_DROP_NOTIPV4 = HK_DROP + 2,     /* the type isn't that of IPv4 (RFC 894) */
    HK_DROP_BADHEADER = HK_DROP + 3,   /* the version is not 4, or the header shorter than 20 bytes (RFC 1812, 5.2.2) */
    HK_DROP_BADLENGTH = HK_DROP + 4,   /* the total length is below the header's, or above that on the wire (5.2.2) */
    HK_DROP_BADCHECKSUM = HK_DROP + 5, /* the header's checksum is wrong (5.2.2) */
    HK_DROP_EXPIRED = HK_DROP + 6,     /* the time to live is 0 or 1 (5.3.1) */
    HK_DROP_NOROUTE = HK_DROP + 7      /* no route covers the destination, or its hop leads nowhere (5.2.4) */
};

/* What a frame is addressed to: the bits of hk_forward_class. */
#define HK_TO_PORT 1       /* the hardware address of the port that it came in through (IEEE 802.3, 3.2.4) */
#define HK_TO_GROUP 2      /* a link-layer multicast or broadcast: not to be forwarded (RFC 1812, 5.3.4) */
#define HK_TO_OWN 4        /* the IPv4 address of one of the ports: to be delivered here (RFC 1812, 5.2.3) */
#define HK_TO_MULTICAST 8  /* a host group, 224.0.0.0 to 239.255.255.255 (RFC 1112, 4; RFC 1122, 3.2.1.3) */
#define HK_TO_BROADCAST 16 /* 255.255.255.255, or all hosts of a port's net (RFC 1812, 5.3.5; RFC 1122, 3.2.1.3) */

/* Forwards a frame of `held` bytes that had `wire` bytes on the wire. Returns the verdict; if the frame is sent, it is
 * rewritten in place. HK_E_NULL; HK_E_COUNT: `wire` is below `held`; HK_E_KIND. */
HK_API HK_CHECKED int64_t hk_forward_frame(hk_forward *forward, uint8_t *bytes, size_t held, size_t wire);
/* Forwards n frames, 1 to HK_MAX_FRAMES, with their lookups together: verdicts[i] is that of frames[i]. Returns how
 * many of them are sent. HK_E_NULL, also if the bytes of a frame are null; HK_E_COUNT, also if a frame has more bytes
 * than it had on the wire; HK_E_KIND. */
HK_API HK_CHECKED int64_t hk_forward_burst(hk_forward *forward, const hk_frame *HK_RESTRICT frames,
                                           uint32_t *HK_RESTRICT verdicts, size_t n);
/* The verdict on a frame, which stays as it is. HK_E_NULL; HK_E_COUNT: `wire` is below `held`; HK_E_KIND. */
HK_API HK_CHECKED int64_t hk_forward_verdict(hk_forward *forward, const uint8_t *bytes, size_t held, size_t wire);
/* What a frame received on a port, 0 to the number of ports - 1, is addressed to: the sum of the HK_TO_ bits that hold.
 * Those of the IPv4 destination are 0 if the frame has no IPv4 packet; nothing else of its header is tested. HK_E_NULL,
 * HK_E_KIND; HK_E_COUNT: there is no such port. */
HK_API HK_CHECKED int64_t hk_forward_class(hk_forward *forward, size_t port, const uint8_t *bytes, size_t held);
/* Frees a reader's handle; null is allowed. */
HK_API void hk_forward_free(hk_forward *forward);

/* ---- Reorder windows --------------------------------------------------------------------------------------------- */

/* A window that returns words in the order of their numbers. */
typedef struct hk_reorder hk_reorder;

/* [memory] Makes a window of `size` numbers, 1 to 65,536, that waits for number 0. HK_E_NULL, HK_E_PLAN,
 * HK_E_MEMORY. */
HK_API HK_CHECKED int64_t hk_reorder_open(hk_reorder **out, uint32_t size);
/* Inserts a word under its number. HK_E_NULL, HK_E_KIND, HK_E_LATE, HK_E_EARLY, HK_E_DOUBLE. */
HK_API HK_CHECKED int64_t hk_reorder_insert(hk_reorder *window, uint64_t number, uint64_t word);
/* Takes the word whose turn it is. HK_E_NULL, HK_E_KIND; HK_E_NOTHING if it hasn't arrived: the place is unchanged. */
HK_API HK_CHECKED int64_t hk_reorder_pop(hk_reorder *window, uint64_t *word);
/* Takes at most n words, 0 to HK_MAX_WORDS, each in its turn. Returns how many are at the front of the array; its other
 * places are unchanged. HK_E_COUNT, HK_E_NULL, HK_E_KIND; HK_E_NOTHING, if n is 1 or more and the word whose turn it is
 * hasn't arrived. */
HK_API HK_CHECKED int64_t hk_reorder_drain(hk_reorder *window, uint64_t *words, size_t n);
/* Writes the number whose turn it is. HK_E_NULL, HK_E_KIND. */
HK_API HK_CHECKED int64_t hk_reorder_next(const hk_reorder *window, uint64_t *number);
/* Stops waiting for numbers below this one: the turn moves to it, or to the lowest number of a waiting word if that is
 * lower, and never back. No word is lost. HK_E_NULL, HK_E_KIND. */
HK_API HK_CHECKED int64_t hk_reorder_skip(hk_reorder *window, uint64_t number);
/* Frees a window with its words; null is allowed. */
HK_API void hk_reorder_free(hk_reorder *window);

#ifdef __cplusplus
}
#endif
#endif
