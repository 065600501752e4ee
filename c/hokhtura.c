/* The calls of hokhtura.h over the proved exports hkx_*. Handles, arrays and counts are checked here, cells of handles
 * are made and freed, and a half of a call on a ring that failed because of another thread is tried again. Everything
 * else is done there.
 *
 * A handle is the address of a cell, and the cell holds the address of a box of the proved side. An export empties the
 * cell, works, and puts the same address back. The cell lives as long as the handle. So a call needs no cell on its
 * stack, and most calls are a test for null and a jump to their export. */
#include "hokhtura.h"
#include "hk_heap.h"
#include "hk_marks.h"

#include <stdbool.h>

struct hk_cell {
    void *at;
};

/* The cell of a handle that isn't null. After a call with a const handle the cell is what it was. */
#define CELL(handle) ((struct hk_cell *)(handle))

/* Calls an export with the handle as its first argument; HK_E_NULL if it is null. */
#define CALL(export, handle) ((handle) ? export(CELL(handle)) : HK_E_NULL)
#define CALL_WITH(export, handle, ...) ((handle) ? export(CELL(handle), __VA_ARGS__) : HK_E_NULL)

/* The exports, with the names that their parameters have there. A slice there is an array and its length here. */
extern int64_t hkx_free(struct hk_cell *h);
extern int64_t hkx_hand_open(struct hk_cell *h, const hk_ring_plan *asked, size_t asked_length);
extern int64_t hkx_hand_split(struct hk_cell *h, struct hk_cell *second);
extern int64_t hkx_hand_span(struct hk_cell *h);
extern int64_t hkx_hand_left(struct hk_cell *h);
extern int64_t hkx_hand_close(struct hk_cell *h);
extern int64_t hkx_hand_drain(struct hk_cell *h, size_t ring, uint64_t *words, size_t words_length);
extern int64_t hkx_ring_put(struct hk_cell *h, size_t ring, const uint64_t *words, size_t words_length, bool bulk);
extern int64_t hkx_ring_take(struct hk_cell *h, size_t ring, uint64_t *words, size_t words_length, bool bulk);
extern int64_t hkx_ring_put_one(struct hk_cell *h, size_t ring, uint64_t bits);
extern int64_t hkx_ring_take_one(struct hk_cell *h, size_t ring, uint64_t *word);
extern int64_t hkx_ring_peek_put(struct hk_cell *h, size_t ring, size_t n, bool bulk);
extern int64_t hkx_ring_peek_take(struct hk_cell *h, size_t ring, uint64_t *words, size_t words_length, bool bulk);
extern int64_t hkx_ring_finish_put(struct hk_cell *h, const uint64_t *words, size_t words_length);
extern int64_t hkx_ring_finish_take(struct hk_cell *h, size_t n);
extern int64_t hkx_ring_advance_put(struct hk_cell *h, const uint64_t *words, size_t words_length);
extern int64_t hkx_ring_hold_take(struct hk_cell *h, size_t ring, size_t n, bool bulk);
extern int64_t hkx_ring_advance_take(struct hk_cell *h, uint64_t *words, size_t words_length);
extern int64_t hkx_ring_release_take(struct hk_cell *h, uint64_t *words, size_t words_length);
extern int64_t hkx_ring_room(struct hk_cell *h, size_t ring, bool queued);
extern int64_t hkx_end_open(struct hk_cell *h, size_t ring, bool takes);
extern int64_t hkx_end_put(struct hk_cell *h, uint64_t bits);
extern int64_t hkx_end_take(struct hk_cell *h, uint64_t *word);
extern int64_t hkx_end_hold(struct hk_cell *h, size_t most, bool takes);
extern int64_t hkx_end_release(struct hk_cell *h, bool takes, bool closes);
extern int64_t hkx_pool_open(struct hk_cell *h, uint32_t n, uint32_t size, uint32_t rings);
extern int64_t hkx_pool_split(struct hk_cell *h, struct hk_cell *second);
extern int64_t hkx_pool_get(struct hk_cell *h, uint32_t *into, size_t into_length);
extern int64_t hkx_pool_put(struct hk_cell *h, const uint32_t *items, size_t items_length);
extern int64_t hkx_pool_flush(struct hk_cell *h);
extern int64_t hkx_pool_cached(struct hk_cell *h);
extern int64_t hkx_pool_owns(struct hk_cell *h, uint32_t number);
extern int64_t hkx_pool_send(struct hk_cell *h, size_t ring, const uint32_t *items, size_t items_length, bool bulk);
extern int64_t hkx_pool_receive(struct hk_cell *h, size_t ring, uint32_t *into, size_t into_length, bool bulk);
extern int64_t hkx_pool_room(struct hk_cell *h, size_t ring, bool queued);
extern int64_t hkx_pool_free_count(struct hk_cell *h);
extern int64_t hkx_routes_open(struct hk_cell *h, uint32_t bits, uint32_t groups);
extern int64_t hkx_routes_share(struct hk_cell *h, struct hk_cell *second);
extern int64_t hkx_routes_add(struct hk_cell *h, uint32_t address, uint32_t depth, uint32_t hop);
extern int64_t hkx_routes_remove(struct hk_cell *h, uint32_t address, uint32_t depth);
extern int64_t hkx_routes_lookup(struct hk_cell *h, uint32_t address);
extern int64_t hkx_routes_lookup_bulk(struct hk_cell *h, const uint32_t *addresses, size_t addresses_length,
    uint32_t *hops, size_t hops_length);
extern int64_t hkx_fib_open(struct hk_cell *h, bool whole, uint32_t bits, uint32_t groups, const hk_port *ports,
    size_t ports_length, const hk_next_hop *hops, size_t hops_length);
extern int64_t hkx_fib_share(struct hk_cell *h, struct hk_cell *second);
extern int64_t hkx_fib_add(struct hk_cell *h, uint32_t address, uint32_t depth, uint32_t hop);
extern int64_t hkx_fib_remove(struct hk_cell *h, uint32_t address, uint32_t depth);
extern int64_t hkx_fib_clear(struct hk_cell *h);
extern int64_t hkx_fib_set_hop(struct hk_cell *h, uint32_t number, const hk_next_hop *hop);
extern int64_t hkx_fib_set_port(struct hk_cell *h, uint32_t number, const hk_port *port);
extern int64_t hkx_fib_publish(struct hk_cell *h);
extern int64_t hkx_fib_settle(struct hk_cell *h);
extern int64_t hkx_fib_pending(struct hk_cell *h);
extern int64_t hkx_fib_get(struct hk_cell *h, uint32_t address, uint32_t depth);
extern int64_t hkx_fib_count(struct hk_cell *h);
extern int64_t hkx_fib_walk(struct hk_cell *h, uint32_t address, uint32_t depth, hk_fib_route *place);
extern int64_t hkx_forward_hold(struct hk_cell *h);
extern int64_t hkx_forward_release(struct hk_cell *h);
extern int64_t hkx_forward_lookup(struct hk_cell *h, uint32_t address);
extern int64_t hkx_forward_lookup_bulk(struct hk_cell *h, const uint32_t *addresses, size_t addresses_length,
    uint32_t *hops, size_t hops_length);
extern int64_t hkx_forward_frame(struct hk_cell *h, uint8_t *frame, size_t frame_length, size_t wire);
extern int64_t hkx_forward_burst(struct hk_cell *h, hk_frame *frames, size_t frames_length, uint32_t *verdicts,
    size_t verdicts_length);
extern int64_t hkx_forward_verdict(struct hk_cell *h, const uint8_t *frame, size_t frame_length, size_t wire);
extern int64_t hkx_forward_class(struct hk_cell *h, size_t port, const uint8_t *frame, size_t frame_length);
extern int64_t hkx_reorder_open(struct hk_cell *h, uint32_t size);
extern int64_t hkx_reorder_insert(struct hk_cell *h, uint64_t number, uint64_t word);
extern int64_t hkx_reorder_drain(struct hk_cell *h, uint64_t *words, size_t words_length);
extern int64_t hkx_reorder_next(struct hk_cell *h, uint64_t *number);
extern int64_t hkx_reorder_skip(struct hk_cell *h, uint64_t number);

/* An array of no words has an address, too. */
static uint64_t no_words[1];

/* Checks the array of a call on n words, of at most so many: 0 if the call may go on, else the code to return. */
static inline int64_t refused_above(size_t most, const void *words, size_t n) {
    if (n > most) return HK_E_COUNT;
    return words || n == 0 ? HK_OK : HK_E_NULL;
}

static inline int64_t refused(const void *words, size_t n) {
    return refused_above(HK_MAX_WORDS, words, n);
}

/* ---- Handles ---- */

/* An empty cell, or null: out of memory. */
static struct hk_cell *new_cell(void) {
    struct hk_memory memory = rattle_alloc(sizeof(struct hk_cell), _Alignof(struct hk_cell));
    if (!memory.is) return NULL;
    struct hk_cell *cell = memory.at;
    cell->at = NULL;
    return cell;
}

/* Makes a handle: `call` fills the cell and returns a code. Then `*out` is the new handle, or the cell is freed. */
#define MAKE(out, cell, call)                 \
    struct hk_cell *cell = new_cell();        \
    if (!cell) return HK_E_MEMORY;            \
    int64_t code = (call);                    \
    if (code >= 0) *(out) = (void *)cell;     \
    else rattle_dealloc(cell);                \
    return code;

/* Frees a handle, which may be null or of any kind. */
static void free_handle(void *handle) {
    if (!handle) return;
    (void)hkx_free(CELL(handle));
    rattle_dealloc(handle);
}

/* ---- Rings ---- */

int64_t hk_hand_open(hk_hand **out, const hk_ring_plan *plans, size_t count) {
    if (!out || !plans) return HK_E_NULL;
    if (count > HK_MAX_RINGS) return HK_E_PLAN;
    MAKE(out, cell, hkx_hand_open(cell, plans, count))
}

static int64_t split(hk_hand *hand, struct hk_cell *cell) {
    begins_split();
    int64_t code = hkx_hand_split(CELL(hand), cell);
    ends_split();
    return code;
}

int64_t hk_hand_split(hk_hand *hand, hk_hand **out) {
    if (!hand || !out) return HK_E_NULL;
    MAKE(out, cell, split(hand, cell))
}

void hk_hand_free(hk_hand *hand) {
    gives(HK_MARK_END);
    free_handle(hand);
}

/* An export of a ring tries each half once. If another thread came first, the calls below try that half again, until
 * they have tried it this often. A put or a take that returned HK_E_PENDING has tried to settle once. Pools and
 * splits repeat their tries below their exports. */
enum { TURNS = 1024 };

static inline void pause_a_moment(void) {
#if defined(__x86_64__)
    __builtin_ia32_pause();
#endif
}

/* Makes a call again while its code is `lost`, another thread came first or isn't done: the only loop over tries. */
#define TRY_AGAIN(code, lost, call)                                     \
    for (unsigned turn = 1; (code) == (lost) && turn < TURNS; turn++) { \
        pause_a_moment();                                               \
        (code) = (call);                                                \
    }

/* Goes on with the put that the hand has open after a first try to settle it, which returned a code. */
static int64_t settle_put(struct hk_cell *cell, const uint64_t *words, size_t n, int64_t code) {
    TRY_AGAIN(code, HK_E_PENDING, hkx_ring_finish_put(cell, words, n))
    return code;
}

static int64_t settle_take(struct hk_cell *cell, size_t n, int64_t code) {
    TRY_AGAIN(code, HK_E_PENDING, hkx_ring_finish_take(cell, n))
    return code;
}

/* What a put and a take need to go on after their first try. It is kept in memory, so that a first try that succeeds,
 * as nearly all do, saves no registers. */
struct put_call {
    struct hk_cell *cell;
    size_t ring;
    const uint64_t *words;
    size_t n;
};

struct take_call {
    struct hk_cell *cell;
    size_t ring;
    uint64_t *words;
    size_t n;
};

/* The same for one word. */
struct put_one_call {
    struct hk_cell *cell;
    size_t ring;
    uint64_t word;
};

struct take_one_call {
    struct hk_cell *cell;
    size_t ring;
    uint64_t *word;
};

#define RARELY __attribute__((noinline, cold))

/* Goes on with a call whose first try returned a code. */
static RARELY int64_t put_again(struct put_call *call, bool bulk, int64_t code) {
    TRY_AGAIN(code, HK_E_AGAIN, hkx_ring_put(call->cell, call->ring, call->words, call->n, bulk))
    return settle_put(call->cell, call->words, call->n, code);
}

static RARELY int64_t take_again(struct take_call *call, bool bulk, int64_t code) {
    TRY_AGAIN(code, HK_E_AGAIN, hkx_ring_take(call->cell, call->ring, call->words, call->n, bulk))
    return settle_take(call->cell, call->n, code);
}

static RARELY int64_t put_one_again(struct put_one_call *call, int64_t code) {
    TRY_AGAIN(code, HK_E_AGAIN, hkx_ring_put_one(call->cell, call->ring, call->word))
    return settle_put(call->cell, &call->word, 1, code);
}

static RARELY int64_t take_one_again(struct take_one_call *call, int64_t code) {
    TRY_AGAIN(code, HK_E_AGAIN, hkx_ring_take_one(call->cell, call->ring, call->word))
    return settle_take(call->cell, 1, code);
}

/* One word goes by value, whether by bulk or by burst: it is moved, or there was no room. */
static inline int64_t put_one(hk_hand *hand, size_t ring, uint64_t word) {
    if (!hand) return HK_E_NULL;
    struct put_one_call call = {CELL(hand), ring, word};
    int64_t code = hkx_ring_put_one(CELL(hand), ring, word);
    return code >= 0 ? code : put_one_again(&call, code);
}

static inline int64_t take_one(hk_hand *hand, size_t ring, uint64_t *word) {
    if (!hand) return HK_E_NULL;
    struct take_one_call call = {CELL(hand), ring, word};
    int64_t code = hkx_ring_take_one(CELL(hand), ring, word);
    return code >= 0 ? code : take_one_again(&call, code);
}

static inline int64_t put(hk_hand *hand, size_t ring, const uint64_t *words, size_t n, bool bulk) {
    if (n == 1) return words ? put_one(hand, ring, *words) : HK_E_NULL;
    if (n > HK_MAX_WORDS_MULTI) return HK_E_COUNT;
    if (!hand || (!words && n > 0)) return HK_E_NULL;
    struct put_call call = {CELL(hand), ring, n > 0 ? words : no_words, n};
    int64_t code = hkx_ring_put(CELL(hand), ring, call.words, n, bulk);
    return code >= 0 ? code : put_again(&call, bulk, code);
}

int64_t hk_ring_try_put_bulk(hk_hand *hand, size_t ring, const uint64_t *words, size_t n) {
    give_words(words, n);
    return put(hand, ring, words, n, true);
}

int64_t hk_ring_try_put_burst(hk_hand *hand, size_t ring, const uint64_t *words, size_t n) {
    give_words(words, n);
    return put(hand, ring, words, n, false);
}

static inline int64_t take(hk_hand *hand, size_t ring, uint64_t *words, size_t n, bool bulk) {
    if (n == 1) return words ? take_one(hand, ring, words) : HK_E_NULL;
    if (n > HK_MAX_WORDS_MULTI) return HK_E_COUNT;
    if (!hand || (!words && n > 0)) return HK_E_NULL;
    struct take_call call = {CELL(hand), ring, n > 0 ? words : no_words, n};
    int64_t code = hkx_ring_take(CELL(hand), ring, call.words, n, bulk);
    return code >= 0 ? code : take_again(&call, bulk, code);
}

int64_t hk_ring_try_take_bulk(hk_hand *hand, size_t ring, uint64_t *words, size_t n) {
    return got_words(words, n, take(hand, ring, words, n, true));
}

int64_t hk_ring_try_take_burst(hk_hand *hand, size_t ring, uint64_t *words, size_t n) {
    return got_words(words, n, take(hand, ring, words, n, false));
}

int64_t hk_ring_try_put_one(hk_hand *hand, size_t ring, uint64_t word) {
    give_word(word);
    return put_one(hand, ring, word);
}

int64_t hk_ring_try_take_one(hk_hand *hand, size_t ring, uint64_t *word) {
    return word ? got_words(word, 1, take_one(hand, ring, word)) : HK_E_NULL;
}

static inline int64_t peek_put(hk_hand *hand, size_t ring, size_t n, bool bulk) {
    if (!hand) return HK_E_NULL;
    int64_t code = hkx_ring_peek_put(CELL(hand), ring, n, bulk);
    TRY_AGAIN(code, HK_E_AGAIN, hkx_ring_peek_put(CELL(hand), ring, n, bulk))
    return code;
}

int64_t hk_ring_peek_put_bulk(hk_hand *hand, size_t ring, size_t n) {
    return peek_put(hand, ring, n, true);
}

int64_t hk_ring_peek_put_burst(hk_hand *hand, size_t ring, size_t n) {
    return peek_put(hand, ring, n, false);
}

static inline int64_t peek_take(hk_hand *hand, size_t ring, uint64_t *words, size_t n, bool bulk) {
    int64_t code = refused(words, n);
    if (code < 0) return code;
    if (!hand) return HK_E_NULL;
    if (!words) words = no_words;
    code = hkx_ring_peek_take(CELL(hand), ring, words, n, bulk);
    TRY_AGAIN(code, HK_E_AGAIN, hkx_ring_peek_take(CELL(hand), ring, words, n, bulk))
    return code;
}

int64_t hk_ring_peek_take_bulk(hk_hand *hand, size_t ring, uint64_t *words, size_t n) {
    return got_words(words, n, peek_take(hand, ring, words, n, true));
}

int64_t hk_ring_peek_take_burst(hk_hand *hand, size_t ring, uint64_t *words, size_t n) {
    return got_words(words, n, peek_take(hand, ring, words, n, false));
}

int64_t hk_ring_finish_put(hk_hand *hand, const uint64_t *words, size_t n) {
    int64_t code = refused_above(HK_MAX_WORDS_MULTI, words, n);
    if (code < 0) return code;
    if (!hand) return HK_E_NULL;
    give_words(words, n);
    if (!words) words = no_words;
    return settle_put(CELL(hand), words, n, hkx_ring_finish_put(CELL(hand), words, n));
}

int64_t hk_ring_finish_take(hk_hand *hand, size_t n) {
    if (!hand) return HK_E_NULL;
    return settle_take(CELL(hand), n, hkx_ring_finish_take(CELL(hand), n));
}

int64_t hk_ring_advance_put(hk_hand *hand, const uint64_t *words, size_t n) {
    int64_t code = refused(words, n);
    if (code < 0) return code;
    give_words(words, n);
    return CALL_WITH(hkx_ring_advance_put, hand, words ? words : no_words, n);
}

static inline int64_t hold_take(hk_hand *hand, size_t ring, size_t n, bool bulk) {
    if (!hand) return HK_E_NULL;
    int64_t code = hkx_ring_hold_take(CELL(hand), ring, n, bulk);
    TRY_AGAIN(code, HK_E_AGAIN, hkx_ring_hold_take(CELL(hand), ring, n, bulk))
    return code;
}

int64_t hk_ring_hold_take_bulk(hk_hand *hand, size_t ring, size_t n) {
    return hold_take(hand, ring, n, true);
}

int64_t hk_ring_hold_take_burst(hk_hand *hand, size_t ring, size_t n) {
    return hold_take(hand, ring, n, false);
}

int64_t hk_ring_advance_take(hk_hand *hand, uint64_t *words, size_t n) {
    int64_t code = refused(words, n);
    if (code < 0) return code;
    return got_words(words, n, CALL_WITH(hkx_ring_advance_take, hand, words ? words : no_words, n));
}

int64_t hk_ring_release_take(hk_hand *hand, uint64_t *words, size_t n) {
    int64_t code = refused(words, n);
    if (code < 0) return code;
    return got_words(words, n, CALL_WITH(hkx_ring_release_take, hand, words ? words : no_words, n));
}

int64_t hk_hand_span(const hk_hand *hand) {
    return CALL(hkx_hand_span, hand);
}

int64_t hk_hand_left(const hk_hand *hand) {
    return CALL(hkx_hand_left, hand);
}

int64_t hk_ring_count(const hk_hand *hand, size_t ring) {
    return CALL_WITH(hkx_ring_room, hand, ring, true);
}

int64_t hk_ring_room(const hk_hand *hand, size_t ring) {
    return CALL_WITH(hkx_ring_room, hand, ring, false);
}

int64_t hk_hand_close(hk_hand *hand) {
    return saw(HK_MARK_END, CALL(hkx_hand_close, hand));
}

int64_t hk_hand_drain(hk_hand *hand, size_t ring, uint64_t *words, size_t n) {
    int64_t code = refused(words, n);
    if (code < 0) return code;
    return got_words(words, n, CALL_WITH(hkx_hand_drain, hand, ring, words ? words : no_words, n));
}

/* ---- Ends ---- */

/* An end is its hand's cell, too: what the end is bound to is in the hand. */

int64_t hk_producer_open(hk_producer **out, hk_hand *hand, size_t ring) {
    if (!out || !hand) return HK_E_NULL;
    int64_t code = hkx_end_open(CELL(hand), ring, false);
    if (code >= 0) *out = (hk_producer *)hand;
    return code;
}

int64_t hk_producer_put_once(hk_producer *end, uint64_t word) {
    give_word(word);
    return CALL_WITH(hkx_end_put, end, word);
}

int64_t hk_producer_put_again(hk_producer *end, uint64_t word, int64_t code) {
    if (!end) return HK_E_NULL;
    TRY_AGAIN(code, HK_E_AGAIN, hkx_end_put(CELL(end), word))
    code = settle_put(CELL(end), &word, 1, code);
    return code < 0 ? code : HK_OK;
}

int64_t hk_producer_finish(hk_producer *end, uint64_t word) {
    int64_t code = hk_ring_finish_put((hk_hand *)end, &word, 1);
    return code < 0 ? code : HK_OK;
}

int64_t hk_producer_hold(hk_producer *end, size_t most) {
    return CALL_WITH(hkx_end_hold, end, most, false);
}

int64_t hk_producer_release(hk_producer *end) {
    return CALL_WITH(hkx_end_release, end, false, false);
}

void hk_producer_free(hk_producer *end) {
    (void)CALL_WITH(hkx_end_release, end, false, true);
}

int64_t hk_consumer_open(hk_consumer **out, hk_hand *hand, size_t ring) {
    if (!out || !hand) return HK_E_NULL;
    int64_t code = hkx_end_open(CELL(hand), ring, true);
    if (code >= 0) *out = (hk_consumer *)hand;
    return code;
}

int64_t hk_consumer_take_once(hk_consumer *end, uint64_t *word) {
    if (!word) return HK_E_NULL;
    return got_words(word, 1, CALL_WITH(hkx_end_take, end, word));
}

int64_t hk_consumer_take_again(hk_consumer *end, uint64_t *word, int64_t code) {
    if (!end || !word) return HK_E_NULL;
    TRY_AGAIN(code, HK_E_AGAIN, hkx_end_take(CELL(end), word))
    code = got_words(word, 1, settle_take(CELL(end), 1, code));
    return code < 0 ? code : HK_OK;
}

int64_t hk_consumer_finish(hk_consumer *end) {
    int64_t code = hk_ring_finish_take((hk_hand *)end, 1);
    return code < 0 ? code : HK_OK;
}

int64_t hk_consumer_hold(hk_consumer *end, size_t most) {
    return CALL_WITH(hkx_end_hold, end, most, true);
}

int64_t hk_consumer_release(hk_consumer *end) {
    return CALL_WITH(hkx_end_release, end, true, false);
}

void hk_consumer_free(hk_consumer *end) {
    (void)CALL_WITH(hkx_end_release, end, true, true);
}

/* ---- Pools ---- */

/* An array of no numbers has an address, too. */
static uint32_t no_numbers[1];

static inline int64_t refused_numbers(const void *numbers, size_t n) {
    if (n > HK_MAX_NUMBERS) return HK_E_COUNT;
    return numbers || n == 0 ? HK_OK : HK_E_NULL;
}

int64_t hk_pool_open(hk_pool **out, uint32_t n, uint32_t cache, uint32_t rings) {
    if (!out) return HK_E_NULL;
    MAKE(out, cell, hkx_pool_open(cell, n, cache, rings))
}

static int64_t split_pool(hk_pool *pool, struct hk_cell *cell) {
    begins_split();
    int64_t code = hkx_pool_split(CELL(pool), cell);
    ends_split();
    return code;
}

int64_t hk_pool_split(hk_pool *pool, hk_pool **out) {
    if (!pool || !out) return HK_E_NULL;
    MAKE(out, cell, split_pool(pool, cell))
}

/* A flush of null or of a handle of another kind, which this call takes too, is refused and changes nothing. */
void hk_pool_free(hk_pool *pool) {
    (void)CALL(hkx_pool_flush, pool);
    free_handle(pool);
}

int64_t hk_pool_try_get_bulk(hk_pool *pool, uint32_t *numbers, size_t n) {
    int64_t code = refused_numbers(numbers, n);
    if (code < 0) return code;
    return got_numbers(numbers, CALL_WITH(hkx_pool_get, pool, numbers ? numbers : no_numbers, n));
}

int64_t hk_pool_try_put_bulk(hk_pool *pool, const uint32_t *numbers, size_t n) {
    int64_t code = refused_numbers(numbers, n);
    if (code < 0) return code;
    give_numbers(numbers, n);
    return CALL_WITH(hkx_pool_put, pool, numbers ? numbers : no_numbers, n);
}

int64_t hk_pool_try_flush(hk_pool *pool) {
    return CALL(hkx_pool_flush, pool);
}

int64_t hk_pool_cached(const hk_pool *pool) {
    return CALL(hkx_pool_cached, pool);
}

int64_t hk_pool_owns(const hk_pool *pool, uint32_t number) {
    return CALL_WITH(hkx_pool_owns, pool, number);
}

static inline int64_t send_numbers(hk_pool *pool, size_t ring, const uint32_t *numbers, size_t n, bool bulk) {
    int64_t code = refused_numbers(numbers, n);
    if (code < 0) return code;
    give_numbers(numbers, n);
    return CALL_WITH(hkx_pool_send, pool, ring, numbers ? numbers : no_numbers, n, bulk);
}

int64_t hk_pool_try_send_bulk(hk_pool *pool, size_t ring, const uint32_t *numbers, size_t n) {
    return send_numbers(pool, ring, numbers, n, true);
}

int64_t hk_pool_try_send_burst(hk_pool *pool, size_t ring, const uint32_t *numbers, size_t n) {
    return send_numbers(pool, ring, numbers, n, false);
}

static inline int64_t receive_numbers(hk_pool *pool, size_t ring, uint32_t *numbers, size_t n, bool bulk) {
    int64_t code = refused_numbers(numbers, n);
    if (code < 0) return code;
    return got_numbers(numbers, CALL_WITH(hkx_pool_receive, pool, ring, numbers ? numbers : no_numbers, n, bulk));
}

int64_t hk_pool_try_receive_bulk(hk_pool *pool, size_t ring, uint32_t *numbers, size_t n) {
    return receive_numbers(pool, ring, numbers, n, true);
}

int64_t hk_pool_try_receive_burst(hk_pool *pool, size_t ring, uint32_t *numbers, size_t n) {
    return receive_numbers(pool, ring, numbers, n, false);
}

int64_t hk_pool_ring_count(const hk_pool *pool, size_t ring) {
    return CALL_WITH(hkx_pool_room, pool, ring, true);
}

int64_t hk_pool_ring_room(const hk_pool *pool, size_t ring) {
    return CALL_WITH(hkx_pool_room, pool, ring, false);
}

int64_t hk_pool_free_count(const hk_pool *pool) {
    return CALL(hkx_pool_free_count, pool);
}

/* ---- Routes ---- */

int64_t hk_routes_open(hk_routes **out, uint32_t bits, uint32_t groups) {
    if (!out) return HK_E_NULL;
    MAKE(out, cell, hkx_routes_open(cell, bits, groups))
}

int64_t hk_routes_share(hk_routes *routes, hk_routes **out) {
    if (!routes || !out) return HK_E_NULL;
    MAKE(out, cell, hkx_routes_share(CELL(routes), cell))
}

int64_t hk_routes_add(hk_routes *routes, uint32_t address, uint32_t depth, uint32_t hop) {
    return saw(HK_MARK_END, CALL_WITH(hkx_routes_add, routes, address, depth, hop));
}

int64_t hk_routes_remove(hk_routes *routes, uint32_t address, uint32_t depth) {
    return saw(HK_MARK_END, CALL_WITH(hkx_routes_remove, routes, address, depth));
}

int64_t hk_routes_lookup(const hk_routes *routes, uint32_t address) {
    return CALL_WITH(hkx_routes_lookup, routes, address);
}

int64_t hk_routes_lookup_bulk(const hk_routes *routes, const uint32_t *addresses, uint32_t *hops, size_t n) {
    static uint32_t none[1];
    if (n > SIZE_MAX / 8) return HK_E_COUNT;
    if (n > 0 && (!addresses || !hops)) return HK_E_NULL;
    return CALL_WITH(hkx_routes_lookup_bulk, routes, addresses ? addresses : none, n, hops ? hops : none, n);
}

void hk_routes_free(hk_routes *routes) {
    gives(HK_MARK_END);
    free_handle(routes);
}

/* ---- Forwarding tables ---- */

static int64_t open_fib(hk_fib **out, bool whole, uint32_t bits, uint32_t groups, const hk_port *ports,
                        size_t port_count, const hk_next_hop *hops, size_t hop_count) {
    static const hk_port no_ports[1];
    static const hk_next_hop no_hops[1];
    if (!out || (port_count > 0 && !ports) || (hop_count > 0 && !hops)) return HK_E_NULL;
    if (port_count > HK_MAX_PORTS || hop_count > HK_MAX_HOPS) return HK_E_PLAN;
    MAKE(out, cell, hkx_fib_open(cell, whole, bits, groups, ports ? ports : no_ports, port_count,
                                 hops ? hops : no_hops, hop_count))
}

int64_t hk_fib_open(hk_fib **out, uint32_t bits, uint32_t groups, const hk_port *ports, size_t port_count,
                    const hk_next_hop *hops, size_t hop_count) {
    return open_fib(out, false, bits, groups, ports, port_count, hops, hop_count);
}

int64_t hk_fib_open_whole(hk_fib **out, uint32_t bits, uint32_t groups, const hk_port *ports, size_t port_count,
                          const hk_next_hop *hops, size_t hop_count) {
    return open_fib(out, true, bits, groups, ports, port_count, hops, hop_count);
}

int64_t hk_fib_share(hk_fib *fib, hk_forward **out) {
    if (!fib || !out) return HK_E_NULL;
    MAKE(out, cell, hkx_fib_share(CELL(fib), cell))
}

int64_t hk_fib_add(hk_fib *fib, uint32_t address, uint32_t depth, uint32_t hop) {
    return saw(HK_MARK_LET_GO, CALL_WITH(hkx_fib_add, fib, address, depth, hop));
}

int64_t hk_fib_remove(hk_fib *fib, uint32_t address, uint32_t depth) {
    return saw(HK_MARK_LET_GO, CALL_WITH(hkx_fib_remove, fib, address, depth));
}

int64_t hk_fib_clear(hk_fib *fib) {
    return saw(HK_MARK_LET_GO, CALL(hkx_fib_clear, fib));
}

int64_t hk_fib_set_hop(hk_fib *fib, uint32_t number, const hk_next_hop *hop) {
    if (!hop) return HK_E_NULL;
    return saw(HK_MARK_LET_GO, CALL_WITH(hkx_fib_set_hop, fib, number, hop));
}

int64_t hk_fib_set_port(hk_fib *fib, uint32_t number, const hk_port *port) {
    if (!port) return HK_E_NULL;
    return saw(HK_MARK_LET_GO, CALL_WITH(hkx_fib_set_port, fib, number, port));
}

int64_t hk_fib_publish(hk_fib *fib) {
    gives(HK_MARK_PUBLISH);
    return saw(HK_MARK_LET_GO, CALL(hkx_fib_publish, fib));
}

int64_t hk_fib_settle(hk_fib *fib) {
    return saw(HK_MARK_LET_GO, CALL(hkx_fib_settle, fib));
}

int64_t hk_fib_pending(const hk_fib *fib) {
    return CALL(hkx_fib_pending, fib);
}

int64_t hk_fib_get(const hk_fib *fib, uint32_t address, uint32_t depth) {
    return CALL_WITH(hkx_fib_get, fib, address, depth);
}

int64_t hk_fib_count(const hk_fib *fib) {
    return CALL(hkx_fib_count, fib);
}

int64_t hk_fib_walk(const hk_fib *fib, uint32_t address, uint32_t depth, hk_fib_route *route) {
    if (!route) return HK_E_NULL;
    return CALL_WITH(hkx_fib_walk, fib, address, depth, route);
}

void hk_fib_free(hk_fib *fib) {
    free_handle(fib);
}

int64_t hk_forward_hold(hk_forward *forward) {
    return saw(HK_MARK_PUBLISH, CALL(hkx_forward_hold, forward));
}

int64_t hk_forward_release(hk_forward *forward) {
    gives(HK_MARK_LET_GO);
    return CALL(hkx_forward_release, forward);
}

int64_t hk_forward_lookup(hk_forward *forward, uint32_t address) {
    return saw(HK_MARK_PUBLISH, CALL_WITH(hkx_forward_lookup, forward, address));
}

int64_t hk_forward_lookup_bulk(hk_forward *forward, const uint32_t *addresses, uint32_t *hops, size_t n) {
    static uint32_t none[1];
    if (n > SIZE_MAX / 8) return HK_E_COUNT;
    if (n > 0 && (!addresses || !hops)) return HK_E_NULL;
    return saw(HK_MARK_PUBLISH, CALL_WITH(hkx_forward_lookup_bulk, forward, addresses ? addresses : none, n,
                                                        hops ? hops : none, n));
}

/* ---- Forwarding of frames ---- */

/* Checks a frame: 0 if the call may go on, else the code to return. */
static inline int64_t refused_frame(const hk_forward *forward, const void *bytes, size_t held, size_t wire) {
    if (!forward || !bytes) return HK_E_NULL;
    return held > wire ? HK_E_COUNT : HK_OK;
}

int64_t hk_forward_frame(hk_forward *forward, uint8_t *bytes, size_t held, size_t wire) {
    int64_t code = refused_frame(forward, bytes, held, wire);
    if (code < 0) return code;
    return saw(HK_MARK_PUBLISH, CALL_WITH(hkx_forward_frame, forward, bytes, held, wire));
}

int64_t hk_forward_verdict(hk_forward *forward, const uint8_t *bytes, size_t held, size_t wire) {
    int64_t code = refused_frame(forward, bytes, held, wire);
    if (code < 0) return code;
    return saw(HK_MARK_PUBLISH, CALL_WITH(hkx_forward_verdict, forward, bytes, held, wire));
}

/* Checks the frames of a burst. */
static inline int64_t refused_frames(const hk_frame *frames, size_t n) {
    bool wrong = n == 0;
    for (size_t i = 0; i < n; i++) {
        if (!frames[i].bytes) return HK_E_NULL;
        wrong |= frames[i].held > frames[i].wire;
    }
    return wrong ? HK_E_COUNT : HK_OK;
}

/* The export changes what the frames point to, and not the array of frames. */
int64_t hk_forward_burst(hk_forward *forward, const hk_frame *frames, uint32_t *verdicts, size_t n) {
    if (n > HK_MAX_FRAMES) return HK_E_COUNT;
    if (!forward || (n > 0 && (!frames || !verdicts))) return HK_E_NULL;
    int64_t code = refused_frames(frames, n);
    if (code < 0) return code;
    return saw(HK_MARK_PUBLISH, CALL_WITH(hkx_forward_burst, forward, (hk_frame *)frames, n, verdicts, n));
}

int64_t hk_forward_class(hk_forward *forward, size_t port, const uint8_t *bytes, size_t held) {
    if (!forward || !bytes) return HK_E_NULL;
    return saw(HK_MARK_PUBLISH, CALL_WITH(hkx_forward_class, forward, port, bytes, held));
}

void hk_forward_free(hk_forward *forward) {
    gives(HK_MARK_LET_GO);
    free_handle(forward);
}

/* ---- Reorder windows ---- */

int64_t hk_reorder_open(hk_reorder **out, uint32_t size) {
    if (!out) return HK_E_NULL;
    MAKE(out, cell, hkx_reorder_open(cell, size))
}

int64_t hk_reorder_insert(hk_reorder *window, uint64_t number, uint64_t word) {
    return CALL_WITH(hkx_reorder_insert, window, number, word);
}

int64_t hk_reorder_drain(hk_reorder *window, uint64_t *words, size_t n) {
    int64_t code = refused(words, n);
    if (code < 0) return code;
    code = CALL_WITH(hkx_reorder_drain, window, words ? words : no_words, n);
    return code == 0 && n > 0 ? HK_E_NOTHING : code;
}

int64_t hk_reorder_pop(hk_reorder *window, uint64_t *word) {
    int64_t count = hk_reorder_drain(window, word, 1);
    return count < 0 ? count : HK_OK;
}

int64_t hk_reorder_next(const hk_reorder *window, uint64_t *number) {
    if (!number) return HK_E_NULL;
    return CALL_WITH(hkx_reorder_next, window, number);
}

int64_t hk_reorder_skip(hk_reorder *window, uint64_t number) {
    return CALL_WITH(hkx_reorder_skip, window, number);
}

void hk_reorder_free(hk_reorder *window) {
    free_handle(window);
}
