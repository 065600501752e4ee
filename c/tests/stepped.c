/* A hand that is freed with an open put of a multi side, without threads. Such a put is pending only beside another one
 * that has reserved its positions and isn't finished. So the processor runs that one a step at a time (the trap flag of
 * x86-64), and the other hand puts as soon as it finds a position gone. The header forbids calls from a signal handler;
 * these take no memory, and each hand has one call at a time. */
#define _GNU_SOURCE
#include "tests.h"

#include <signal.h>
#include <string.h>
#include <ucontext.h>

enum { HANDS = 5, ROOM = 7, TRAP_FLAG = 0x100 };

static hk_hand *hands[HANDS];
static const uint64_t words[8] = {100, 101, 102, 103, 104, 105, 106, 107};
static uint64_t out[8];
static volatile int64_t found;

/* Runs after each instruction. When the first hand's put has reserved its position, the second hand puts. A position
 * that is reserved still counts as room, so a put of more words than the ring holds says how many it could reserve. */
static void step(int number, siginfo_t *info, void *at) {
    (void)number, (void)info;
    if (hk_ring_try_put_bulk(hands[1], 0, words, ROOM + 1) == HK_E_NOROOM && hk_hand_left(hands[1]) == ROOM) return;
    found = hk_ring_try_put_bulk(hands[1], 0, words + 1, 2);
    ((ucontext_t *)at)->uc_mcontext.gregs[REG_EFL] &= ~(greg_t)TRAP_FLAG;
}

static int64_t put_by_steps(void) {
    __builtin_ia32_writeeflags_u64(__builtin_ia32_readeflags_u64() | TRAP_FLAG);
    int64_t code = hk_ring_try_put_bulk(hands[0], 0, words, 1);
    __builtin_ia32_writeeflags_u64(__builtin_ia32_readeflags_u64() & ~(unsigned long long)TRAP_FLAG);
    return code;
}

static void open_hands(void) {
    hk_ring_plan plan = {8, 0, HK_MULTI, HK_MULTI, 0, 0};
    struct sigaction action;
    memset(&action, 0, sizeof action);
    action.sa_sigaction = step, action.sa_flags = SA_SIGINFO;
    IS(sigaction(SIGTRAP, &action, NULL), 0);
    IS(hk_hand_open(&hands[0], &plan, 1), HK_OK), IS(hk_ring_room(hands[0], 0), ROOM);
    for (int i = 1; i < HANDS; i++) IS(hk_hand_split(hands[0], &hands[i]), HK_OK);
}

/* The first hand has finished; the second is freed with its span, though it could be finished now. */
static void freed_pending(void) {
    IS(hk_hand_span(hands[1]), 1), IS(hk_ring_count(hands[1], 0), 1), IS(hk_ring_room(hands[0], 0), ROOM - 1);
    hk_hand_free(hands[1]);
    IS(hk_ring_try_put_bulk(hands[0], 0, words + 3, 1), HK_E_PENDING);
    IS(hk_ring_finish_put(hands[0], words + 3, 1), HK_E_PENDING), IS(hk_hand_span(hands[0]), 1);
    memset(out, 0xff, sizeof out);
    IS(hk_ring_try_take_burst(hands[2], 0, out, 8), 1), IS(out[0], 100), IS(out[1], -1);
    IS(hk_ring_try_take_burst(hands[2], 0, out, 8), HK_E_NOROOM);
    IS(hk_ring_try_put_burst(hands[2], 0, words, 8), HK_E_PENDING);
    IS(hk_ring_try_put_burst(hands[3], 0, words, 1), HK_E_NOROOM);
    hk_hand_free(hands[0]), hk_hand_free(hands[2]), hk_hand_free(hands[3]);
    IS(hk_ring_try_take_burst(hands[4], 0, out, 8), HK_E_NOROOM);
    IS(hk_hand_close(hands[4]), HK_OK), IS(hk_hand_drain(hands[4], 0, out, 8), 0);
    hk_hand_free(hands[4]);
}

int main(void) {
    open_hands();
    IS(put_by_steps(), 1), IS(found, HK_E_PENDING);
    if (found == HK_E_PENDING) freed_pending();
    return hk_count_up("stepped");
}
