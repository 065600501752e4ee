/* The hands of all threads on one set of rings. */
#ifndef HK_HANDS_H
#define HK_HANDS_H 1

#include "hk_handles.h"

#include <rte_pause.h>

#ifdef __cplusplus
extern "C" {
#endif

/* One more hand, split off the spare one. Others split hands of these rings for a moment at most. */
static inline void hk_hands_more(struct hk_handles *hands) {
    size_t spares;
    hk_hand *spare = (hk_hand *)hands->made[hk_handles_spare(hands, &spares)].handle, *other;
    int64_t code;
    while ((code = hk_hand_split(spare, &other)) == HK_E_AGAIN) rte_pause();
    if (code >= 0 && !hk_handles_keep(hands, other)) hk_hand_free(other);
}

/* Nobody else can finish a peek that a hand has open. */
static inline int hk_hands_is_done(const void *hand) { return hk_hand_span((const hk_hand *)hand) == 0; }

static inline void hk_hands_free(void *hand) { hk_hand_free((hk_hand *)hand); }

static const struct hk_kind hk_hands_kind = {hk_hands_more, hk_hands_is_done, hk_hands_free};

/* Takes over the first hand of a set of rings. Returns 1; or 0, and then the hand is the caller's. */
static inline int hk_hands_open(struct hk_handles *hands, hk_hand *first) {
    return hk_handles_open(hands, &hk_hands_kind, NULL, first);
}

static __rte_always_inline hk_hand *hk_hands_mine(struct hk_handles *hands) {
    return (hk_hand *)hk_handles_mine(hands);
}

static inline hk_hand *hk_hands_borrow(struct hk_handles *hands) { return (hk_hand *)hk_handles_borrow(hands); }

#ifdef __cplusplus
}
#endif
#endif
