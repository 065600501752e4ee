/* A ring, three words put on it and taken again. */
#include <hokhtura.h>
#include <stdio.h>
int main(void) {
    hk_hand *hand;
    hk_ring_plan plan = {.size = 1000, .exact = 1, .put = HK_MULTI, .take = HK_MULTI};
    uint64_t in[3] = {1, 2, 3}, out[8];
    if (hk_hand_open(&hand, &plan, 1) < 0 || hk_ring_try_put_bulk(hand, 0, in, 3) < 0) return 1;
    printf("taken %lld\n", (long long)hk_ring_try_take_burst(hand, 0, out, 8));
    hk_hand_free(hand);
}
