/* Frames that came in through a port are sorted, forwarded in place, and sent on. The caller has these three. */
#include <hokhtura.h>

void take_in(size_t port, const hk_frame *frame, int64_t to);
void send_to(size_t port, const hk_frame *frame);
void answer(size_t port, const hk_frame *frame, uint32_t drop);

static void forward(hk_forward *forward, size_t port, hk_frame *frames, size_t n) {
    uint32_t verdicts[HK_MAX_FRAMES];
    size_t left = 0;
    for (size_t i = 0; i < n; i++) {
        int64_t to = hk_forward_class(forward, port, frames[i].bytes, frames[i].held);
        if (to == HK_TO_PORT) frames[left++] = frames[i];
        else take_in(port, &frames[i], to);
    }
    /* A code is a mistake in the call: then nothing was done, and the frames are still the caller's. */
    if (left == 0 || hk_forward_burst(forward, frames, verdicts, left) < 0) return;
    for (size_t i = 0; i < left; i++) {
        if (verdicts[i] < HK_DROP) send_to(verdicts[i] & 0xffff, &frames[i]);
        else answer(port, &frames[i], verdicts[i]);
    }
}
