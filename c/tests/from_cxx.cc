// From C++: handles by unique_ptr, a thread that puts and one that takes.
#include "hokhtura.h"

#include <cstdio>
#include <memory>
#include <thread>
#include <vector>

struct Free {
    void operator()(hk_hand *hand) const { hk_hand_free(hand); }
    void operator()(hk_routes *routes) const { hk_routes_free(routes); }
};
using Hand = std::unique_ptr<hk_hand, Free>;
using Routes = std::unique_ptr<hk_routes, Free>;

static bool send(hk_hand *hand, std::uint64_t most) {
    for (std::uint64_t word = 1; word <= most;) {
        auto count = hk_ring_try_put_burst(hand, 0, &word, 1);
        while (count == HK_E_PENDING) count = hk_ring_finish_put(hand, &word, 1);
        if (count == 1) word++;
        else if (count == HK_E_NOROOM || count == HK_E_AGAIN) std::this_thread::yield();
        else return false;
    }
    return true;
}

int main() {
    const std::uint64_t most = 100000;
    hk_hand *at = nullptr;
    hk_ring_plan plan{1000, 1, HK_MULTI, HK_HTS, 0, 0};
    if (hk_hand_open(&at, &plan, 1) != HK_OK) return 1;
    Hand first(at);
    if (hk_hand_split(first.get(), &at) != HK_OK) return 1;
    Hand second(at);
    hk_routes *table = nullptr;
    if (hk_routes_open(&table, 24, 1) != HK_OK) return 1;
    Routes routes(table);
    if (hk_routes_lookup(routes.get(), 1) != HK_E_NOROUTE) return 1;
    bool sent = false;
    std::thread sender([&] { sent = send(second.get(), most); });
    std::uint64_t sum = 0, got = 0;
    std::vector<std::uint64_t> words(32);
    while (got < most) {
        auto count = hk_ring_try_take_burst(first.get(), 0, words.data(), words.size());
        for (std::int64_t i = 0; i < count; i++) sum += words[static_cast<std::size_t>(i)], got++;
        if (count <= 0) std::this_thread::yield();
    }
    sender.join();
    const bool right = sent && sum == most * (most + 1) / 2;
    std::printf("from_cxx: %d passed, %d failed\n", right, !right);
    return !right;
}
