// Four threads and a ring of objects: two make orders and put them on it, two take them and add them up. An order is
// owned by one side at a time, and what would be left on the ring is deleted with it.
#include <hokhtura.hpp>

#include <atomic>
#include <cstdio>
#include <memory>
#include <thread>
#include <vector>

struct order {
    std::uint64_t item, price;
};

constexpr std::uint64_t each = 100000;

static bool make_orders(hokhtura::ring<order> ring, std::uint64_t first) {
    for (std::uint64_t item = first; item < first + each; item++) {
        auto made = std::make_unique<order>(order{item, 2 * item});
        auto code = ring.try_put(made);
        for (; code.early(); code = ring.try_put(made)) std::this_thread::yield();
        if (!code) return false;
    }
    return true;
}

static bool add_up(hokhtura::ring<order> ring, std::uint64_t &sum) {
    for (std::uint64_t done = 0; done < each; done++) {
        std::unique_ptr<order> taken;
        auto code = ring.try_take(taken);
        for (; code.early(); code = ring.try_take(taken)) std::this_thread::yield();
        if (!code) return false;
        sum += taken->price;
    }
    return true;
}

int main() {
    hokhtura::ring<order> ring, ends[4];
    if (!ring.open(1000)) return 1;
    for (auto &end : ends) {
        if (!ring.split(end)) return 1;
    }
    std::uint64_t sums[2] = {0, 0};
    std::atomic<int> well{0};
    std::vector<std::thread> threads;
    for (std::size_t i = 0; i < 2; i++) {
        threads.emplace_back([&, i] { well += make_orders(std::move(ends[i]), 1 + i * each); });
        threads.emplace_back([&, i] { well += add_up(std::move(ends[2 + i]), sums[i]); });
    }
    for (auto &thread : threads) thread.join();
    if (well != 4) return 1;
    std::printf("the prices add up to %llu\n", static_cast<unsigned long long>(sums[0] + sums[1]));
}
