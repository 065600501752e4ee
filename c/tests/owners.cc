// hokhtura.hpp: each owner and each call of it once, what is refused, and that a typed ring deletes what is left.
#include "hokhtura.hpp"

#include <array>
#include <cstdio>
#include <cstring>
#include <memory>
#include <type_traits>
#include <vector>

static int passed, failed;

static void is(long long got, long long want, int line) {
    if (got == want) passed++;
    else failed++, std::printf("owners.cc:%d: %lld, not %lld\n", line, got, want);
}
#define IS(got, want) is(static_cast<long long>(got), static_cast<long long>(want), __LINE__)

using hokhtura::result;

struct counted {
    static int live;
    int number;
    explicit counted(int n) : number(n) { live++; }
    ~counted() { live--; }
};
int counted::live = 0;

static void results() {
    IS(result(3).count(), 3), IS(result(3).code(), HK_OK), IS(result(HK_E_NOROOM).count(), 0);
    IS(result(HK_E_AGAIN).early(), true), IS(result(HK_E_WORN).early(), false), IS(result(0).ok(), true);
    IS(std::strcmp(result(HK_E_RING).name(), "HK_E_RING"), 0), IS(std::strcmp(result(0).text(), "done"), 0);
    static_assert(!std::is_copy_constructible_v<hokhtura::hand>);
    static_assert(std::is_nothrow_move_constructible_v<hokhtura::hand>);
    static_assert(!std::is_copy_constructible_v<hokhtura::ring<counted>>);
    static_assert(!std::is_constructible_v<hokhtura::places, const std::vector<std::uint64_t> &>);
}

// Words by value, on a multi ring, and by ends that hold both sides of a ring.
static void one_by_one() {
    hokhtura::hand hand, other;
    const hk_ring_plan plans[] = {{8, 0, HK_HTS, HK_HTS, 0, 0}, {8, 0, HK_MULTI, HK_MULTI, 0, 0}};
    std::uint64_t word = 0;
    IS(hand.open(plans).code(), HK_OK), IS(hand.split(other).code(), HK_OK);
    IS(hand.try_put_one(1, 7).count(), 1), IS(other.try_take_one(1, word).count(), 1), IS(word, 7);
    hokhtura::producer puts;
    hokhtura::consumer takes;
    IS(puts.put(1).code(), HK_E_NULL), IS(takes.take(word).code(), HK_E_NULL);
    IS(puts.open(hand, 0).code(), HK_OK), IS(takes.open(other, 0).code(), HK_OK);
    IS(puts.hold(3).code(), HK_OK), IS(puts.put(8).code(), HK_OK), IS(puts.put(9).code(), HK_OK);
    IS(puts.finish(9).code(), HK_OK), IS(takes.finish().code(), HK_E_NOTOPEN);
    IS(takes.hold(4).code(), HK_OK), IS(takes.take(word).code(), HK_OK), IS(word, 8);
    IS(takes.release().code(), HK_OK), IS(puts.release().code(), HK_OK), IS(other.count(0).count(), 2);
}

static void hands() {
    hokhtura::hand hand, other, none;
    const hk_ring_plan plans[] = {{8, 0, HK_HTS, HK_HTS, 0, 0}, {8, 0, HK_MULTI, HK_MULTI, 0, 0}};
    IS(hand.open(plans).code(), HK_OK), IS(hand.split(other).code(), HK_OK), IS(none.split(other).code(), HK_E_NULL);
    std::vector<std::uint64_t> in{1, 2, 3};
    std::array<std::uint64_t, 4> out{};
    IS(hand.try_put_bulk(1, in).count(), 3), IS(hand.try_put_burst(1, hokhtura::words(in).first(1)).count(), 1);
    IS(other.count(1).count(), 4), IS(other.room(1).count(), 3);
    IS(other.try_take_bulk(1, hokhtura::places(out).first(3)).count(), 3), IS(out[2], 3), IS(other.left().count(), 1);
    IS(other.try_take_burst(1, out).count(), 1), IS(other.try_take_burst(1, out).code(), HK_E_NOROOM);
    IS(hand.peek_put_bulk(0, 2).count(), 2), IS(hand.span_open().count(), 1);
    IS(hand.finish_put(hokhtura::words(in).first(2)).count(), 2);
    IS(hand.peek_put_burst(0, 1).count(), 1), IS(hand.finish_put({}).count(), 0);
    IS(hand.peek_take_bulk(0, hokhtura::places(out).first(2)).count(), 2), IS(hand.finish_take(0).count(), 0);
    IS(hand.peek_take_burst(0, out).count(), 2), IS(hand.finish_take(1).count(), 1);
    IS(hand.close().code(), HK_E_SHARED), other.reset(), IS(static_cast<bool>(other), false);
    hokhtura::hand moved = std::move(hand);
    IS(moved.close().code(), HK_OK), IS(moved.drain(0, out).count(), 1), IS(out[0], 2);
    IS(hand.close().code(), HK_E_NULL);
}

static void pools() {
    hokhtura::pool pool, other;
    std::uint32_t numbers[2];
    IS(pool.open(0, 0, 0).code(), HK_E_PLAN), IS(pool.open(8, 2, 1).code(), HK_OK), IS(pool.split(other).code(), HK_OK);
    IS(pool.try_get_bulk(numbers).count(), 2), IS(pool.owns(numbers[0]), true), IS(other.owns(numbers[0]), false);
    IS(pool.try_send_bulk(0, numbers).count(), 2), IS(other.try_receive_bulk(0, numbers).count(), 2);
    IS(pool.try_put_bulk(numbers).code(), HK_E_NOTYOURS), IS(other.try_put_bulk(numbers).count(), 2);
    IS(other.cached().count(), 2), IS(other.try_flush().count(), 2);
    std::uint32_t more[4];
    IS(pool.try_get_bulk(numbers).count(), 2), IS(pool.try_send_burst(0, numbers).count(), 2);
    IS(pool.ring_count(0).count(), 2), IS(pool.ring_room(0).count(), 6), IS(pool.ring_count(1).code(), HK_E_RING);
    IS(other.try_receive_burst(0, more).count(), 2), IS(other.try_receive_burst(0, more).code(), HK_E_NOROOM);
    IS(other.try_put_bulk(hokhtura::numbers(more).first(2)).count(), 2);
    // What is cached goes back where a handle ends.
    auto on_ring = pool.free_count().count();
    other.reset(), IS(pool.free_count().count(), on_ring + 2), IS(other.free_count().code(), HK_E_NULL);
}

static void tables() {
    hokhtura::routes routes, lookups;
    const std::uint32_t addresses[] = {0x0a000001, 0x0b000001};
    std::uint32_t hops[2];
    IS(routes.open(16, 1).code(), HK_OK), IS(routes.add(0x0a000000, 8, 7).code(), HK_OK);
    IS(routes.share(lookups).code(), HK_OK), IS(routes.remove(0x0a000000, 8).code(), HK_E_SHARED);
    IS(lookups.lookup(0x0a000001).count(), 7), IS(lookups.lookup_bulk(addresses, hops).code(), HK_OK);
    IS(hops[0], 7), IS(hops[1], HK_NO_HOP), IS(lookups.lookup_bulk(addresses, {}).code(), HK_E_COUNT);
    hokhtura::fib fib;
    hokhtura::forward reader;
    const hk_port ports[] = {{0x0a000001, {2, 0, 0, 0, 0, 1}, 24, 0}};
    const hk_next_hop next[] = {{0, {2, 0, 0, 0, 0, 2}}};
    std::uint8_t bytes[14] = {2, 0, 0, 0, 0, 1};
    const hk_frame frames[] = {{bytes, 14, 60}};
    std::uint32_t verdicts[1] = {0};
    hk_fib_route route;
    IS(fib.open_whole(16, 1, ports, next).code(), HK_OK), IS(fib.open(16, 1, ports, next).code(), HK_OK);
    IS(fib.share(reader).code(), HK_OK), IS(fib.add(0x0a000000, 8, 0).code(), HK_OK), IS(fib.pending().count(), 1);
    IS(fib.publish().code(), HK_OK), IS(fib.settle().code(), HK_OK), IS(fib.count().count(), 1);
    IS(fib.find(0x0a000000, 8).count(), 0), IS(fib.walk(0, 0, route).code(), HK_OK), IS(route.depth, 8);
    IS(fib.set_hop(0, next[0]).code(), HK_OK), IS(fib.set_port(0, ports[0]).code(), HK_OK);
    IS(fib.remove(0x0a000000, 8).code(), HK_OK), IS(fib.clear().code(), HK_OK);
    IS(reader.hold().code(), HK_OK), IS(reader.lookup(0x0a000001).count(), 0), IS(reader.release().code(), HK_OK);
    IS(reader.lookup_bulk(addresses, hops).code(), HK_OK), IS(hops[0], 0);
    IS(reader.classify(0, bytes).count(), HK_TO_PORT), IS(reader.verdict(bytes, 60).count(), HK_DROP_NOTIPV4);
    IS(reader.frame(bytes, 60).count(), HK_DROP_NOTIPV4), IS(reader.burst(frames, verdicts).count(), 0);
    IS(verdicts[0], HK_DROP_NOTIPV4), IS(reader.burst(frames, {}).code(), HK_E_COUNT);
    hokhtura::reorder window;
    std::uint64_t word = 0, words[2];
    IS(window.open(4).code(), HK_OK), IS(window.pop(word).code(), HK_E_NOTHING), IS(window.insert(0, 5).code(), HK_OK);
    IS(window.pop(word).code(), HK_OK), IS(word, 5), IS(window.drain(words).code(), HK_E_NOTHING);
    IS(window.next(word).code(), HK_OK), IS(word, 1), IS(window.skip(3).code(), HK_OK);
}

static void rings() {
    {
        hokhtura::ring<counted> ring, other, none;
        auto object = std::make_unique<counted>(1);
        IS(none.try_put(object).code(), HK_E_NULL), IS(object->number, 1), IS(none.split(other).code(), HK_E_NULL);
        IS(ring.open(0).code(), HK_E_PLAN), IS(static_cast<bool>(ring), false);
        IS(ring.open(3).code(), HK_OK), IS(ring.split(other).code(), HK_OK);
        for (int i = 1; i <= 3; i++) {
            object = std::make_unique<counted>(i);
            IS(ring.try_put(object).ok(), true), IS(static_cast<bool>(object), false);
        }
        IS(ring.try_put(object).code(), HK_E_NULL);
        object = std::make_unique<counted>(4);
        IS(ring.try_put(object).code(), HK_E_NOROOM), IS(object->number, 4), IS(other.count().count(), 3);
        IS(other.try_take(object).ok(), true), IS(object->number, 1), IS(ring.room().count(), 1);
        object.reset(), IS(counted::live, 2);
        // The handle that made the ring ends first, and a ring moves.
        ring.reset(), IS(counted::live, 2);
        hokhtura::ring<counted> moved = std::move(other);
        IS(moved.try_take(object).ok(), true), IS(object->number, 2), IS(other.try_take(object).code(), HK_E_NULL);
        IS(moved.open(2).code(), HK_OK), IS(counted::live, 1), IS(moved.try_take(object).code(), HK_E_NOROOM);
        IS(object->number, 2), IS(moved.try_put(object).ok(), true);
    }
    IS(counted::live, 0);
}

int main() {
    results(), hands(), one_by_one(), pools(), tables(), rings();
    std::printf("owners: %d passed, %d failed\n", passed, failed);
    return failed != 0;
}
