// Hokhtura for C++17: owners that close, spans, and rings of pointers that own what they carry. Header only; hokhtura.h
// documents the calls and their codes. No call here throws, and no call waits.
//
// A handle is used by one thread at a time. It can be moved, and not copied; where it ends it is freed.
#ifndef HOKHTURA_HPP
#define HOKHTURA_HPP 1

#include "hokhtura.h"

#include <atomic>
#include <cstddef>
#include <cstdint>
#include <memory>
#include <new>
#include <type_traits>
#include <utility>

namespace hokhtura {

// What a call returned: a count of 0 or more, or a code below 0.
class [[nodiscard]] result {
public:
    constexpr result(std::int64_t value = HK_OK) noexcept : value_(value) {}

    constexpr bool ok() const noexcept { return value_ >= 0; }
    constexpr explicit operator bool() const noexcept { return ok(); }
    // The count, or 0 if it is a code.
    constexpr std::size_t count() const noexcept { return ok() ? static_cast<std::size_t>(value_) : 0; }
    // The code, HK_OK if it is a count.
    constexpr hk_code code() const noexcept { return ok() ? HK_OK : static_cast<hk_code>(value_); }
    // Too little room, or other threads came first: another try may do better.
    constexpr bool early() const noexcept { return value_ == HK_E_NOROOM || value_ == HK_E_AGAIN; }
    const char *name() const noexcept { return hk_code_name(value_); }
    const char *text() const noexcept { return hk_strerror(value_); }

private:
    std::int64_t value_;
};

// An array and its length, which C++20 has as std::span.
template <class T>
class span {
public:
    constexpr span() noexcept = default;
    constexpr span(T *data, std::size_t size) noexcept : data_(data), size_(size) {}
    template <std::size_t N>
    constexpr span(T (&array)[N]) noexcept : data_(array), size_(N) {}
    // Of anything that has `data` and `size`: std::vector, std::array, another span.
    template <class C, class = std::enable_if_t<std::is_convertible_v<
                           std::remove_pointer_t<decltype(std::declval<C &>().data())> (*)[], T (*)[]>>>
    constexpr span(C &&list) noexcept : data_(list.data()), size_(list.size()) {}

    constexpr T *data() const noexcept { return data_; }
    constexpr std::size_t size() const noexcept { return size_; }
    constexpr bool empty() const noexcept { return size_ == 0; }
    constexpr T *begin() const noexcept { return data_; }
    constexpr T *end() const noexcept { return data_ + size_; }
    constexpr T &operator[](std::size_t at) const noexcept { return data_[at]; }
    constexpr span first(std::size_t count) const noexcept { return {data_, count}; }

private:
    T *data_ = nullptr;
    std::size_t size_ = 0;
};

using words = span<const std::uint64_t>;
using places = span<std::uint64_t>;
using numbers = span<const std::uint32_t>;
using number_places = span<std::uint32_t>;

// The owner of a handle of the C library. An empty one may be given to any call, which returns HK_E_NULL.
template <class H, void (*Free)(H *)>
class handle {
public:
    H *get() const noexcept { return at_.get(); }
    explicit operator bool() const noexcept { return at_ != nullptr; }
    // Frees the handle now.
    void reset() noexcept { at_.reset(); }

protected:
    // Owns what a call made, if it made something, in the place of what it owned before.
    result own(std::int64_t code, H *made) noexcept {
        if (code >= 0) at_.reset(made);
        return code;
    }

private:
    struct closer {
        void operator()(H *at) const noexcept { Free(at); }
    };
    std::unique_ptr<H, closer> at_;
};

// A thread's hand on a set of rings.
class hand : public handle<hk_hand, hk_hand_free> {
public:
    result open(span<const hk_ring_plan> plans) noexcept {
        hk_hand *made = nullptr;
        auto code = hk_hand_open(&made, plans.data(), plans.size());
        return own(code, made);
    }
    // Makes another hand on the same rings, for another thread.
    result split(hand &other) noexcept {
        hk_hand *made = nullptr;
        auto code = hk_hand_split(get(), &made);
        return other.own(code, made);
    }

    result try_put_bulk(std::size_t ring, words in) noexcept {
        return hk_ring_try_put_bulk(get(), ring, in.data(), in.size());
    }
    result try_put_burst(std::size_t ring, words in) noexcept {
        return hk_ring_try_put_burst(get(), ring, in.data(), in.size());
    }
    result try_take_bulk(std::size_t ring, places out) noexcept {
        return hk_ring_try_take_bulk(get(), ring, out.data(), out.size());
    }
    result try_take_burst(std::size_t ring, places out) noexcept {
        return hk_ring_try_take_burst(get(), ring, out.data(), out.size());
    }
    result try_put_one(std::size_t ring, std::uint64_t word) noexcept { return hk_ring_try_put_one(get(), ring, word); }
    result try_take_one(std::size_t ring, std::uint64_t &word) noexcept {
        return hk_ring_try_take_one(get(), ring, &word);
    }
    result peek_put_bulk(std::size_t ring, std::size_t n) noexcept { return hk_ring_peek_put_bulk(get(), ring, n); }
    result peek_put_burst(std::size_t ring, std::size_t n) noexcept { return hk_ring_peek_put_burst(get(), ring, n); }
    result peek_take_bulk(std::size_t ring, places out) noexcept {
        return hk_ring_peek_take_bulk(get(), ring, out.data(), out.size());
    }
    result peek_take_burst(std::size_t ring, places out) noexcept {
        return hk_ring_peek_take_burst(get(), ring, out.data(), out.size());
    }
    result advance_put(words in) noexcept { return hk_ring_advance_put(get(), in.data(), in.size()); }
    result hold_take_bulk(std::size_t ring, std::size_t n) noexcept { return hk_ring_hold_take_bulk(get(), ring, n); }
    result hold_take_burst(std::size_t ring, std::size_t n) noexcept { return hk_ring_hold_take_burst(get(), ring, n); }
    result advance_take(places out) noexcept { return hk_ring_advance_take(get(), out.data(), out.size()); }
    result release_take(places out) noexcept { return hk_ring_release_take(get(), out.data(), out.size()); }
    result finish_put(words in) noexcept { return hk_ring_finish_put(get(), in.data(), in.size()); }
    result finish_take(std::size_t n) noexcept { return hk_ring_finish_take(get(), n); }

    result span_open() const noexcept { return hk_hand_span(get()); }
    result left() const noexcept { return hk_hand_left(get()); }
    result count(std::size_t ring) const noexcept { return hk_ring_count(get(), ring); }
    result room(std::size_t ring) const noexcept { return hk_ring_room(get(), ring); }
    result close() noexcept { return hk_hand_close(get()); }
    result drain(std::size_t ring, places out) noexcept {
        return hk_hand_drain(get(), ring, out.data(), out.size());
    }
};

// An end of a hand that puts, and one that takes. It has to end before its hand does.
class producer : public handle<hk_producer, hk_producer_free> {
public:
    result open(hand &of, std::size_t ring) noexcept {
        hk_producer *made = nullptr;
        auto code = hk_producer_open(&made, of.get(), ring);
        return own(code, made);
    }

    result put(std::uint64_t word) noexcept { return hk_producer_put(get(), word); }
    result finish(std::uint64_t word) noexcept { return hk_producer_finish(get(), word); }
    result hold(std::size_t most) noexcept { return hk_producer_hold(get(), most); }
    result release() noexcept { return hk_producer_release(get()); }
};

class consumer : public handle<hk_consumer, hk_consumer_free> {
public:
    result open(hand &of, std::size_t ring) noexcept {
        hk_consumer *made = nullptr;
        auto code = hk_consumer_open(&made, of.get(), ring);
        return own(code, made);
    }

    result take(std::uint64_t &word) noexcept { return hk_consumer_take(get(), &word); }
    result finish() noexcept { return hk_consumer_finish(get()); }
    result hold(std::size_t most) noexcept { return hk_consumer_hold(get(), most); }
    result release() noexcept { return hk_consumer_release(get()); }
};

// A thread's handle on a pool of numbers. Where it ends, what is cached is put on the free ring, if one try_flush does.
class pool : public handle<hk_pool, hk_pool_free> {
public:
    result open(std::uint32_t n, std::uint32_t cache, std::uint32_t rings) noexcept {
        hk_pool *made = nullptr;
        auto code = hk_pool_open(&made, n, cache, rings);
        return own(code, made);
    }
    result split(pool &other) noexcept {
        hk_pool *made = nullptr;
        auto code = hk_pool_split(get(), &made);
        return other.own(code, made);
    }

    result try_get_bulk(number_places out) noexcept { return hk_pool_try_get_bulk(get(), out.data(), out.size()); }
    result try_put_bulk(numbers in) noexcept { return hk_pool_try_put_bulk(get(), in.data(), in.size()); }
    result try_flush() noexcept { return hk_pool_try_flush(get()); }
    result try_send_bulk(std::size_t ring, numbers in) noexcept {
        return hk_pool_try_send_bulk(get(), ring, in.data(), in.size());
    }
    result try_send_burst(std::size_t ring, numbers in) noexcept {
        return hk_pool_try_send_burst(get(), ring, in.data(), in.size());
    }
    result try_receive_bulk(std::size_t ring, number_places out) noexcept {
        return hk_pool_try_receive_bulk(get(), ring, out.data(), out.size());
    }
    result try_receive_burst(std::size_t ring, number_places out) noexcept {
        return hk_pool_try_receive_burst(get(), ring, out.data(), out.size());
    }
    result ring_count(std::size_t ring) const noexcept { return hk_pool_ring_count(get(), ring); }
    result ring_room(std::size_t ring) const noexcept { return hk_pool_ring_room(get(), ring); }
    result free_count() const noexcept { return hk_pool_free_count(get()); }
    result cached() const noexcept { return hk_pool_cached(get()); }
    bool owns(std::uint32_t number) const noexcept { return hk_pool_owns(get(), number) == 1; }
};

// A handle on a table of routes.
class routes : public handle<hk_routes, hk_routes_free> {
public:
    result open(std::uint32_t bits, std::uint32_t groups) noexcept {
        hk_routes *made = nullptr;
        auto code = hk_routes_open(&made, bits, groups);
        return own(code, made);
    }
    result share(routes &other) noexcept {
        hk_routes *made = nullptr;
        auto code = hk_routes_share(get(), &made);
        return other.own(code, made);
    }

    result add(std::uint32_t address, std::uint32_t depth, std::uint32_t hop) noexcept {
        return hk_routes_add(get(), address, depth, hop);
    }
    result remove(std::uint32_t address, std::uint32_t depth) noexcept {
        return hk_routes_remove(get(), address, depth);
    }
    result lookup(std::uint32_t address) const noexcept { return hk_routes_lookup(get(), address); }
    // HK_E_COUNT if there are not as many places as addresses.
    result lookup_bulk(numbers addresses, number_places hops) const noexcept {
        if (addresses.size() != hops.size()) return HK_E_COUNT;
        return hk_routes_lookup_bulk(get(), addresses.data(), hops.data(), hops.size());
    }
};

// A reader of a forwarding table.
class forward : public handle<hk_forward, hk_forward_free> {
public:
    result hold() noexcept { return hk_forward_hold(get()); }
    result release() noexcept { return hk_forward_release(get()); }
    result lookup(std::uint32_t address) noexcept { return hk_forward_lookup(get(), address); }
    result lookup_bulk(numbers addresses, number_places hops) noexcept {
        if (addresses.size() != hops.size()) return HK_E_COUNT;
        return hk_forward_lookup_bulk(get(), addresses.data(), hops.data(), hops.size());
    }
    // The number of the result is the verdict.
    result frame(span<std::uint8_t> bytes, std::size_t wire) noexcept {
        return hk_forward_frame(get(), bytes.data(), bytes.size(), wire);
    }
    result verdict(span<const std::uint8_t> bytes, std::size_t wire) noexcept {
        return hk_forward_verdict(get(), bytes.data(), bytes.size(), wire);
    }
    result burst(span<const hk_frame> frames, number_places verdicts) noexcept {
        if (frames.size() != verdicts.size()) return HK_E_COUNT;
        return hk_forward_burst(get(), frames.data(), verdicts.data(), frames.size());
    }
    result classify(std::size_t port, span<const std::uint8_t> bytes) noexcept {
        return hk_forward_class(get(), port, bytes.data(), bytes.size());
    }

private:
    friend class fib;
};

// The writer of a forwarding table.
class fib : public handle<hk_fib, hk_fib_free> {
public:
    result open(std::uint32_t bits, std::uint32_t groups, span<const hk_port> ports,
                span<const hk_next_hop> hops) noexcept {
        hk_fib *made = nullptr;
        auto code = hk_fib_open(&made, bits, groups, ports.data(), ports.size(), hops.data(), hops.size());
        return own(code, made);
    }
    result open_whole(std::uint32_t bits, std::uint32_t groups, span<const hk_port> ports,
                      span<const hk_next_hop> hops) noexcept {
        hk_fib *made = nullptr;
        auto code = hk_fib_open_whole(&made, bits, groups, ports.data(), ports.size(), hops.data(), hops.size());
        return own(code, made);
    }
    result share(forward &reader) noexcept {
        hk_forward *made = nullptr;
        auto code = hk_fib_share(get(), &made);
        return reader.own(code, made);
    }

    result add(std::uint32_t address, std::uint32_t depth, std::uint32_t hop) noexcept {
        return hk_fib_add(get(), address, depth, hop);
    }
    result remove(std::uint32_t address, std::uint32_t depth) noexcept { return hk_fib_remove(get(), address, depth); }
    result clear() noexcept { return hk_fib_clear(get()); }
    result set_hop(std::uint32_t number, const hk_next_hop &hop) noexcept {
        return hk_fib_set_hop(get(), number, &hop);
    }
    result set_port(std::uint32_t number, const hk_port &port) noexcept {
        return hk_fib_set_port(get(), number, &port);
    }
    result publish() noexcept { return hk_fib_publish(get()); }
    result settle() noexcept { return hk_fib_settle(get()); }
    result pending() const noexcept { return hk_fib_pending(get()); }
    result find(std::uint32_t address, std::uint32_t depth) const noexcept { return hk_fib_get(get(), address, depth); }
    result count() const noexcept { return hk_fib_count(get()); }
    result walk(std::uint32_t address, std::uint32_t depth, hk_fib_route &route) const noexcept {
        return hk_fib_walk(get(), address, depth, &route);
    }
};

// A reorder window.
class reorder : public handle<hk_reorder, hk_reorder_free> {
public:
    result open(std::uint32_t size) noexcept {
        hk_reorder *made = nullptr;
        auto code = hk_reorder_open(&made, size);
        return own(code, made);
    }
    result insert(std::uint64_t number, std::uint64_t word) noexcept { return hk_reorder_insert(get(), number, word); }
    result pop(std::uint64_t &word) noexcept { return hk_reorder_pop(get(), &word); }
    result drain(places out) noexcept { return hk_reorder_drain(get(), out.data(), out.size()); }
    result next(std::uint64_t &number) const noexcept { return hk_reorder_next(get(), &number); }
    result skip(std::uint64_t number) noexcept { return hk_reorder_skip(get(), number); }
};

// A ring of objects, each owned by one side at a time: a put takes it from its unique_ptr, a take gives it to another
// one. Each thread has a `ring` of its own, which `split` makes. Where the last one ends, the objects that are left are
// deleted. Both sides are head/tail-sync, so no call is pending.
template <class T>
class ring {
public:
    // Makes a ring that holds `capacity` objects, 1 to 2^20 - 1. HK_E_PLAN, HK_E_MEMORY.
    result open(std::uint32_t capacity) noexcept {
        const hk_ring_plan plan[1] = {{capacity, 1, HK_HTS, HK_HTS, 0, 0}};
        ring made;
        made.rest_ = new (std::nothrow) rest;
        if (!made.rest_) return HK_E_MEMORY;
        if (auto code = made.rest_->kept.open(plan); !code) return code;
        if (auto code = made.rest_->kept.split(made.hand_); !code) return code;
        *this = std::move(made);
        return HK_OK;
    }
    // Makes another handle on the same ring, for another thread. HK_E_NULL if this one is empty, HK_E_AGAIN,
    // HK_E_PARTS, HK_E_MEMORY.
    result split(ring &other) noexcept {
        ring made;
        if (auto code = hand_.split(made.hand_); !code) return code;
        made.rest_ = rest_;
        rest_->users.fetch_add(1, std::memory_order_relaxed);
        other = std::move(made);
        return HK_OK;
    }
    // Frees this handle now.
    void reset() noexcept {
        hand_.reset();
        auto *last = std::exchange(rest_, nullptr);
        if (last && last->users.fetch_sub(1, std::memory_order_acq_rel) == 1) delete last;
    }
    explicit operator bool() const noexcept { return static_cast<bool>(hand_); }

    ring() noexcept = default;
    ring(ring &&other) noexcept : rest_(std::exchange(other.rest_, nullptr)), hand_(std::move(other.hand_)) {}
    ring &operator=(ring &&other) noexcept {
        if (this != &other) {
            reset();
            rest_ = std::exchange(other.rest_, nullptr);
            hand_ = std::move(other.hand_);
        }
        return *this;
    }
    ~ring() { reset(); }

    // Puts an object: the pointer is empty then. If a code is returned, it still owns the object. HK_E_NULL, also if it
    // owns none; HK_E_NOROOM, HK_E_WORN, HK_E_AGAIN.
    result try_put(std::unique_ptr<T> &object) noexcept {
        if (!object) return HK_E_NULL;
        auto code = hand_.try_put_one(0, static_cast<std::uint64_t>(reinterpret_cast<std::uintptr_t>(object.get())));
        if (code) (void)object.release();
        return code;
    }
    // Takes the oldest object. If a code is returned, the pointer is as it was. HK_E_NULL, HK_E_NOROOM,
    // HK_E_AGAIN.
    result try_take(std::unique_ptr<T> &object) noexcept {
        std::uint64_t word = 0;
        auto code = hand_.try_take_one(0, word);
        if (code) object.reset(at(word));
        return code;
    }
    // How many objects are queued, and how many more there is room for, as found by two loads.
    result count() const noexcept { return hand_.count(0); }
    result room() const noexcept { return hand_.room(0); }

private:
    static T *at(std::uint64_t word) noexcept { return reinterpret_cast<T *>(static_cast<std::uintptr_t>(word)); }

    // What the handles of a ring share: how many they are, and a hand that is only for the end. Each handle frees its
    // own hand before it gives this up, so the last one finds the kept hand alone.
    struct rest {
        std::atomic<std::size_t> users{1};
        hand kept;
        ~rest() {
            if (!kept || !kept.close()) return;
            std::uint64_t word[1] = {0};
            while (kept.drain(0, word).count() == 1) delete at(word[0]);
        }
    };

    rest *rest_ = nullptr;
    hand hand_;
};

} // namespace hokhtura
#endif
