//! The calls of `hokhtura.h`.

#[repr(C)]
pub struct Hand {
    opaque: [u8; 0],
}

#[repr(C)]
pub struct Producer {
    opaque: [u8; 0],
}

#[repr(C)]
pub struct Consumer {
    opaque: [u8; 0],
}

#[repr(C)]
pub struct Pool {
    opaque: [u8; 0],
}

#[repr(C)]
pub struct Table {
    opaque: [u8; 0],
}

#[repr(C)]
pub struct Window {
    opaque: [u8; 0],
}

#[repr(C)]
pub struct Fib {
    opaque: [u8; 0],
}

#[repr(C)]
pub struct Forward {
    opaque: [u8; 0],
}

#[repr(C)]
pub struct Port {
    pub address: u32,
    pub mac: [u8; 6],
    pub depth: u8,
    pub zero: u8,
}

#[repr(C)]
pub struct Hop {
    pub port: u32,
    pub to: [u8; 6],
}

#[repr(C)]
pub struct FibRoute {
    pub address: u32,
    pub depth: u32,
    pub hop: u32,
}

#[repr(C)]
pub struct Frame {
    pub bytes: *mut u8,
    pub held: usize,
    pub wire: usize,
}

#[repr(C)]
pub struct Plan {
    pub size: u32,
    pub exact: u32,
    pub put: u32,
    pub take: u32,
    pub last: u64,
    pub reserved: u64,
}

extern "C" {
    pub fn hk_hand_open(out: *mut *mut Hand, plans: *const Plan, count: usize) -> i64;
    pub fn hk_hand_split(hand: *mut Hand, out: *mut *mut Hand) -> i64;
    pub fn hk_hand_free(hand: *mut Hand);
    pub fn hk_hand_left(hand: *const Hand) -> i64;
    pub fn hk_hand_close(hand: *mut Hand) -> i64;
    pub fn hk_hand_drain(hand: *mut Hand, ring: usize, words: *mut u64, n: usize) -> i64;
    pub fn hk_ring_try_put_bulk(hand: *mut Hand, ring: usize, words: *const u64, n: usize) -> i64;
    pub fn hk_ring_try_put_burst(hand: *mut Hand, ring: usize, words: *const u64, n: usize) -> i64;
    pub fn hk_ring_try_take_bulk(hand: *mut Hand, ring: usize, words: *mut u64, n: usize) -> i64;
    pub fn hk_ring_try_take_burst(hand: *mut Hand, ring: usize, words: *mut u64, n: usize) -> i64;
    pub fn hk_ring_try_put_one(hand: *mut Hand, ring: usize, word: u64) -> i64;
    pub fn hk_ring_try_take_one(hand: *mut Hand, ring: usize, word: *mut u64) -> i64;
    pub fn hk_ring_finish_put(hand: *mut Hand, words: *const u64, n: usize) -> i64;
    pub fn hk_ring_finish_take(hand: *mut Hand, n: usize) -> i64;
    pub fn hk_producer_open(out: *mut *mut Producer, hand: *mut Hand, ring: usize) -> i64;
    pub fn hk_producer_put_once(end: *mut Producer, word: u64) -> i64;
    pub fn hk_producer_put_again(end: *mut Producer, word: u64, code: i64) -> i64;
    pub fn hk_producer_finish(end: *mut Producer, word: u64) -> i64;
    pub fn hk_producer_hold(end: *mut Producer, most: usize) -> i64;
    pub fn hk_producer_release(end: *mut Producer) -> i64;
    pub fn hk_consumer_open(out: *mut *mut Consumer, hand: *mut Hand, ring: usize) -> i64;
    pub fn hk_consumer_take_once(end: *mut Consumer, word: *mut u64) -> i64;
    pub fn hk_consumer_take_again(end: *mut Consumer, word: *mut u64, code: i64) -> i64;
    pub fn hk_consumer_finish(end: *mut Consumer) -> i64;
    pub fn hk_consumer_hold(end: *mut Consumer, most: usize) -> i64;
    pub fn hk_consumer_release(end: *mut Consumer) -> i64;
    pub fn hk_ring_count(hand: *const Hand, ring: usize) -> i64;
    pub fn hk_ring_room(hand: *const Hand, ring: usize) -> i64;
    pub fn hk_pool_open(out: *mut *mut Pool, n: u32, cache: u32, rings: u32) -> i64;
    pub fn hk_pool_split(pool: *mut Pool, out: *mut *mut Pool) -> i64;
    pub fn hk_pool_free(pool: *mut Pool);
    pub fn hk_pool_try_get_bulk(pool: *mut Pool, numbers: *mut u32, n: usize) -> i64;
    pub fn hk_pool_try_put_bulk(pool: *mut Pool, numbers: *const u32, n: usize) -> i64;
    pub fn hk_pool_try_flush(pool: *mut Pool) -> i64;
    pub fn hk_pool_cached(pool: *const Pool) -> i64;
    pub fn hk_pool_owns(pool: *const Pool, number: u32) -> i64;
    pub fn hk_pool_try_send_bulk(pool: *mut Pool, ring: usize, numbers: *const u32, n: usize) -> i64;
    pub fn hk_pool_try_send_burst(pool: *mut Pool, ring: usize, numbers: *const u32, n: usize) -> i64;
    pub fn hk_pool_try_receive_bulk(pool: *mut Pool, ring: usize, numbers: *mut u32, n: usize) -> i64;
    pub fn hk_pool_try_receive_burst(pool: *mut Pool, ring: usize, numbers: *mut u32, n: usize) -> i64;
    pub fn hk_pool_ring_count(pool: *const Pool, ring: usize) -> i64;
    pub fn hk_pool_ring_room(pool: *const Pool, ring: usize) -> i64;
    pub fn hk_pool_free_count(pool: *const Pool) -> i64;
    pub fn hk_routes_open(out: *mut *mut Table, bits: u32, groups: u32) -> i64;
    pub fn hk_routes_share(routes: *mut Table, out: *mut *mut Table) -> i64;
    pub fn hk_routes_add(routes: *mut Table, address: u32, depth: u32, hop: u32) -> i64;
    pub fn hk_routes_remove(routes: *mut Table, address: u32, depth: u32) -> i64;
    pub fn hk_routes_lookup(routes: *const Table, address: u32) -> i64;
    pub fn hk_routes_lookup_bulk(routes: *const Table, addresses: *const u32, hops: *mut u32, n: usize) -> i64;
    pub fn hk_routes_free(routes: *mut Table);
    pub fn hk_fib_open(
        out: *mut *mut Fib,
        bits: u32,
        groups: u32,
        ports: *const Port,
        port_count: usize,
        hops: *const Hop,
        hop_count: usize,
    ) -> i64;
    pub fn hk_fib_open_whole(
        out: *mut *mut Fib,
        bits: u32,
        groups: u32,
        ports: *const Port,
        port_count: usize,
        hops: *const Hop,
        hop_count: usize,
    ) -> i64;
    pub fn hk_fib_share(fib: *mut Fib, out: *mut *mut Forward) -> i64;
    pub fn hk_fib_add(fib: *mut Fib, address: u32, depth: u32, hop: u32) -> i64;
    pub fn hk_fib_remove(fib: *mut Fib, address: u32, depth: u32) -> i64;
    pub fn hk_fib_clear(fib: *mut Fib) -> i64;
    pub fn hk_fib_set_hop(fib: *mut Fib, number: u32, hop: *const Hop) -> i64;
    pub fn hk_fib_set_port(fib: *mut Fib, number: u32, port: *const Port) -> i64;
    pub fn hk_fib_publish(fib: *mut Fib) -> i64;
    pub fn hk_fib_settle(fib: *mut Fib) -> i64;
    pub fn hk_fib_pending(fib: *const Fib) -> i64;
    pub fn hk_fib_get(fib: *const Fib, address: u32, depth: u32) -> i64;
    pub fn hk_fib_count(fib: *const Fib) -> i64;
    pub fn hk_fib_walk(fib: *const Fib, address: u32, depth: u32, route: *mut FibRoute) -> i64;
    pub fn hk_fib_free(fib: *mut Fib);
    pub fn hk_forward_hold(forward: *mut Forward) -> i64;
    pub fn hk_forward_release(forward: *mut Forward) -> i64;
    pub fn hk_forward_lookup(forward: *mut Forward, address: u32) -> i64;
    pub fn hk_forward_lookup_bulk(forward: *mut Forward, addresses: *const u32, hops: *mut u32, n: usize) -> i64;
    pub fn hk_forward_frame(forward: *mut Forward, bytes: *mut u8, held: usize, wire: usize) -> i64;
    pub fn hk_forward_burst(forward: *mut Forward, frames: *const Frame, verdicts: *mut u32, n: usize) -> i64;
    pub fn hk_forward_verdict(forward: *mut Forward, bytes: *const u8, held: usize, wire: usize) -> i64;
    pub fn hk_forward_class(forward: *mut Forward, port: usize, bytes: *const u8, held: usize) -> i64;
    pub fn hk_forward_free(forward: *mut Forward);
    pub fn hk_reorder_open(out: *mut *mut Window, size: u32) -> i64;
    pub fn hk_reorder_insert(window: *mut Window, number: u64, word: u64) -> i64;
    pub fn hk_reorder_pop(window: *mut Window, word: *mut u64) -> i64;
    pub fn hk_reorder_drain(window: *mut Window, words: *mut u64, n: usize) -> i64;
    pub fn hk_reorder_next(window: *const Window, number: *mut u64) -> i64;
    pub fn hk_reorder_skip(window: *mut Window, number: u64) -> i64;
    pub fn hk_reorder_free(window: *mut Window);
}

/// `hk_fib_open` or `hk_fib_open_whole`.
pub type OpenFib = unsafe extern "C" fn(*mut *mut Fib, u32, u32, *const Port, usize, *const Hop, usize) -> i64;

/// What `hk_reorder_pop` and `hk_reorder_drain` return if the word hasn't arrived.
pub const NOTHING: i64 = -27;
