//! Rings, pools of numbers, routes, forwarding of frames and reorder windows of libhokhtura.
//!
//! Each handle is used by one thread at a time: it is `Send` if its words are, and never `Sync`, so the compiler
//! enforces the rule of `hokhtura.h`. Threads share a ring, a pool or a table through a handle each; a `static`, or a
//! reference for other threads, needs a `Mutex` around a handle. A `Ring` of raw pointers isn't `Send`: put addresses
//! on it (`pointer as usize`), or use a [`Queue`], which takes any `Send` type.
//!
//! ```
//! use hokhtura::Ring;
//!
//! # fn main() -> Result<(), hokhtura::Error> {
//! let (mut producer, mut consumer) = Ring::<u64>::new(1000)?.split()?;
//! let sender = std::thread::spawn(move || producer.try_put_bulk(&[1, 2, 3]));
//! assert_eq!(sender.join().unwrap(), Ok(3));
//! let mut words = [0; 8];
//! assert_eq!(consumer.try_take_burst(&mut words), Ok(3));
//! assert_eq!(words[..3], [1, 2, 3]);
//! # Ok(())
//! # }
//! ```
//!
//! Which mode of a side to use:
//!
//! | side | calls | for |
//! |---|---|---|
//! | `Mode::Multi` | `try_put_bulk`, ..; word by word [`Producer::put`], [`Consumer::take`] | any number of threads |
//! | `Mode::Hts` | the same, one call of the side at a time | sides that are held now and then |
//! | `Mode::Hts`, held | [`Producer::hold`], [`Consumer::hold`] | words one by one, by one thread for a while |
//!
//! A put or a take has two halves: it reserves positions, and then publishes or frees them. A call tries each half up
//! to 1,024 times (the get of a pool up to twice as often), with a pause between two tries, and only iterators that say
//! so wait. The rings aren't lock-free: a thread that stops in between, or a handle that is dropped with a call
//! pending, blocks that side and soon the other. Calls of others then return [`Error::Again`] (head/tail-sync),
//! [`Error::Pending`] (multi) or [`Error::NoRoom`] forever. What a thread did before it put a word, or put or sent a
//! number, happens before another thread takes, gets or receives it.
//!
//! [`Error::Pending`] of a ring isn't a refusal: the call has its positions, and has to be finished, by `finish`,
//! `finish_put` or `finish_take`. So it mustn't be passed on by `?`. It can't occur with one producer and one consumer,
//! as in the examples here, nor on head/tail-sync sides.
//!
//! The crate is `no_std` and needs `alloc`. With the feature `std`, which is on by default, iterators that wait let
//! other threads run; without it they spin. The library below it is for Linux on x86-64 (`x86-64-v2`), needs libc, and
//! takes the memory of rings, pools and tables from that, not from Rust's global allocator.
//!
//! No loom or other model checker explores the memory orders. The atomic steps of rings, pools and tables are proved,
//! for sequentially consistent atomics; those of the library's allocator (`hk_heap.c`) and of the `Arc` in a `Queue`
//! aren't.
//!
//! # Unsafe code
//!
//! Nearly all of it is calls of `hokhtura.h`. Each is sound because its handle came from an open, a split or a share
//! and is freed by its drop alone; because `&mut self`, or `&self` of a type that isn't `Sync`, makes it the only call
//! on that handle; and because an array goes to it with its own length. A handle may change threads because what it has
//! may, as the library's compiler says of all but closed rings ([`Left`] isn't `Send`). The other blocks turn
//! words into bits and back ([`Word`]), and pointers on a ring into the boxes that they came from: what comes out was
//! put in, each word once, which is proved of the library, and a ring keeps its type of words. A pointer goes over a
//! ring as an address. Its provenance is exposed by `into_bits`, or by the C library, which reads the words of a slice
//! as integers; where that fills a slice of pointers, its store is taken to act as `with_exposed_provenance`.
#![no_std]
#![deny(missing_docs)]
#![warn(unsafe_op_in_unsafe_fn, clippy::pedantic)]

extern crate alloc;
#[cfg(feature = "std")]
extern crate std;

mod error;
mod ffi;
mod fib;
mod forward;
mod hand;
mod held;
mod pool;
mod queue;
mod reorder;
mod ring;
mod routes;
mod word;

pub use error::Error;
pub use fib::{Fib, Route};
pub use forward::{Addressed, Forwarder, Frame, Held, NextHop, Port, Reason, Verdict, MAX_FRAMES};
pub use hand::Mode;
pub use held::{HeldPuts, HeldTakes};
pub use pool::{Pool, MAX_NUMBERS};
pub use queue::Queue;
pub use reorder::{InTurn, Reorder};
pub use ring::{Consumer, Left, Producer, Ring, Taken};
pub use routes::{FirstLevel, Routes};
pub use word::Word;

/// The largest number of words in one call on a head/tail-sync side.
pub const MAX_WORDS: usize = 4095;

/// The largest number of words in one put or take on a multi side: as many as any ring holds.
pub const MAX_WORDS_MULTI: usize = 1_048_575;

/// What a thread does that waits for another one.
pub(crate) fn relax() {
    #[cfg(feature = "std")]
    std::thread::yield_now();
    #[cfg(not(feature = "std"))]
    core::hint::spin_loop();
}
