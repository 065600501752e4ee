//! The queue under the name that crossbeam-queue's tests use.
pub use ring_queue::RingQueue as ArrayQueue;
