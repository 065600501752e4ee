//! The queue in the shape of concurrent-queue's bounded one. Closing is done here.
use ring_queue::RingQueue;
use std::sync::atomic::{AtomicBool, Ordering};

#[derive(Clone, Copy, Debug, PartialEq, Eq)]
pub enum PopError {
    Empty,
    Closed,
}

#[derive(Clone, Copy, Debug, PartialEq, Eq)]
pub enum PushError<T> {
    Full(T),
    Closed(T),
}

pub struct ConcurrentQueue<T> {
    ring: RingQueue<T>,
    closed: AtomicBool,
}

impl<T> ConcurrentQueue<T> {
    pub fn bounded(capacity: usize) -> Self {
        assert!(capacity > 0, "capacity must be positive");
        ConcurrentQueue { ring: RingQueue::new(capacity), closed: AtomicBool::new(false) }
    }

    pub fn capacity(&self) -> Option<usize> {
        Some(self.ring.capacity())
    }

    pub fn len(&self) -> usize {
        self.ring.len()
    }

    pub fn is_empty(&self) -> bool {
        self.ring.is_empty()
    }

    pub fn is_full(&self) -> bool {
        self.ring.is_full()
    }

    pub fn close(&self) -> bool {
        !self.closed.swap(true, Ordering::SeqCst)
    }

    pub fn is_closed(&self) -> bool {
        self.closed.load(Ordering::SeqCst)
    }

    pub fn push(&self, value: T) -> Result<(), PushError<T>> {
        if self.is_closed() {
            return Err(PushError::Closed(value));
        }
        self.ring.push(value).map_err(PushError::Full)
    }

    pub fn pop(&self) -> Result<T, PopError> {
        self.ring.pop().ok_or(if self.is_closed() { PopError::Closed } else { PopError::Empty })
    }
}
