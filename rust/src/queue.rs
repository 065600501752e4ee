//! A ring of owned values.
use crate::error::Error;
use crate::hand::{Hand, Mode};
use crate::word::Word;
use alloc::boxed::Box;
use alloc::sync::Arc;
use core::fmt;

/// One thread's handle on a ring of values of any `Send` type. Each value is in a box while it is on the ring, and it
/// is owned by one side at a time: a put moves it in, a take moves it out. The last handle drops the values that are
/// left on the ring; if the drop of one panics, the values after it leak.
///
/// Both sides are head/tail-sync, so no method returns `Pending`: a call is done, or nothing is changed. A queue takes
/// 2^52 - 1 values, 14 years at ten million a second, and then returns `Worn`.
///
/// ```
/// use hokhtura::{Error, Queue};
///
/// # fn main() -> Result<(), Error> {
/// let mut sender = Queue::new(100)?;
/// let mut receiver = sender.try_clone()?;
/// let thread = std::thread::spawn(move || sender.try_put(String::from("a value")).is_ok());
/// assert!(thread.join().unwrap());
/// assert_eq!(receiver.try_take()?, "a value");
/// assert_eq!(receiver.try_take(), Err(Error::NoRoom));
/// # Ok(())
/// # }
/// ```
pub struct Queue<T> {
    // It is dropped before `shared`.
    hand: Hand<*mut T>,
    shared: Arc<Shared<T>>,
}

// SAFETY: a handle may go to another thread with the values that it may take. It isn't `Sync`: no two calls overlap.
unsafe impl<T: Send> Send for Queue<T> {}

/// What all handles share: a hand that is used only at the end. Each handle drops its own hand before it gives this up,
/// so the kept hand is the only one then.
struct Shared<T> {
    kept: Hand<*mut T>,
}

/// A value that was taken off the ring.
#[allow(clippy::unnecessary_box_returns)] // a caller may keep the box
fn value<T>(at: *mut T) -> Box<T> {
    // SAFETY: each pointer on the ring is that of a box that was given up to it, and a ring returns it once.
    unsafe { Box::from_raw(at) }
}

impl<T> Drop for Shared<T> {
    fn drop(&mut self) {
        let mut word = [0];
        if self.kept.close().is_err() {
            return;
        }
        while self.kept.drain(&mut word) == Ok(1) {
            // SAFETY: a word that is left was put as a pointer.
            drop(value(unsafe { <*mut T>::of_bits(word[0]) }));
        }
    }
}

impl<T: Send> Queue<T> {
    /// A ring that holds `capacity` values, 1 to 2^20 - 1.
    ///
    /// # Errors
    ///
    /// `Plan`, `Memory`.
    pub fn new(capacity: usize) -> Result<Self, Error> {
        let mut kept = Hand::open(capacity, Mode::Hts, Mode::Hts)?;
        let hand = kept.split()?;
        Ok(Queue { hand, shared: Arc::new(Shared { kept }) })
    }

    /// Another handle on the same ring, for another thread.
    ///
    /// # Errors
    ///
    /// `Memory`, `Again`, `Parts`.
    pub fn try_clone(&mut self) -> Result<Self, Error> {
        Ok(Queue { hand: self.hand.split()?, shared: Arc::clone(&self.shared) })
    }

    /// Puts a value. It allocates the value's box, also if the ring then has no room.
    ///
    /// # Errors
    ///
    /// `NoRoom`, `Again`, `Worn`. The value is returned with the error.
    pub fn try_put(&mut self, value: T) -> Result<(), (T, Error)> {
        self.try_put_box(Box::new(value)).map_err(|(value, error)| (*value, error))
    }

    /// Puts a value that is in a box already. It doesn't allocate.
    ///
    /// # Errors
    ///
    /// `NoRoom`, `Again`, `Worn`. The value is returned with the error.
    pub fn try_put_box(&mut self, boxed: Box<T>) -> Result<(), (Box<T>, Error)> {
        let at = Box::into_raw(boxed);
        match self.hand.put_one(at) {
            Ok(_) => Ok(()),
            // It isn't on the ring.
            Err(error) => Err((value(at), error)),
        }
    }

    /// Takes the oldest value.
    ///
    /// # Errors
    ///
    /// `NoRoom` if there is none, `Again`.
    pub fn try_take(&mut self) -> Result<T, Error> {
        self.try_take_box().map(|boxed| *boxed)
    }

    /// Takes the oldest value in its box.
    ///
    /// # Errors
    ///
    /// `NoRoom` if there is none, `Again`.
    pub fn try_take_box(&mut self) -> Result<Box<T>, Error> {
        let mut bits = 0;
        // SAFETY: a word that was taken was put as a pointer to a box.
        self.hand.take_bits(&mut bits).map(|_| value(unsafe { <*mut T>::of_bits(bits) }))
    }

    /// How many values are queued. Others may put or take some meanwhile.
    #[must_use]
    pub fn len(&self) -> usize {
        self.hand.count()
    }

    /// Whether no value is queued. Others may put some meanwhile.
    #[must_use]
    pub fn is_empty(&self) -> bool {
        self.len() == 0
    }

    /// How many values the ring holds.
    #[must_use]
    pub fn capacity(&self) -> usize {
        self.hand.capacity()
    }
}

impl<T> fmt::Debug for Queue<T> {
    fn fmt(&self, f: &mut fmt::Formatter<'_>) -> fmt::Result {
        f.debug_struct("Queue").field("capacity", &self.hand.capacity()).finish_non_exhaustive()
    }
}
