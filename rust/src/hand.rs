//! One thread's hand on a ring, of any type of word.
use crate::error::{answer, Error};
use crate::ffi;
use crate::word::Word;
use core::marker::PhantomData;
use core::ptr::{null_mut, NonNull};

/// How calls on one side of a ring share it.
#[derive(Clone, Copy, Debug, PartialEq, Eq, Hash)]
pub enum Mode {
    /// Any number of threads. A ring with two such sides takes 2^63 - 1 words.
    Multi,
    /// Head/tail-sync: one call at a time. A ring with such a side takes 2^52 - 1 words.
    Hts,
}

impl Mode {
    fn number(self) -> u32 {
        match self {
            Mode::Multi => 0,
            Mode::Hts => 1,
        }
    }
}

/// A hand on a ring of words with its ends, and how many the ring holds. The marker makes it invariant in `T`, since
/// other hands put what this one takes, and neither `Send` nor `Sync` by itself.
pub(crate) struct Hand<T> {
    at: NonNull<ffi::Hand>,
    puts: NonNull<ffi::Producer>,
    takes: NonNull<ffi::Consumer>,
    capacity: usize,
    /// The word of a put or a take by an end that is pending.
    pending: Option<u64>,
    words: PhantomData<*mut T>,
}

// SAFETY: a hand may go to another thread with the words that it may take. It isn't `Sync`: no two calls overlap.
unsafe impl<T: Send> Send for Hand<T> {}

fn made<H>(at: *mut H, code: i64) -> Result<NonNull<H>, Error> {
    answer(code)?;
    NonNull::new(at).ok_or(Error::Null)
}

impl<T: Word> Hand<T> {
    pub(crate) fn open(capacity: usize, put: Mode, take: Mode) -> Result<Self, Error> {
        let size = u32::try_from(capacity).map_err(|_| Error::Plan)?;
        let plan = ffi::Plan { size, exact: 1, put: put.number(), take: take.number(), last: 0, reserved: 0 };
        let mut at = null_mut();
        let code = unsafe { ffi::hk_hand_open(&raw mut at, &raw const plan, 1) };
        Self::with_ends(made(at, code)?, capacity)
    }

    /// A new hand, whose ends are opened.
    fn with_ends(at: NonNull<ffi::Hand>, capacity: usize) -> Result<Self, Error> {
        let (mut puts, mut takes) = (null_mut(), null_mut());
        let put_code = unsafe { ffi::hk_producer_open(&raw mut puts, at.as_ptr(), 0) };
        let take_code = unsafe { ffi::hk_consumer_open(&raw mut takes, at.as_ptr(), 0) };
        match (made(puts, put_code), made(takes, take_code)) {
            (Ok(puts), Ok(takes)) => Ok(Hand { at, puts, takes, capacity, pending: None, words: PhantomData }),
            (Err(error), _) | (_, Err(error)) => {
                unsafe { ffi::hk_hand_free(at.as_ptr()) };
                Err(error)
            }
        }
    }

    pub(crate) fn split(&mut self) -> Result<Self, Error> {
        let mut at = null_mut();
        let code = unsafe { ffi::hk_hand_split(self.at.as_ptr(), &raw mut at) };
        Self::with_ends(made(at, code)?, self.capacity)
    }

    pub(crate) fn put(&mut self, words: &[T], bulk: bool) -> Result<usize, Error> {
        let (at, n) = (words.as_ptr().cast::<u64>(), words.len());
        let hand = self.at.as_ptr();
        answer(if bulk {
            unsafe { ffi::hk_ring_try_put_bulk(hand, 0, at, n) }
        } else {
            unsafe { ffi::hk_ring_try_put_burst(hand, 0, at, n) }
        })
    }

    pub(crate) fn take(&mut self, words: &mut [T], bulk: bool) -> Result<usize, Error> {
        let (at, n) = (words.as_mut_ptr().cast::<u64>(), words.len());
        let hand = self.at.as_ptr();
        answer(if bulk {
            unsafe { ffi::hk_ring_try_take_bulk(hand, 0, at, n) }
        } else {
            unsafe { ffi::hk_ring_try_take_burst(hand, 0, at, n) }
        })
    }

    pub(crate) fn put_one(&mut self, word: T) -> Result<usize, Error> {
        answer(unsafe { ffi::hk_ring_try_put_one(self.at.as_ptr(), 0, word.into_bits()) })
    }

    pub(crate) fn take_one(&mut self, word: &mut T) -> Result<usize, Error> {
        answer(unsafe { ffi::hk_ring_try_take_one(self.at.as_ptr(), 0, (&raw mut *word).cast()) })
    }

    /// Takes one word as bits, if there is no word of the type yet.
    pub(crate) fn take_bits(&mut self, word: &mut u64) -> Result<usize, Error> {
        answer(unsafe { ffi::hk_ring_try_take_one(self.at.as_ptr(), 0, word) })
    }

    pub(crate) fn finish_put(&mut self, words: &[T]) -> Result<usize, Error> {
        let code = unsafe { ffi::hk_ring_finish_put(self.at.as_ptr(), words.as_ptr().cast(), words.len()) };
        self.finished(code)
    }

    pub(crate) fn finish_take(&mut self, n: usize) -> Result<usize, Error> {
        let code = unsafe { ffi::hk_ring_finish_take(self.at.as_ptr(), n) };
        self.finished(code)
    }

    /// What a call that finishes another one answers. No word is pending once that is done.
    fn finished(&mut self, code: i64) -> Result<usize, Error> {
        let count = answer(code)?;
        self.pending = None;
        Ok(count)
    }

    /// What a put or a take by an end answers. Its word is kept if it is pending.
    fn kept_if_pending(&mut self, word: u64, code: i64) -> Result<(), Error> {
        let outcome = answer(code).map(drop);
        if outcome == Err(Error::Pending) {
            self.pending = Some(word);
        }
        outcome
    }

    /// Puts a word by the hand's end. If it is pending, `end_finish_put` goes on with it.
    #[inline]
    pub(crate) fn end_put(&mut self, word: u64) -> Result<(), Error> {
        let end = self.puts.as_ptr();
        let code = unsafe { ffi::hk_producer_put_once(end, word) };
        if code >= 0 {
            return Ok(());
        }
        let code = unsafe { ffi::hk_producer_put_again(end, word, code) };
        self.kept_if_pending(word, code)
    }

    /// Takes a word by the hand's end. If it is pending, `end_finish_take` goes on with it.
    #[inline]
    pub(crate) fn end_take(&mut self, word: &mut u64) -> Result<(), Error> {
        let end = self.takes.as_ptr();
        let code = unsafe { ffi::hk_consumer_take_once(end, word) };
        if code >= 0 {
            return Ok(());
        }
        let code = unsafe { ffi::hk_consumer_take_again(end, word, code) };
        self.kept_if_pending(*word, code)
    }

    /// Finishes the put by the end that is pending.
    pub(crate) fn end_finish_put(&mut self) -> Result<(), Error> {
        let word = self.pending.ok_or(Error::NotOpen)?;
        let code = unsafe { ffi::hk_producer_finish(self.puts.as_ptr(), word) };
        self.finished(code).map(drop)
    }

    /// Finishes the take by the end that is pending. Returns its word.
    pub(crate) fn end_finish_take(&mut self) -> Result<u64, Error> {
        let word = self.pending.ok_or(Error::NotOpen)?;
        let code = unsafe { ffi::hk_consumer_finish(self.takes.as_ptr()) };
        self.finished(code).map(|_| word)
    }

    /// Lets an end hold its side with at most so many positions at a time.
    pub(crate) fn hold_puts(&mut self, most: usize) -> Result<(), Error> {
        answer(unsafe { ffi::hk_producer_hold(self.puts.as_ptr(), most) }).map(drop)
    }

    pub(crate) fn hold_takes(&mut self, most: usize) -> Result<(), Error> {
        answer(unsafe { ffi::hk_consumer_hold(self.takes.as_ptr(), most) }).map(drop)
    }

    /// Gives up the side that an end holds.
    pub(crate) fn release_puts(&mut self) -> Result<(), Error> {
        answer(unsafe { ffi::hk_producer_release(self.puts.as_ptr()) }).map(drop)
    }

    pub(crate) fn release_takes(&mut self) -> Result<(), Error> {
        answer(unsafe { ffi::hk_consumer_release(self.takes.as_ptr()) }).map(drop)
    }

    pub(crate) fn capacity(&self) -> usize {
        self.capacity
    }

    pub(crate) fn left(&self) -> usize {
        answer(unsafe { ffi::hk_hand_left(self.at.as_ptr()) }).unwrap_or(0)
    }

    pub(crate) fn count(&self) -> usize {
        answer(unsafe { ffi::hk_ring_count(self.at.as_ptr(), 0) }).unwrap_or(0)
    }

    pub(crate) fn room(&self) -> usize {
        answer(unsafe { ffi::hk_ring_room(self.at.as_ptr(), 0) }).unwrap_or(0)
    }

    pub(crate) fn close(&mut self) -> Result<usize, Error> {
        answer(unsafe { ffi::hk_hand_close(self.at.as_ptr()) })
    }

    pub(crate) fn drain(&mut self, words: &mut [u64]) -> Result<usize, Error> {
        answer(unsafe { ffi::hk_hand_drain(self.at.as_ptr(), 0, words.as_mut_ptr(), words.len()) })
    }
}

impl<T> Drop for Hand<T> {
    fn drop(&mut self) {
        unsafe { ffi::hk_hand_free(self.at.as_ptr()) }
    }
}
