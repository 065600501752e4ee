//! Ends that hold their side of a ring: word by word, one store each.
use crate::error::Error;
use crate::hand::Hand;
use crate::ring::{Consumer, Producer};
use crate::word::Word;
use core::fmt;

/// A producer that reserves several positions at once on the put side of a ring, which has to be head/tail-sync, and
/// then puts each word by one store. A word can be taken as soon as its `put` returned. The side is given up when the
/// positions are used, and when this is dropped; the next `put` reserves again, and another thread may come first. Puts
/// of other threads return `Again` while the side is held. If this is forgotten, the side stays held.
#[must_use]
pub struct HeldPuts<'a, T: Word> {
    hand: &'a mut Hand<T>,
}

/// A consumer that reserves several words at once on the take side of a ring, which has to be head/tail-sync, and then
/// takes each by one store. The side is given up when these are taken, and when this is dropped: the words that it
/// didn't take stay on the ring. Takes of other threads return `Again` while the side is held. If this is forgotten,
/// the side stays held, and its words don't come out.
#[must_use]
pub struct HeldTakes<'a, T: Word> {
    hand: &'a mut Hand<T>,
}

impl<T: Word> Producer<T> {
    /// A guard that holds the put side from its first `put` on: it reserves up to `most` positions at a time, 1 to
    /// `MAX_WORDS`.
    ///
    /// # Errors
    ///
    /// `Mode` if the side isn't head/tail-sync; `Count` if `most` is 0 or above `MAX_WORDS`.
    ///
    /// ```
    /// use hokhtura::{Mode, Ring};
    ///
    /// # fn main() -> Result<(), hokhtura::Error> {
    /// let (mut producer, mut consumer) = Ring::with_modes(100, Mode::Hts, Mode::Hts)?.split()?;
    /// let mut puts = producer.hold(64)?;
    /// for word in 0..10u64 {
    ///     puts.put(word)?;
    /// }
    /// drop(puts);
    /// let mut takes = consumer.hold(64)?;
    /// assert_eq!(takes.take()?, 0);
    /// assert_eq!(takes.take()?, 1);
    /// drop(takes);
    /// assert_eq!(consumer.len(), 8);
    /// # Ok(())
    /// # }
    /// ```
    pub fn hold(&mut self, most: usize) -> Result<HeldPuts<'_, T>, Error> {
        self.hand().hold_puts(most)?;
        Ok(HeldPuts { hand: self.hand() })
    }
}

impl<T: Word> Consumer<T> {
    /// A guard that holds the take side from its first `take` on: it reserves up to `most` words at a time, 1 to
    /// `MAX_WORDS`.
    ///
    /// # Errors
    ///
    /// `Mode` if the side isn't head/tail-sync; `Count` if `most` is 0 or above `MAX_WORDS`.
    pub fn hold(&mut self, most: usize) -> Result<HeldTakes<'_, T>, Error> {
        self.hand().hold_takes(most)?;
        Ok(HeldTakes { hand: self.hand() })
    }
}

impl<T: Word> HeldPuts<'_, T> {
    /// Puts a word.
    ///
    /// # Errors
    ///
    /// `NoRoom`; `Again`; `Worn`. The word wasn't put then, and this guard holds nothing.
    #[inline]
    pub fn put(&mut self, word: T) -> Result<(), Error> {
        self.hand.end_put(word.into_bits())
    }
}

impl<T: Word> HeldTakes<'_, T> {
    /// Takes the next word.
    ///
    /// # Errors
    ///
    /// `NoRoom` if the ring is empty; `Again`. This guard holds nothing then.
    #[inline]
    pub fn take(&mut self) -> Result<T, Error> {
        let mut bits = 0;
        self.hand.end_take(&mut bits)?;
        // SAFETY: it was put on this ring, whose words are of this type.
        Ok(unsafe { T::of_bits(bits) })
    }
}

impl<T: Word> Drop for HeldPuts<'_, T> {
    fn drop(&mut self) {
        // On a head/tail-sync side nothing can refuse this.
        let _ = self.hand.release_puts();
    }
}

impl<T: Word> Drop for HeldTakes<'_, T> {
    fn drop(&mut self) {
        let _ = self.hand.release_takes();
    }
}

impl<T: Word> fmt::Debug for HeldPuts<'_, T> {
    fn fmt(&self, f: &mut fmt::Formatter<'_>) -> fmt::Result {
        f.debug_struct("HeldPuts").finish_non_exhaustive()
    }
}

impl<T: Word> fmt::Debug for HeldTakes<'_, T> {
    fn fmt(&self, f: &mut fmt::Formatter<'_>) -> fmt::Result {
        f.debug_struct("HeldTakes").finish_non_exhaustive()
    }
}
