//! A ring of words, and the two ends of it.
use crate::error::Error;
use crate::hand::{Hand, Mode};
use crate::relax;
use crate::word::Word;
use core::fmt;
use core::iter::FusedIterator;
use core::marker::PhantomData;

/// A ring of words, and one thread's handle on it. Other threads use handles that are split off.
///
/// When the last handle is dropped, the words that are left on the ring are discarded. A handle that is dropped while a
/// call of it is pending, also by unwinding, leaves its positions reserved: that side of the ring is blocked for good.
/// No method panics.
pub struct Ring<T: Word> {
    hand: Hand<T>,
}

/// A thread's handle for putting words on a ring. It is dropped as a [`Ring`] is.
pub struct Producer<T: Word> {
    hand: Hand<T>,
}

/// A thread's handle for taking words from a ring. It is dropped as a [`Ring`] is.
pub struct Consumer<T: Word> {
    hand: Hand<T>,
}

macro_rules! puts {
    () => {
        /// Puts all words, or none. Returns how many.
        ///
        /// # Errors
        ///
        /// `Open`: an earlier call of this handle is pending; `Count` if there are none or more than `MAX_WORDS`, on a
        /// multi side `MAX_WORDS_MULTI`; `NoRoom`; `Worn`; `Again`. `Pending`: the positions are reserved, and
        /// `finish_put` with the same words puts them.
        pub fn try_put_bulk(&mut self, words: &[T]) -> Result<usize, Error> {
            self.hand.put(words, true)
        }

        /// Puts as many words as there is room for, from the front. Returns how many.
        ///
        /// # Errors
        ///
        /// Those of `try_put_bulk`. Near the ring's last position a burst isn't shortened: it is `Worn`.
        pub fn try_put_burst(&mut self, words: &[T]) -> Result<usize, Error> {
            self.hand.put(words, false)
        }

        /// Puts a word: as `try_put_bulk` with a slice of one, in less time.
        ///
        /// # Errors
        ///
        /// Those of `try_put_bulk` but `Count`. After `Pending`, call `finish_put` with this word alone.
        pub fn try_put_one(&mut self, word: T) -> Result<(), Error> {
            self.hand.put_one(word).map(drop)
        }

        /// Finishes a put that returned `Pending`, with the same slice. Returns how many of its first words were put;
        /// after a burst these may be fewer than all.
        ///
        /// # Errors
        ///
        /// `Pending`: not yet. `NotOpen`: no put is open. `Count`: the slice doesn't fit what was reserved.
        pub fn finish_put(&mut self, words: &[T]) -> Result<usize, Error> {
            self.hand.finish_put(words)
        }

        /// How many more words there is room for. Others may put or take some meanwhile. Positions that an unfinished
        /// put has reserved count as room until words are put there.
        #[must_use]
        pub fn room(&self) -> usize {
            self.hand.room()
        }
    };
}

macro_rules! takes {
    () => {
        /// Fills the slice with the oldest words, or takes none. Returns how many.
        ///
        /// # Errors
        ///
        /// `Count` if there are no places or more than `MAX_WORDS`, on a multi side `MAX_WORDS_MULTI`; `NoRoom` if too
        /// few words are queued; `Again`; `Open`: an earlier call of this handle is pending. `Pending`: the words are
        /// at the front of the slice already, and `finish_take` takes them off the ring.
        pub fn try_take_bulk(&mut self, words: &mut [T]) -> Result<usize, Error> {
            self.hand.take(words, true)
        }

        /// Takes as many words as are queued and have a place, the oldest first. Returns how many are at the front of
        /// the slice.
        ///
        /// # Errors
        ///
        /// Those of `try_take_bulk`.
        pub fn try_take_burst(&mut self, words: &mut [T]) -> Result<usize, Error> {
            self.hand.take(words, false)
        }

        /// Takes the oldest word: as `try_take_bulk` with a slice of one, in less time.
        ///
        /// # Errors
        ///
        /// Those of `try_take_bulk` but `Count`. At `Pending` the word is written already, and `finish_take` with 1
        /// takes it off the ring.
        pub fn try_take_one(&mut self, word: &mut T) -> Result<(), Error> {
            self.hand.take_one(word).map(drop)
        }

        /// Finishes a take that returned `Pending`, with `n` the length of its slice. Returns how many words were
        /// taken.
        ///
        /// # Errors
        ///
        /// `Pending`: not yet. `NotOpen`: no take is open. `Count`: `n` doesn't fit what was reserved.
        pub fn finish_take(&mut self, n: usize) -> Result<usize, Error> {
            self.hand.finish_take(n)
        }

        /// The words that are queued, one after the other. Each is taken as it is returned. It ends at any error: the
        /// ring is empty, other threads came first (`Again`), or an earlier call of this handle is pending (`Open`). So
        /// `None` doesn't mean that the ring is empty. While an earlier take of another thread isn't finished, it
        /// waits, without a limit: forever, if that thread's handle was dropped with its take pending. `take` and
        /// `try_take_burst` return `Pending` instead.
        pub fn taken(&mut self) -> Taken<'_, T> {
            Taken { hand: &mut self.hand, ended: false }
        }
    };
}

macro_rules! both {
    () => {
        /// How many words are queued. Others may put or take some meanwhile. The words of an unfinished take count
        /// until they are taken, and those of an unfinished put don't count yet.
        #[must_use]
        pub fn len(&self) -> usize {
            self.hand.count()
        }

        /// Whether no word is queued. Others may put some meanwhile.
        #[must_use]
        pub fn is_empty(&self) -> bool {
            self.len() == 0
        }

        /// How many words the ring holds.
        #[must_use]
        pub fn capacity(&self) -> usize {
            self.hand.capacity()
        }

        /// After a put, how much room was left; after a take, how many words were left; after `NoRoom`, how much or
        /// how many there were in all. It means nothing after `put` and `take`, also of a held side, and after `Count`,
        /// `Again` and `Worn`.
        #[must_use]
        pub fn left(&self) -> usize {
            self.hand.left()
        }

        /// Closes the ring, by its only handle, and returns the words that are left.
        ///
        /// # Errors
        ///
        /// `Shared` while there are other handles; `Open`. The handle is returned with the error.
        pub fn close(mut self) -> Result<Left<T>, (Self, Error)> {
            match self.hand.close() {
                Ok(_) => Ok(Left { hand: self.hand, stays: PhantomData }),
                Err(error) => Err((self, error)),
            }
        }
    };
}

impl<T: Word> Producer<T> {
    fn of(hand: Hand<T>) -> Self {
        Producer { hand }
    }

    pub(crate) fn hand(&mut self) -> &mut Hand<T> {
        &mut self.hand
    }

    /// Puts a word, between threads in less time than `try_put_one` if nobody else puts. After `Pending`, call `finish`
    /// (after that of `try_put_one`, `finish_put`). It doesn't say how much room is left.
    ///
    /// ```
    /// # fn main() -> Result<(), hokhtura::Error> {
    /// let (mut producer, mut consumer) = hokhtura::Ring::new(7)?.split()?;
    /// producer.put(1.5)?;
    /// assert_eq!(consumer.take(), Ok(1.5));
    /// assert_eq!(consumer.take(), Err(hokhtura::Error::NoRoom));
    /// # Ok(())
    /// # }
    /// ```
    ///
    /// # Errors
    ///
    /// `Open`: an earlier call of this handle is pending; `NoRoom`; `Worn`; `Again`: the word wasn't put. `Pending`:
    /// the position is reserved, and `finish` puts the word.
    #[inline]
    pub fn put(&mut self, word: T) -> Result<(), Error> {
        self.hand.end_put(word.into_bits())
    }

    /// Finishes a `put` that returned `Pending`. Other puts are finished by `finish_put`.
    ///
    /// # Errors
    ///
    /// `Pending`: not yet. `NotOpen`: no `put` is pending, though another put may be.
    pub fn finish(&mut self) -> Result<(), Error> {
        self.hand.end_finish_put()
    }
}

impl<T: Word> Consumer<T> {
    fn of(hand: Hand<T>) -> Self {
        Consumer { hand }
    }

    pub(crate) fn hand(&mut self) -> &mut Hand<T> {
        &mut self.hand
    }

    /// Takes the oldest word, between threads in less time than `try_take_one` if nobody else takes. After `Pending`,
    /// call `finish` (after that of `try_take_one`, `finish_take`). It doesn't say how many are left.
    ///
    /// # Errors
    ///
    /// `Open`: an earlier call of this handle is pending; `NoRoom` if the ring is empty; `Again`. `Pending`: the word
    /// is this handle's, and `finish` takes it off the ring and returns it.
    #[inline]
    pub fn take(&mut self) -> Result<T, Error> {
        let mut bits = 0;
        self.hand.end_take(&mut bits)?;
        // SAFETY: it was put on this ring, whose words are of this type.
        Ok(unsafe { T::of_bits(bits) })
    }

    /// Finishes a `take` that returned `Pending`, and returns its word, which `finish_take` would lose. Other takes are
    /// finished by `finish_take`.
    ///
    /// # Errors
    ///
    /// `Pending`: not yet. `NotOpen`: no `take` is pending, though another take may be.
    pub fn finish(&mut self) -> Result<T, Error> {
        let bits = self.hand.end_finish_take()?;
        // SAFETY: it was put on this ring, whose words are of this type.
        Ok(unsafe { T::of_bits(bits) })
    }
}

impl<T: Word> Ring<T> {
    /// A ring that holds `capacity` words, 1 to 2^20 - 1, with both sides for any number of threads.
    ///
    /// # Errors
    ///
    /// `Plan`, `Memory`.
    pub fn new(capacity: usize) -> Result<Self, Error> {
        Ring::with_modes(capacity, Mode::Multi, Mode::Multi)
    }

    /// A ring that holds `capacity` words, 1 to 2^20 - 1, with a mode for each side.
    ///
    /// # Errors
    ///
    /// `Plan`, `Memory`.
    pub fn with_modes(capacity: usize, put: Mode, take: Mode) -> Result<Self, Error> {
        Ok(Ring { hand: Hand::open(capacity, put, take)? })
    }

    /// The two ends of the ring, for two threads. Both keep the ring's type of words: what is put as one type is taken
    /// as the same.
    ///
    /// ```compile_fail
    /// # fn main() -> Result<(), hokhtura::Error> {
    /// let (producer, _consumer) = hokhtura::Ring::<&'static for<'a> fn(&'a str)>::new(7)?.split()?;
    /// let _other: hokhtura::Producer<&'static fn(&'static str)> = producer;
    /// # Ok(())
    /// # }
    /// ```
    ///
    /// # Errors
    ///
    /// `Memory`; `Again`; `Parts`; `Open` if a call is pending. This handle is dropped then, and if it is the only one,
    /// the ring with its words.
    ///
    /// ```
    /// # fn main() -> Result<(), hokhtura::Error> {
    /// let (mut producer, mut consumer) = hokhtura::Ring::new(7)?.split()?;
    /// producer.try_put_bulk(&[1.5, 2.5])?;
    /// assert_eq!(consumer.taken().collect::<Vec<f64>>(), [1.5, 2.5]);
    /// # Ok(())
    /// # }
    /// ```
    pub fn split(mut self) -> Result<(Producer<T>, Consumer<T>), Error> {
        let other = self.hand.split()?;
        Ok((Producer::of(self.hand), Consumer::of(other)))
    }

    /// Another handle on the same ring, for another thread.
    ///
    /// # Errors
    ///
    /// `Memory`, `Again`, `Parts`, `Open`.
    pub fn try_clone(&mut self) -> Result<Self, Error> {
        Ok(Ring { hand: self.hand.split()? })
    }

    puts!();
    takes!();
    both!();
}

impl<T: Word> Producer<T> {
    puts!();
    both!();

    /// A producer for another thread.
    ///
    /// # Errors
    ///
    /// `Memory`, `Again`, `Parts`, `Open`.
    pub fn try_clone(&mut self) -> Result<Self, Error> {
        Ok(Producer::of(self.hand.split()?))
    }
}

impl<T: Word> Consumer<T> {
    takes!();
    both!();

    /// A consumer for another thread.
    ///
    /// # Errors
    ///
    /// `Memory`, `Again`, `Parts`, `Open`.
    pub fn try_clone(&mut self) -> Result<Self, Error> {
        Ok(Consumer::of(self.hand.split()?))
    }
}

/// The words of a ring, as they are taken one by one. Once it returned `None` it takes no more.
#[must_use]
pub struct Taken<'r, T: Word> {
    hand: &'r mut Hand<T>,
    ended: bool,
}

impl<T: Word> Iterator for Taken<'_, T> {
    type Item = T;

    fn next(&mut self) -> Option<T> {
        if self.ended {
            return None;
        }
        let mut word = 0;
        let mut taken = self.hand.take_bits(&mut word);
        while taken == Err(Error::Pending) {
            relax();
            taken = self.hand.finish_take(1);
        }
        self.ended = taken != Ok(1);
        // SAFETY: a word that was taken was put as a `T`.
        (!self.ended).then(|| unsafe { T::of_bits(word) })
    }
}

impl<T: Word> FusedIterator for Taken<'_, T> {}

/// The words that were left on a ring when it was closed, the oldest first. It stays with the thread that closed the
/// ring:
///
/// ```compile_fail,E0277
/// fn passed_on<T: Send>(_: T) {}
/// # fn main() -> Result<(), hokhtura::Error> {
/// if let Ok(left) = hokhtura::Ring::<u64>::new(7)?.close() {
///     passed_on(left);
/// }
/// # Ok(())
/// # }
/// ```
#[must_use]
pub struct Left<T: Word> {
    hand: Hand<T>,
    /// Not `Send`: the library doesn't say that of closed rings.
    stays: PhantomData<*mut T>,
}

impl<T: Word> Iterator for Left<T> {
    type Item = T;

    fn next(&mut self) -> Option<T> {
        let mut word = [0];
        let count = self.hand.drain(&mut word).ok()?;
        // SAFETY: a word that is left was put as a `T`.
        (count == 1).then(|| unsafe { T::of_bits(word[0]) })
    }
}

impl<T: Word> FusedIterator for Left<T> {}

macro_rules! debugs {
    ($($name:ident),*) => {
        $(impl<T: Word> fmt::Debug for $name<T> {
            fn fmt(&self, f: &mut fmt::Formatter<'_>) -> fmt::Result {
                f.debug_struct(stringify!($name)).finish_non_exhaustive()
            }
        })*
    };
}

debugs!(Ring, Producer, Consumer, Left);

impl<T: Word> fmt::Debug for Taken<'_, T> {
    fn fmt(&self, f: &mut fmt::Formatter<'_>) -> fmt::Result {
        f.debug_struct("Taken").field("ended", &self.ended).finish_non_exhaustive()
    }
}
