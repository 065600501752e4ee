//! A window that returns words in the order of their numbers.
use crate::error::{answer, Error};
use crate::ffi;
use crate::word::Word;
use core::fmt;
use core::iter::FusedIterator;
use core::marker::PhantomData;
use core::ptr::{null_mut, NonNull};

/// Words that wait for their turn, each with its number.
pub struct Reorder<T: Word>(NonNull<ffi::Window>, PhantomData<(T, *mut u8)>);

// SAFETY: a window may go to another thread with its words. It isn't `Sync`: no two calls overlap.
unsafe impl<T: Word + Send> Send for Reorder<T> {}

impl<T: Word> Reorder<T> {
    /// A window of `size` numbers, 1 to 65,536, that waits for number 0.
    ///
    /// # Errors
    ///
    /// `Plan`, `Memory`.
    ///
    /// ```
    /// # fn main() -> Result<(), hokhtura::Error> {
    /// let mut window = hokhtura::Reorder::new(16)?;
    /// window.insert(1, 11u64)?;
    /// assert_eq!(window.pop(), None);
    /// window.insert(0, 10)?;
    /// assert_eq!(window.in_turn().collect::<Vec<_>>(), [10, 11]);
    /// # Ok(())
    /// # }
    /// ```
    pub fn new(size: usize) -> Result<Self, Error> {
        let size = u32::try_from(size).map_err(|_| Error::Plan)?;
        let mut at = null_mut();
        answer(unsafe { ffi::hk_reorder_open(&raw mut at, size) })?;
        Ok(Reorder(NonNull::new(at).ok_or(Error::Null)?, PhantomData))
    }

    /// Inserts a word under its number.
    ///
    /// # Errors
    ///
    /// `Late`, `Early`, `Double`.
    pub fn insert(&mut self, number: u64, word: T) -> Result<(), Error> {
        answer(unsafe { ffi::hk_reorder_insert(self.0.as_ptr(), number, word.into_bits()) }).map(drop)
    }

    /// Takes the word whose turn it is, if it has arrived.
    pub fn pop(&mut self) -> Option<T> {
        let mut word = 0;
        let code = unsafe { ffi::hk_reorder_pop(self.0.as_ptr(), &raw mut word) };
        debug_assert!(code == 0 || code == ffi::NOTHING);
        // SAFETY: a word of the window was inserted as a `T`.
        (code == 0).then(|| unsafe { T::of_bits(word) })
    }

    /// Takes the words whose turn it is, at most as many as there are places. Returns how many are at the front of
    /// the slice: 0 if the next one hasn't arrived.
    ///
    /// # Errors
    ///
    /// `Count` if there are more than `MAX_WORDS` places.
    pub fn drain(&mut self, words: &mut [T]) -> Result<usize, Error> {
        match unsafe { ffi::hk_reorder_drain(self.0.as_ptr(), words.as_mut_ptr().cast(), words.len()) } {
            ffi::NOTHING => Ok(0),
            code => answer(code),
        }
    }

    /// The words whose turn it is, one after the other; each is taken as it is returned.
    pub fn in_turn(&mut self) -> InTurn<'_, T> {
        InTurn { window: self }
    }

    /// The number whose turn it is.
    #[must_use]
    pub fn next_number(&self) -> u64 {
        let mut number = 0;
        let code = unsafe { ffi::hk_reorder_next(self.0.as_ptr(), &raw mut number) };
        debug_assert!(code == 0);
        number
    }

    /// Stops waiting for numbers below this one. No word is lost: the turn stops at the lowest number of a word that
    /// waits, and it never goes back.
    pub fn skip_to(&mut self, number: u64) {
        let code = unsafe { ffi::hk_reorder_skip(self.0.as_ptr(), number) };
        debug_assert!(code == 0);
    }
}

impl<T: Word> Drop for Reorder<T> {
    fn drop(&mut self) {
        unsafe { ffi::hk_reorder_free(self.0.as_ptr()) }
    }
}

impl<T: Word> fmt::Debug for Reorder<T> {
    fn fmt(&self, f: &mut fmt::Formatter<'_>) -> fmt::Result {
        f.debug_struct("Reorder").finish_non_exhaustive()
    }
}

/// The words of a window, as they leave it in their turn.
#[must_use]
pub struct InTurn<'w, T: Word> {
    window: &'w mut Reorder<T>,
}

impl<T: Word> FusedIterator for InTurn<'_, T> {}

impl<T: Word> Iterator for InTurn<'_, T> {
    type Item = T;

    fn next(&mut self) -> Option<T> {
        self.window.pop()
    }
}
