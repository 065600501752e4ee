//! A pool of numbers, with a cache for each thread.
use crate::error::{answer, Error};
use crate::ffi;
use core::fmt;
use core::marker::PhantomData;
use core::ptr::{null_mut, NonNull};

/// The largest count of numbers in one call on a pool.
pub const MAX_NUMBERS: usize = 4096;

/// One thread's handle on a pool of the numbers 0 to `n - 1`, with its own cache in front of the free ring that all
/// share.
///
/// A number is free, on a ring of the pool, or with one `Pool`; only that one can put it back or send it on. If a
/// `Pool` is dropped, what it has cached is first put on the free ring, by one [`try_flush`](Pool::try_flush). If that
/// returns `Again` or `Worn`, these numbers are lost to the others: where other threads use the pool meanwhile, flush
/// before, until it succeeds. Numbers that weren't put back are lost to the others in any case.
pub struct Pool(NonNull<ffi::Pool>, PhantomData<*mut u8>);

// SAFETY: a cache may go to another thread with its numbers. It isn't `Sync`: no two calls overlap.
unsafe impl Send for Pool {}

impl Pool {
    /// A pool of `n` numbers, 1 to 2^20 - 1, all of them free. Each handle has a cache of the size `cache`, 0 to 512,
    /// and `rings` rings, 0 to 63, pass numbers from one handle to another.
    ///
    /// # Errors
    ///
    /// `Plan`, `Memory`.
    ///
    /// ```
    /// use hokhtura::{Error, Pool};
    ///
    /// # fn main() -> Result<(), Error> {
    /// let mut pool = Pool::new(1000, 32, 0)?;
    /// let mut numbers = [0; 8];
    /// pool.try_get_bulk(&mut numbers)?;
    /// assert!(pool.owns(numbers[0]));
    /// pool.try_put_bulk(&numbers)?;
    /// assert_eq!(pool.try_put_bulk(&numbers), Err(Error::NotYours));
    /// # Ok(())
    /// # }
    /// ```
    pub fn new(n: usize, cache: usize, rings: usize) -> Result<Self, Error> {
        let part = |size: usize| u32::try_from(size).map_err(|_| Error::Plan);
        let mut at = null_mut();
        answer(unsafe { ffi::hk_pool_open(&raw mut at, part(n)?, part(cache)?, part(rings)?) })?;
        Ok(Pool(NonNull::new(at).ok_or(Error::Null)?, PhantomData))
    }

    /// Another thread's handle on the same pool, without numbers.
    ///
    /// # Errors
    ///
    /// `Memory`, `Again`, `Parts`.
    pub fn split(&mut self) -> Result<Self, Error> {
        let mut at = null_mut();
        answer(unsafe { ffi::hk_pool_split(self.0.as_ptr(), &raw mut at) })?;
        Ok(Pool(NonNull::new(at).ok_or(Error::Null)?, PhantomData))
    }

    /// Fills the slice with numbers, or leaves it as it is. If the cache has too few, the others come from the free
    /// ring. For a slice of up to 512 places the cache is then filled too, if that ring has enough.
    ///
    /// # Errors
    ///
    /// `NoRoom` if cache and free ring have too few, `Again`, `Count`.
    pub fn try_get_bulk(&mut self, numbers: &mut [u32]) -> Result<(), Error> {
        answer(unsafe { ffi::hk_pool_try_get_bulk(self.0.as_ptr(), numbers.as_mut_ptr(), numbers.len()) }).map(drop)
    }

    /// Puts all these numbers back, or none.
    ///
    /// # Errors
    ///
    /// `NotYours` if one of them isn't this handle's, is cached, or is given twice; `Again`, `Count`, `Worn`.
    pub fn try_put_bulk(&mut self, numbers: &[u32]) -> Result<(), Error> {
        answer(unsafe { ffi::hk_pool_try_put_bulk(self.0.as_ptr(), numbers.as_ptr(), numbers.len()) }).map(drop)
    }

    /// Puts all that is cached on the free ring. Returns how many.
    ///
    /// # Errors
    ///
    /// `Again`, `Worn`.
    pub fn try_flush(&mut self) -> Result<usize, Error> {
        answer(unsafe { ffi::hk_pool_try_flush(self.0.as_ptr()) })
    }

    /// How many numbers are cached.
    #[must_use]
    pub fn cached(&self) -> usize {
        answer(unsafe { ffi::hk_pool_cached(self.0.as_ptr()) }).unwrap_or(0)
    }

    /// Whether this handle has a number, cached or not.
    #[must_use]
    pub fn owns(&self, number: u32) -> bool {
        unsafe { ffi::hk_pool_owns(self.0.as_ptr(), number) == 1 }
    }

    /// Puts all these numbers on a ring of the pool, or none. Then they belong to the handle that takes them from
    /// there.
    ///
    /// # Errors
    ///
    /// `NotYours` as of [`try_put_bulk`](Pool::try_put_bulk); `Ring`, `Count`, `Again`, `Worn`.
    pub fn try_send_bulk(&mut self, ring: usize, numbers: &[u32]) -> Result<(), Error> {
        let pool = self.0.as_ptr();
        answer(unsafe { ffi::hk_pool_try_send_bulk(pool, ring, numbers.as_ptr(), numbers.len()) }).map(drop)
    }

    /// Puts as many of these numbers on a ring of the pool as there is room for, from the front. Returns how many: all
    /// of them, since a ring has room for all numbers of its pool.
    ///
    /// # Errors
    ///
    /// Those of `try_send_bulk`.
    pub fn try_send_burst(&mut self, ring: usize, numbers: &[u32]) -> Result<usize, Error> {
        answer(unsafe { ffi::hk_pool_try_send_burst(self.0.as_ptr(), ring, numbers.as_ptr(), numbers.len()) })
    }

    /// Fills the slice with numbers of a ring of the pool, the oldest first, or leaves it as it is.
    ///
    /// # Errors
    ///
    /// `NoRoom` if fewer are there, `Ring`, `Again`, `Count`.
    pub fn try_receive_bulk(&mut self, ring: usize, numbers: &mut [u32]) -> Result<(), Error> {
        let pool = self.0.as_ptr();
        answer(unsafe { ffi::hk_pool_try_receive_bulk(pool, ring, numbers.as_mut_ptr(), numbers.len()) }).map(drop)
    }

    /// Takes as many numbers of a ring of the pool as are queued and have a place, the oldest first. Returns how many
    /// are at the front of the slice; its other places are unchanged.
    ///
    /// # Errors
    ///
    /// `NoRoom` if none is queued, `Ring`, `Again`, `Count`.
    ///
    /// ```
    /// use hokhtura::{Error, Pool};
    ///
    /// # fn main() -> Result<(), Error> {
    /// let mut sender = Pool::new(1000, 32, 1)?;
    /// let mut receiver = sender.split()?;
    /// let mut numbers = [0; 8];
    /// sender.try_get_bulk(&mut numbers[..3])?;
    /// sender.try_send_bulk(0, &numbers[..3])?;
    /// assert_eq!(receiver.ring_count(0), Ok(3));
    /// assert_eq!(receiver.try_receive_burst(0, &mut numbers), Ok(3));
    /// # Ok(())
    /// # }
    /// ```
    pub fn try_receive_burst(&mut self, ring: usize, numbers: &mut [u32]) -> Result<usize, Error> {
        answer(unsafe { ffi::hk_pool_try_receive_burst(self.0.as_ptr(), ring, numbers.as_mut_ptr(), numbers.len()) })
    }

    /// How many numbers are queued on a ring of the pool. Others may send or receive some meanwhile.
    ///
    /// # Errors
    ///
    /// `Ring`.
    pub fn ring_count(&self, ring: usize) -> Result<usize, Error> {
        answer(unsafe { ffi::hk_pool_ring_count(self.0.as_ptr(), ring) })
    }

    /// How many more numbers a ring of the pool takes. Others may send or receive some meanwhile.
    ///
    /// # Errors
    ///
    /// `Ring`.
    pub fn ring_room(&self, ring: usize) -> Result<usize, Error> {
        answer(unsafe { ffi::hk_pool_ring_room(self.0.as_ptr(), ring) })
    }

    /// How many numbers are on the free ring. Those in the caches of handles aren't.
    #[must_use]
    pub fn free_count(&self) -> usize {
        answer(unsafe { ffi::hk_pool_free_count(self.0.as_ptr()) }).unwrap_or(0)
    }
}

impl Drop for Pool {
    /// Puts what is cached on the free ring, if one flush does it.
    fn drop(&mut self) {
        unsafe { ffi::hk_pool_free(self.0.as_ptr()) }
    }
}

impl fmt::Debug for Pool {
    fn fmt(&self, f: &mut fmt::Formatter<'_>) -> fmt::Result {
        f.debug_struct("Pool").field("cached", &self.cached()).finish_non_exhaustive()
    }
}
