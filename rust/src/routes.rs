//! Routes by longest prefix.
use crate::error::{answer, Error};
use crate::ffi;
use core::fmt;
use core::marker::PhantomData;
use core::net::Ipv4Addr;
use core::ptr::{null_mut, NonNull};

/// How many of an address's first bits select an entry of the first level.
#[derive(Clone, Copy, Debug, PartialEq, Eq, Hash)]
pub enum FirstLevel {
    /// 2^16 entries.
    Bits16,
    /// 2^24 entries.
    Bits24,
}

impl FirstLevel {
    pub(crate) fn bits(self) -> u32 {
        match self {
            FirstLevel::Bits16 => 16,
            FirstLevel::Bits24 => 24,
        }
    }
}

/// A table of routes to IPv4 prefixes, each with a next hop below 2^24.
pub struct Routes(NonNull<ffi::Table>, PhantomData<*mut u8>);

// SAFETY: a handle may go to another thread. It isn't `Sync`: no two calls overlap.
unsafe impl Send for Routes {}

impl Routes {
    /// A table without routes, with at most `groups` groups of entries below the first level.
    ///
    /// # Errors
    ///
    /// `Memory`.
    ///
    /// ```
    /// use hokhtura::{FirstLevel, Routes};
    /// use std::net::Ipv4Addr;
    ///
    /// # fn main() -> Result<(), hokhtura::Error> {
    /// let mut routes = Routes::new(FirstLevel::Bits24, 256)?;
    /// routes.add(Ipv4Addr::new(10, 0, 0, 0), 8, 7)?;
    /// assert_eq!(routes.lookup(Ipv4Addr::new(10, 1, 2, 3)), Some(7));
    /// assert_eq!(routes.lookup(Ipv4Addr::new(11, 1, 2, 3)), None);
    /// # Ok(())
    /// # }
    /// ```
    pub fn new(first: FirstLevel, groups: u32) -> Result<Self, Error> {
        let mut at = null_mut();
        answer(unsafe { ffi::hk_routes_open(&raw mut at, first.bits(), groups) })?;
        Ok(Routes(NonNull::new(at).ok_or(Error::Null)?, PhantomData))
    }

    /// Another handle on the same table, for another thread's lookups. The table doesn't change while it is shared.
    ///
    /// # Errors
    ///
    /// `Memory`.
    pub fn share(&self) -> Result<Self, Error> {
        let mut at = null_mut();
        answer(unsafe { ffi::hk_routes_share(self.0.as_ptr(), &raw mut at) })?;
        Ok(Routes(NonNull::new(at).ok_or(Error::Null)?, PhantomData))
    }

    /// Adds a route for the first `depth` bits of an address, or changes its next hop.
    ///
    /// # Errors
    ///
    /// `Shared`, `Depth`, `Hop`, `Groups`, `Memory`, in this order.
    pub fn add(&mut self, address: Ipv4Addr, depth: u32, hop: u32) -> Result<(), Error> {
        answer(unsafe { ffi::hk_routes_add(self.0.as_ptr(), address.into(), depth, hop) }).map(drop)
    }

    /// Removes a route.
    ///
    /// # Errors
    ///
    /// `Shared`, `Depth`, `NoRoute`, in this order.
    pub fn remove(&mut self, address: Ipv4Addr, depth: u32) -> Result<(), Error> {
        answer(unsafe { ffi::hk_routes_remove(self.0.as_ptr(), address.into(), depth) }).map(drop)
    }

    /// The next hop of the longest route that covers an address.
    #[must_use]
    pub fn lookup(&self, address: Ipv4Addr) -> Option<u32> {
        u32::try_from(unsafe { ffi::hk_routes_lookup(self.0.as_ptr(), address.into()) }).ok()
    }

    /// Looks up addresses, given as numbers. Writes at each place of `hops` the next hop for the address at that place,
    /// or `u32::MAX`.
    ///
    /// # Errors
    ///
    /// `Count` if there are not as many places; nothing is written then.
    pub fn lookup_bulk(&self, addresses: &[u32], hops: &mut [u32]) -> Result<(), Error> {
        if addresses.len() != hops.len() {
            return Err(Error::Count);
        }
        let (from, to, n) = (addresses.as_ptr(), hops.as_mut_ptr(), hops.len());
        answer(unsafe { ffi::hk_routes_lookup_bulk(self.0.as_ptr(), from, to, n) }).map(drop)
    }
}

impl Drop for Routes {
    fn drop(&mut self) {
        unsafe { ffi::hk_routes_free(self.0.as_ptr()) }
    }
}

impl fmt::Debug for Routes {
    fn fmt(&self, f: &mut fmt::Formatter<'_>) -> fmt::Result {
        f.debug_struct("Routes").finish_non_exhaustive()
    }
}
