//! Forwarding tables: routes, next hops and ports that change while they are looked up.
use crate::error::{answer, Error};
use crate::ffi;
use crate::forward::{Forwarder, NextHop, Port};
use crate::routes::FirstLevel;
use alloc::vec::Vec;
use core::fmt;
use core::iter::FusedIterator;
use core::marker::PhantomData;
use core::net::Ipv4Addr;
use core::ptr::{null_mut, NonNull};

/// A route: the first `depth` bits of an address, whose other bits are 0, and the number of its next hop.
#[derive(Clone, Copy, Debug, PartialEq, Eq, Hash)]
pub struct Route {
    /// The address.
    pub address: Ipv4Addr,
    /// The length of the prefix, 1 to 32.
    pub depth: u32,
    /// The number of the next hop.
    pub hop: u32,
}

/// The writer of a forwarding table: routes to the numbers of next hops, the next hops, and the ports. Readers see no
/// change before [`publish`](Fib::publish), and then see all changes at once, as a new version. No call waits: while a
/// reader still uses the version before, or the second copy gets no memory, a call is refused as `Pending` and changes
/// nothing.
pub struct Fib(NonNull<ffi::Fib>, PhantomData<*mut u8>);

// SAFETY: a handle may go to another thread. It isn't `Sync`: no two calls overlap.
unsafe impl Send for Fib {}

impl Fib {
    /// A table without routes, with up to 256 ports and 2^24 next hops, and at most `groups` groups of entries below
    /// the first level. There are two copies of it, which take memory only for the parts that a route covers.
    ///
    /// # Errors
    ///
    /// `Plan`: too many, or a prefix above 32 bits; `Memory`.
    ///
    /// ```
    /// use hokhtura::{Fib, FirstLevel, NextHop, Port, Reason, Verdict};
    /// use std::net::Ipv4Addr;
    ///
    /// # fn main() -> Result<(), hokhtura::Error> {
    /// let port = Port { mac: [2, 0, 0, 0, 0, 1], address: Some((Ipv4Addr::new(192, 0, 2, 1), 24)) };
    /// let mut fib = Fib::new(FirstLevel::Bits24, 256, &[port], &[NextHop { port: 0, to: [2, 0, 0, 0, 0, 9] }])?;
    /// let reader = fib.reader()?;
    /// fib.add(Ipv4Addr::new(10, 0, 0, 0), 8, 0)?;
    /// assert_eq!(reader.lookup(Ipv4Addr::new(10, 1, 2, 3)), None);
    /// fib.publish()?;
    /// assert_eq!(reader.lookup(Ipv4Addr::new(10, 1, 2, 3)), Some(0));
    /// let mut frame = [0; 14];
    /// assert_eq!(reader.forward(&mut frame, 60)?, Verdict::Drop(Reason::NotIpv4));
    /// # Ok(())
    /// # }
    /// ```
    pub fn new(first: FirstLevel, groups: u32, ports: &[Port], hops: &[NextHop]) -> Result<Self, Error> {
        Fib::open(ffi::hk_fib_open, first, groups, ports, hops)
    }

    /// A table as by [`new`](Fib::new) whose first level is written whole when it is made, in both copies, 4 bytes for
    /// each entry in each copy. A lookup has a branch less.
    ///
    /// # Errors
    ///
    /// As [`new`](Fib::new).
    pub fn whole(first: FirstLevel, groups: u32, ports: &[Port], hops: &[NextHop]) -> Result<Self, Error> {
        Fib::open(ffi::hk_fib_open_whole, first, groups, ports, hops)
    }

    fn open(
        call: ffi::OpenFib,
        first: FirstLevel,
        groups: u32,
        ports: &[Port],
        hops: &[NextHop],
    ) -> Result<Self, Error> {
        let ports: Vec<_> = ports.iter().map(Port::plan).collect();
        let hops: Vec<_> = hops.iter().map(NextHop::plan).collect();
        let (bits, mut at) = (first.bits(), null_mut());
        let (first, second) = (ports.as_ptr(), hops.as_ptr());
        answer(unsafe { call(&raw mut at, bits, groups, first, ports.len(), second, hops.len()) })?;
        Ok(Fib(NonNull::new(at).ok_or(Error::Null)?, PhantomData))
    }

    /// A reader, which may go to another thread.
    ///
    /// # Errors
    ///
    /// `Memory`.
    pub fn reader(&mut self) -> Result<Forwarder, Error> {
        let mut at = null_mut();
        answer(unsafe { ffi::hk_fib_share(self.0.as_ptr(), &raw mut at) })?;
        Forwarder::of(at)
    }

    /// Prepares a route for the first `depth` bits of an address, or another next hop of it.
    ///
    /// # Errors
    ///
    /// `Pending`, `Depth`, `Hop`, `Groups`, `Memory`, in this order.
    pub fn add(&mut self, address: Ipv4Addr, depth: u32, hop: u32) -> Result<(), Error> {
        answer(unsafe { ffi::hk_fib_add(self.0.as_ptr(), address.into(), depth, hop) }).map(drop)
    }

    /// Prepares the removal of a route.
    ///
    /// # Errors
    ///
    /// `Pending`, `Depth`, `NoRoute`, `Memory`, in this order.
    pub fn remove(&mut self, address: Ipv4Addr, depth: u32) -> Result<(), Error> {
        answer(unsafe { ffi::hk_fib_remove(self.0.as_ptr(), address.into(), depth) }).map(drop)
    }

    /// Prepares the removal of all routes.
    ///
    /// # Errors
    ///
    /// `Pending`, `Memory`.
    pub fn clear(&mut self) -> Result<(), Error> {
        answer(unsafe { ffi::hk_fib_clear(self.0.as_ptr()) }).map(drop)
    }

    /// Prepares another next hop of a number.
    ///
    /// # Errors
    ///
    /// `Pending`; `Hop` if `number` isn't below the number of next hops that the table was opened with; `Memory`.
    pub fn set_hop(&mut self, number: u32, hop: &NextHop) -> Result<(), Error> {
        answer(unsafe { ffi::hk_fib_set_hop(self.0.as_ptr(), number, &hop.plan()) }).map(drop)
    }

    /// Prepares another port of a number.
    ///
    /// # Errors
    ///
    /// `Plan` for a prefix above 32 bits; `Pending`; `Count` if `number` isn't below the number of ports that the table
    /// was opened with; `Memory`.
    pub fn set_port(&mut self, number: u32, port: &Port) -> Result<(), Error> {
        answer(unsafe { ffi::hk_fib_set_port(self.0.as_ptr(), number, &port.plan()) }).map(drop)
    }

    /// Publishes all prepared changes at once, as a new version. Each reader sees it from its next call on, or, if it
    /// holds the version before, once it lets that go.
    ///
    /// # Errors
    ///
    /// `Pending`: the last version isn't settled; `Memory`.
    pub fn publish(&mut self) -> Result<(), Error> {
        answer(unsafe { ffi::hk_fib_publish(self.0.as_ptr()) }).map(drop)
    }

    /// Settles the last version: takes back the copy that readers had before, and repeats the changes in it. Each call
    /// that prepares a change does so first. Once it returns `Ok`, changes can be made.
    ///
    /// # Errors
    ///
    /// `Pending`: a reader is still in a call that uses the version before, or holds that; `Memory`. Call again.
    pub fn settle(&mut self) -> Result<(), Error> {
        answer(unsafe { ffi::hk_fib_settle(self.0.as_ptr()) }).map(drop)
    }

    /// How many changes readers don't see yet.
    #[must_use]
    pub fn pending(&self) -> usize {
        answer(unsafe { ffi::hk_fib_pending(self.0.as_ptr()) }).unwrap_or(0)
    }

    /// The number of the next hop of exactly this route, with what is prepared.
    ///
    /// # Errors
    ///
    /// `Depth`, `NoRoute`.
    #[allow(clippy::cast_possible_truncation)] // a hop is below 2^24
    pub fn get(&self, address: Ipv4Addr, depth: u32) -> Result<u32, Error> {
        answer(unsafe { ffi::hk_fib_get(self.0.as_ptr(), address.into(), depth) }).map(|hop| hop as u32)
    }

    /// How many routes there are, with what is prepared.
    #[must_use]
    pub fn len(&self) -> usize {
        answer(unsafe { ffi::hk_fib_count(self.0.as_ptr()) }).unwrap_or(0)
    }

    /// Whether there is none.
    #[must_use]
    pub fn is_empty(&self) -> bool {
        self.len() == 0
    }

    /// All routes, with what is prepared, in the order of addresses and then of depths.
    #[must_use]
    pub fn iter(&self) -> impl FusedIterator<Item = Route> + '_ {
        let mut from = (0, 0);
        core::iter::from_fn(move || {
            let mut found = ffi::FibRoute { address: 0, depth: 0, hop: 0 };
            answer(unsafe { ffi::hk_fib_walk(self.0.as_ptr(), from.0, from.1, &raw mut found) }).ok()?;
            from = (found.address, found.depth + 1);
            Some(Route { address: found.address.into(), depth: found.depth, hop: found.hop })
        })
        .fuse()
    }
}

impl Drop for Fib {
    fn drop(&mut self) {
        unsafe { ffi::hk_fib_free(self.0.as_ptr()) }
    }
}

impl fmt::Debug for Fib {
    fn fmt(&self, f: &mut fmt::Formatter<'_>) -> fmt::Result {
        f.debug_struct("Fib").finish_non_exhaustive()
    }
}
