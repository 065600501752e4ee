//! Forwarding of frames in place.
use crate::error::{answer, Error};
use crate::ffi;
use core::fmt;
use core::marker::PhantomData;
use core::net::Ipv4Addr;
use core::ptr::NonNull;

/// The largest number of frames in one burst.
pub const MAX_FRAMES: usize = 64;

const TAGGED: u32 = 0x1_0000;
const DROP: u32 = 0x2_0000;

/// A port: its hardware address, and its IPv4 address with the number of bits that are the prefix of its net, 1 to 32.
#[derive(Clone, Copy, Debug, PartialEq, Eq, Hash)]
pub struct Port {
    /// The hardware address.
    pub mac: [u8; 6],
    /// The IPv4 address and the length of the prefix, if the port has one. A length of 0 counts as `None`.
    pub address: Option<(Ipv4Addr, u8)>,
}

impl Port {
    pub(crate) fn plan(&self) -> ffi::Port {
        let (address, depth) = self.address.map_or((0, 0), |(address, depth)| (address.into(), depth));
        ffi::Port { address, mac: self.mac, depth, zero: 0 }
    }
}

/// Where a hop number of the routes leads. If there is no such port, it leads nowhere.
#[derive(Clone, Copy, Debug, PartialEq, Eq, Hash)]
pub struct NextHop {
    /// The number of a port.
    pub port: u32,
    /// The hardware address of the neighbour on it.
    pub to: [u8; 6],
}

impl NextHop {
    pub(crate) fn plan(&self) -> ffi::Hop {
        ffi::Hop { port: self.port, to: self.to }
    }
}

/// Why a frame is dropped.
#[derive(Clone, Copy, Debug, PartialEq, Eq, Hash)]
pub enum Reason {
    /// The bytes end before the type, or before the end of the IPv4 header.
    Short = 1,
    /// The type isn't that of IPv4.
    NotIpv4 = 2,
    /// The version is not 4, or the header shorter than 20 bytes.
    BadHeader = 3,
    /// The total length is below the header's, or above that on the wire.
    BadLength = 4,
    /// The header's checksum is wrong.
    BadChecksum = 5,
    /// The time to live is 0 or 1.
    Expired = 6,
    /// No route covers the destination, or its hop leads nowhere.
    NoRoute = 7,
}

/// What becomes of a frame.
#[derive(Clone, Copy, Debug, PartialEq, Eq, Hash)]
pub enum Verdict {
    /// It leaves through this port; `tagged`: it has an 802.1Q tag.
    Send {
        /// The number of the port.
        port: u16,
        /// Whether the frame has a tag, which it keeps.
        tagged: bool,
    },
    /// It isn't forwarded, and is unchanged.
    Drop(Reason),
}

impl Verdict {
    #[allow(clippy::cast_possible_truncation)] // a port is below 2^16
    fn of(number: u32) -> Verdict {
        use Reason::{BadChecksum, BadHeader, BadLength, Expired, NoRoute, NotIpv4, Short};
        if number < DROP {
            return Verdict::Send { port: (number % TAGGED) as u16, tagged: number >= TAGGED };
        }
        let reasons = [Short, NotIpv4, BadHeader, BadLength, BadChecksum, Expired, NoRoute];
        Verdict::Drop(reasons[(number - DROP - 1) as usize])
    }
}

/// What a frame is addressed to; the last three are false if it has no IPv4 packet.
#[derive(Clone, Copy, Debug, PartialEq, Eq, Hash)]
#[allow(clippy::struct_excessive_bools)] // they are the bits of `hk_forward_class`
pub struct Addressed {
    /// The hardware address of the port that it came in through.
    pub port: bool,
    /// A link-layer multicast or broadcast, which is not to be forwarded (RFC 1812, section 5.3.4).
    pub group: bool,
    /// The IPv4 address of one of the ports (RFC 1812, section 5.2.3).
    pub own: bool,
    /// A host group (RFC 1112, section 4).
    pub multicast: bool,
    /// 255.255.255.255, or all hosts of a port's net (RFC 1812, section 5.3.5).
    pub broadcast: bool,
}

/// A frame of a burst: the bytes of it that are there, and how many it had on the wire.
#[repr(transparent)]
pub struct Frame<'a>(ffi::Frame, PhantomData<&'a mut [u8]>);

impl<'a> Frame<'a> {
    /// A frame that had `wire` bytes.
    pub fn new(bytes: &'a mut [u8], wire: usize) -> Self {
        Frame(ffi::Frame { bytes: bytes.as_mut_ptr(), held: bytes.len(), wire }, PhantomData)
    }
}

impl fmt::Debug for Frame<'_> {
    fn fmt(&self, f: &mut fmt::Formatter<'_>) -> fmt::Result {
        f.debug_struct("Frame").field("held", &self.0.held).field("wire", &self.0.wire).finish()
    }
}

/// A reader of a [`Fib`](crate::Fib): it looks addresses up, and forwards Ethernet frames with IPv4 packets where they
/// lie. Each call uses one version of the table, no older than any that this reader used: the last one that was
/// published, or the one that it holds. It neither waits nor allocates.
pub struct Forwarder(NonNull<ffi::Forward>, PhantomData<*mut u8>);

// SAFETY: a handle may go to another thread. It isn't `Sync`: no two calls overlap.
unsafe impl Send for Forwarder {}

impl Forwarder {
    pub(crate) fn of(at: *mut ffi::Forward) -> Result<Self, Error> {
        Ok(Forwarder(NonNull::new(at).ok_or(Error::Null)?, PhantomData))
    }

    /// A guard that holds the last version: calls through it use that version, and cost less. A later version can't be
    /// settled meanwhile ([`settle`](crate::Fib::settle) returns `Pending`), so drop it every few bursts and before the
    /// thread waits.
    ///
    /// ```
    /// use hokhtura::{Fib, FirstLevel};
    /// use std::net::Ipv4Addr;
    ///
    /// # fn main() -> Result<(), hokhtura::Error> {
    /// let mut fib = Fib::new(FirstLevel::Bits16, 1, &[], &[])?;
    /// let mut reader = fib.reader()?;
    /// let held = reader.hold();
    /// fib.add(Ipv4Addr::new(10, 0, 0, 0), 8, 7)?;
    /// fib.publish()?;
    /// assert_eq!(held.lookup(Ipv4Addr::new(10, 1, 2, 3)), None);
    /// drop(held);
    /// assert_eq!(reader.lookup(Ipv4Addr::new(10, 1, 2, 3)), Some(7));
    /// # Ok(())
    /// # }
    /// ```
    pub fn hold(&mut self) -> Held<'_> {
        // it can't fail: the handle has a reader
        let _ = unsafe { ffi::hk_forward_hold(self.0.as_ptr()) };
        Held(self)
    }

    /// The number of the next hop of the longest published route that covers an address.
    #[must_use]
    pub fn lookup(&self, address: Ipv4Addr) -> Option<u32> {
        u32::try_from(unsafe { ffi::hk_forward_lookup(self.0.as_ptr(), address.into()) }).ok()
    }

    /// Looks up addresses, given as numbers, all in one version. Writes at each place of `hops` the number of the next
    /// hop for the address at that place, or `u32::MAX`.
    ///
    /// # Errors
    ///
    /// `Count` if there are not as many places; nothing is written then.
    pub fn lookup_bulk(&self, addresses: &[u32], hops: &mut [u32]) -> Result<(), Error> {
        if addresses.len() != hops.len() {
            return Err(Error::Count);
        }
        let (from, to, n) = (addresses.as_ptr(), hops.as_mut_ptr(), hops.len());
        answer(unsafe { ffi::hk_forward_lookup_bulk(self.0.as_ptr(), from, to, n) }).map(drop)
    }

    /// Forwards a frame that had `wire` bytes on the wire. If it is sent, it is rewritten in place.
    ///
    /// # Errors
    ///
    /// `Count` if `wire` is below the number of bytes.
    pub fn forward(&self, frame: &mut [u8], wire: usize) -> Result<Verdict, Error> {
        let (at, held) = (frame.as_mut_ptr(), frame.len());
        answer(unsafe { ffi::hk_forward_frame(self.0.as_ptr(), at, held, wire) }).map(verdict)
    }

    /// The verdict on a frame, which stays as it is.
    ///
    /// # Errors
    ///
    /// `Count` if `wire` is below the number of bytes.
    pub fn verdict(&self, frame: &[u8], wire: usize) -> Result<Verdict, Error> {
        let (at, held) = (frame.as_ptr(), frame.len());
        answer(unsafe { ffi::hk_forward_verdict(self.0.as_ptr(), at, held, wire) }).map(verdict)
    }

    /// Forwards a burst of 1 to [`MAX_FRAMES`] frames, with their lookups together, and writes the verdict on each at
    /// its place. Returns how many are sent.
    ///
    /// # Errors
    ///
    /// `Count`: no frame, too many, not as many places, or a frame with more bytes than it had on the wire. Nothing is
    /// changed then.
    pub fn forward_burst(&self, frames: &mut [Frame<'_>], verdicts: &mut [Verdict]) -> Result<usize, Error> {
        if frames.len() > MAX_FRAMES || frames.len() != verdicts.len() {
            return Err(Error::Count);
        }
        let mut numbers = [0; MAX_FRAMES];
        // The pointer of a unique borrow: the bytes of the frames are written.
        let (at, n) = (frames.as_mut_ptr().cast_const().cast(), frames.len());
        let sent = answer(unsafe { ffi::hk_forward_burst(self.0.as_ptr(), at, numbers.as_mut_ptr(), n) })?;
        for (verdict, number) in verdicts.iter_mut().zip(numbers) {
            *verdict = Verdict::of(number);
        }
        Ok(sent)
    }

    /// What a frame that came in by a port is addressed to.
    ///
    /// # Errors
    ///
    /// `Count`: there is no such port.
    pub fn addressed(&self, port: usize, frame: &[u8]) -> Result<Addressed, Error> {
        let bits = answer(unsafe { ffi::hk_forward_class(self.0.as_ptr(), port, frame.as_ptr(), frame.len()) })?;
        let has = |bit: usize| bits & bit != 0;
        Ok(Addressed { port: has(1), group: has(2), own: has(4), multicast: has(8), broadcast: has(16) })
    }
}

#[allow(clippy::cast_possible_truncation)] // a verdict has 32 bits
fn verdict(number: usize) -> Verdict {
    Verdict::of(number as u32)
}

/// A reader that holds a version until this is dropped. If this is forgotten, the version stays held.
#[derive(Debug)]
#[must_use]
pub struct Held<'a>(&'a Forwarder);

impl core::ops::Deref for Held<'_> {
    type Target = Forwarder;

    fn deref(&self) -> &Forwarder {
        self.0
    }
}

impl Drop for Held<'_> {
    fn drop(&mut self) {
        let _ = unsafe { ffi::hk_forward_release(self.0 .0.as_ptr()) };
    }
}

impl Drop for Forwarder {
    fn drop(&mut self) {
        unsafe { ffi::hk_forward_free(self.0.as_ptr()) }
    }
}

impl fmt::Debug for Forwarder {
    fn fmt(&self, f: &mut fmt::Formatter<'_>) -> fmt::Result {
        f.debug_struct("Forwarder").finish_non_exhaustive()
    }
}
