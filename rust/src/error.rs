//! Why a call did nothing, or isn't done yet.
use core::fmt;

macro_rules! errors {
    ($($(#[$doc:meta])* $name:ident = $number:literal, $text:literal;)*) => {
        /// Why a call moved or changed nothing; but [`Error::Pending`] of a ring says that the call isn't done yet.
        #[derive(Clone, Copy, Debug, PartialEq, Eq, Hash)]
        #[non_exhaustive]
        pub enum Error {
            $($(#[$doc])* $name,)*
            /// A code that this crate doesn't know.
            Unknown(i64),
        }

        impl Error {
            /// The number of the code in `hokhtura.h`, which is below 0.
            #[must_use]
            pub fn code(self) -> i64 {
                match self {
                    $(Error::$name => -$number,)*
                    Error::Unknown(code) => code,
                }
            }

            fn of(code: i64) -> Error {
                match -code {
                    $($number => Error::$name,)*
                    _ => Error::Unknown(code),
                }
            }
        }

        impl fmt::Display for Error {
            fn fmt(&self, f: &mut fmt::Formatter<'_>) -> fmt::Result {
                match self {
                    $(Error::$name => f.write_str($text),)*
                    Error::Unknown(code) => write!(f, "code {code}"),
                }
            }
        }
    };
}

errors! {
    /// A put found the ring too full, or a take found too few words.
    NoRoom = 1, "too little room, or too few words";
    /// Other threads came first each time that the call tried, or one holds this side: nothing was done, call again.
    Again = 2, "other threads came first, or hold the side: call again";
    /// Of a ring: the positions are reserved, and an earlier call of another thread isn't finished yet. Finish the call
    /// before the handle is dropped, by `finish` after `put` or `take`, and by `finish_put` or `finish_take` after the
    /// others: otherwise its positions stay reserved, and that side is blocked. Of a `Fib`: nothing was changed.
    Pending = 3, "not finished: an earlier call of another thread, or a reader, isn't done";
    /// A call of this handle isn't finished, or it holds a side: finish the call, or release the side, first.
    Open = 4, "a call is unfinished, or a side is held";
    /// No call of that side is unfinished, and the handle doesn't hold it.
    NotOpen = 5, "no call of that side is unfinished";
    /// There is no ring of this number.
    Ring = 6, "no ring of this number";
    /// A count of 0, above the limit, or one that isn't that of the unfinished call; or there is no such port.
    Count = 7, "a count of 0, above the limit, or not that of the unfinished call; no such port";
    /// The side is not head/tail-sync.
    Mode = 8, "the side is not head/tail-sync";
    /// A null pointer.
    Null = 9, "a null pointer";
    /// A handle of another kind.
    Kind = 10, "a handle of another kind";
    /// Other handles share it.
    Shared = 12, "other handles share it";
    /// Out of memory.
    Memory = 13, "out of memory";
    /// An argument is out of range: a size, a mode or a depth.
    Plan = 14, "invalid size, mode or depth: no such ring, pool, table, port or window";
    /// The ring has carried as many words as it can count: 2^63 - 1, 2^52 - 1 with a head/tail-sync side, 2^51 - 1 in a
    /// pool. What is queued can still be taken.
    Worn = 15, "the positions of the ring are used up";
    /// The limit of 2^62 handles is reached.
    Parts = 16, "too many handles";
    /// A number that the pool's handle doesn't have, has in its cache, or that is given twice.
    NotYours = 17, "a number that the handle doesn't have, has cached, or given twice";
    /// A depth that is not 1 to 32.
    Depth = 20, "a depth that is not 1 to 32";
    /// There is no such next hop, or it is 2^24 or more.
    Hop = 21, "no such next hop, or one of 2^24 or more";
    /// The routes would need more groups than the table may have.
    Groups = 22, "more groups than the table may have";
    /// No such route.
    NoRoute = 23, "no such route";
    /// The number's turn has passed.
    Late = 24, "the number's turn has passed";
    /// The number is a whole window or more ahead, or `u64::MAX`.
    Early = 25, "the number is a whole window or more ahead";
    /// A word with this number is already waiting.
    Double = 26, "a word with this number is already waiting";
}

impl core::error::Error for Error {}

/// The count that a call returned, or its error.
#[inline]
pub(crate) fn answer(code: i64) -> Result<usize, Error> {
    usize::try_from(code).map_err(|_| Error::of(code))
}
