//! What rings and windows carry.
use core::ptr::NonNull;

/// A value of 64 bits, which a ring copies as it is. A ring returns only values that were put on it.
///
/// # Safety
///
/// The type must have the size and the alignment of `u64` and no padding, and its values must own nothing. Don't
/// implement it for a type with a pointer inside: the pointer would lose its provenance. Put its address, as a `usize`.
pub unsafe trait Word: Copy {
    /// The bits of the word. Those of a pointer are its address, whose provenance is exposed.
    #[doc(hidden)]
    fn into_bits(self) -> u64 {
        const { assert!(size_of::<Self>() == 8 && align_of::<Self>() == 8) };
        // SAFETY: the type has the size of a `u64`, and no padding.
        unsafe { core::mem::transmute_copy(&self) }
    }

    /// The word that has these bits.
    ///
    /// # Safety
    ///
    /// They are those of a word of this type.
    #[doc(hidden)]
    #[must_use]
    unsafe fn of_bits(bits: u64) -> Self {
        const { assert!(size_of::<Self>() == 8) };
        // SAFETY: the caller has them from a word of this type.
        unsafe { core::mem::transmute_copy(&bits) }
    }
}

// SAFETY: 64 bits without padding, which own nothing.
unsafe impl Word for u64 {}
// SAFETY: as above.
unsafe impl Word for i64 {}
// SAFETY: as above.
unsafe impl Word for f64 {}
// SAFETY: as above, where a pointer has 64 bits.
#[cfg(target_pointer_width = "64")]
unsafe impl Word for usize {}
// SAFETY: as above.
#[cfg(target_pointer_width = "64")]
unsafe impl Word for isize {}

/// A pointer type goes over a ring as an address. `into_bits` exposes its provenance.
#[cfg(target_pointer_width = "64")]
macro_rules! pointers {
    ($($kind:ty, |$word:ident| $address:expr, |$at:ident| $made:expr;)*) => {
        $(
            // SAFETY: a thin pointer has 64 bits, and owns nothing.
            unsafe impl<T> Word for $kind {
                fn into_bits(self) -> u64 {
                    let $word = self;
                    $address as usize as u64
                }

                #[allow(clippy::cast_possible_truncation)]
                unsafe fn of_bits(bits: u64) -> Self {
                    let $at = bits as usize as *mut T;
                    $made
                }
            }
        )*
    };
}

#[cfg(target_pointer_width = "64")]
pointers! {
    *const T, |word| word, |at| at;
    *mut T, |word| word, |at| at;
    // SAFETY: it was a `NonNull` when it was put.
    NonNull<T>, |word| word.as_ptr(), |at| unsafe { NonNull::new_unchecked(at) };
    // SAFETY: it was such a reference when it was put.
    &'static T, |word| core::ptr::from_ref(word), |at| unsafe { &*at };
}
