//! Wiping what held a key, by a write that the optimiser may not leave out.
#![allow(unsafe_code)]

use core::ptr::write_volatile;
use core::sync::atomic::{compiler_fence, Ordering};

/// Writes `blank` over a value, for good.
pub(crate) fn wipe<T: Copy>(place: &mut T, blank: T) {
    // SAFETY: a `&mut` is aligned and good for a write of its type, and a type that is Copy has nothing to drop.
    unsafe { write_volatile(place, blank) };
    compiler_fence(Ordering::SeqCst);
}
