//! The journal's three exported calls, as safe functions. What they ask of a caller and promise is in
//! include/journal.h.

#[cfg(test)]
mod tests;

use std::error::Error;
use std::fmt::{Display, Formatter, Result as Written};

// The archive is for this target, where `usize` is C's size_t and `extern "C"` the ABI that its
// functions have.
#[cfg(not(all(target_arch = "x86_64", target_os = "linux")))]
compile_error!("libjournal.a is for x86-64 Linux");

#[link(name = "journal", kind = "static")]
unsafe extern "C" {
    /// `bytes` must not be null, and `length` bytes from it on must be readable and unchanged
    /// during the call.
    unsafe fn journal_place_check(bytes: *const u8, length: usize, number: u64) -> u64;

    safe fn journal_lock_place(k: u64, j: u64) -> u64;

    /// Neither pointer may be null. As many bytes from the first on as its length says must be
    /// readable and unchanged during the call; those of the second must be writable, and nobody
    /// else's. The two do not overlap.
    unsafe fn journal_convert(
        old_medium: *const u8,
        old_length: usize,
        new_medium: *mut u8,
        new_length: usize,
    ) -> u64;
}

/// The bytes of a medium's two slots, which lie before its places.
pub const SLOTS_BYTES: usize = 64;

/// The bytes of a place.
pub const PLACE_BYTES: usize = 72;

/// The places of a lock table.
const TABLE_PLACES: usize = 1024;

/// The number of [`NotConvertible`].
const NOT_CONVERTIBLE: u64 = 27;

/// Why `convert` declines: the lengths are not those of one number of places from 1 to 1,000, or the
/// old medium has no valid slot.
#[derive(Clone, Copy, Debug, PartialEq, Eq)]
pub struct NotConvertible;

impl Display for NotConvertible {
    fn fmt(&self, f: &mut Formatter) -> Written {
        write!(f, "{NOT_CONVERTIBLE} not convertible")
    }
}

impl Error for NotConvertible {}

/// The bytes of a medium of so many places.
pub const fn medium_bytes(places: usize) -> usize {
    SLOTS_BYTES + PLACE_BYTES * places
}

/// Whether the bytes are valid as the place of this number: false also for a length other than 72
/// and for a number outside 1 to 1,000.
pub fn place_check(bytes: &[u8], number: u64) -> bool {
    // SAFETY: the pointer of a slice is never null, and nobody writes what is lent as `&`. That of
    // an empty slice dangles, which is fine: the call reads only if the length is 72.
    yes_or_no(unsafe { journal_place_check(bytes.as_ptr(), bytes.len(), number) })
}

/// The three places of a lock in a lock table, each below 1,024.
pub fn lock_places(lock: u64) -> [usize; 3] {
    [0, 1, 2].map(|j| table_place(journal_lock_place(lock, j)))
}

/// Turns an old medium, of 64 + 64 bytes a place, into a new one, of `medium_bytes` for as many
/// places, and fills all of `new`; or declines and leaves `new` as it is.
pub fn convert(old: &[u8], new: &mut [u8]) -> Result<(), NotConvertible> {
    // SAFETY: neither pointer is null. What is lent as `&mut` is nobody else's meanwhile, so it does
    // not overlap `old`, which nobody writes. The pointer of an empty slice dangles, which is fine:
    // the call reads and writes only if the lengths are those of a medium of one place or more.
    let given = unsafe { journal_convert(old.as_ptr(), old.len(), new.as_mut_ptr(), new.len()) };
    converted(given)
}

// The library is proved to answer as these three ask. But a linker goes by names alone, so another
// library under the same names would go unnoticed; here it is noticed before anyone indexes a table
// with its answer, or takes for a medium what is none.

fn yes_or_no(answer: u64) -> bool {
    match answer {
        0 => false,
        1 => true,
        _ => panic!("journal_place_check gives {answer}"),
    }
}

fn table_place(answer: u64) -> usize {
    match usize::try_from(answer) {
        Ok(place) if place < TABLE_PLACES => place,
        _ => panic!("journal_lock_place gives {answer}"),
    }
}

fn converted(answer: u64) -> Result<(), NotConvertible> {
    match answer {
        0 => Ok(()),
        NOT_CONVERTIBLE => Err(NotConvertible),
        _ => panic!("journal_convert gives {answer}"),
    }
}
