//! The two calls that a C host may make directly.

use crate::locks::{lock_places, TABLE_MARKS};
use crate::medium::{is_place, MOST_PLACES, PLACE_BYTES};

/// 1 if the bytes are a valid place of this number, otherwise 0, also for another length or a
/// number outside its values.
pub fn place_check(bytes: &[u8], number: u64) -> u64 {
    let fits = bytes.len() == PLACE_BYTES && (1..=MOST_PLACES).contains(&number);
    u64::from(fits && is_place(number, bytes))
}

/// Place `index` of a lock, from 0; 1,024 if there is no such place.
pub fn lock_place(lock: u64, index: u64) -> u64 {
    let places = lock_places(lock);
    let place = usize::try_from(index).ok().and_then(|index| places.get(index));
    *place.unwrap_or(&TABLE_MARKS) as u64
}
