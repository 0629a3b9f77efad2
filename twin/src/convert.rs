//! The converter (document 02, No. 7): "turns an old medium into a new one in a second slice". It is no
//! cluster call, and is used while all servers are idle.

use crate::medium::{self, medium_bytes, place_at, put, MOST_PLACES, SLOTS_BYTES};
use crate::old;

/// Number 27: "the lengths aren't those of one N from 1 to 1,000 or the old medium has no valid slot".
#[derive(Clone, Copy, Debug, PartialEq, Eq)]
pub struct Declined;

impl Declined {
    /// Its number in the list of documents 01 and 02.
    pub fn number(&self) -> u64 {
        27
    }
}

/// "every slot and every record of the log is kept, and all other places come out wiped": both slots as
/// they are, also one that is not valid; the run of valid places from place 1 with the same fields and
/// data, under new checks. Declined, it leaves the second slice as it was.
pub fn convert(old: &[u8], new: &mut [u8]) -> Result<(), Declined> {
    if !are_of_one_n(old.len(), new.len()) || medium::current(old).is_none() {
        return Err(Declined);
    }
    let (slots, places) = new.split_at_mut(SLOTS_BYTES);
    slots.copy_from_slice(&old[..SLOTS_BYTES]);
    places.fill(0);
    for record in old::log(old) {
        put(new, place_at(record.id), &record.encode());
    }
    Ok(())
}

/// N is not handed in; it is found from the lengths.
fn are_of_one_n(old: usize, new: usize) -> bool {
    (1..=MOST_PLACES as usize)
        .any(|places| (old, new) == (old::medium_bytes(places), medium_bytes(places)))
}

/// What an old medium becomes in a slice of the length that goes with its own.
pub fn converted(old: &[u8]) -> Result<Vec<u8>, Declined> {
    let places = old.len().saturating_sub(SLOTS_BYTES) / old::PLACE_BYTES;
    let mut new = vec![0; medium_bytes(places)];
    convert(old, &mut new)?;
    Ok(new)
}
