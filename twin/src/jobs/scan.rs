//! The mark by a scan that finds each place by a product, to be timed beside `medium::mark`, which
//! goes on from place to place. Only the benchmark and its test use it.

use std::hint::black_box;

use crate::medium::{is_place, PLACE_BYTES, SLOTS_BYTES};

/// The mark of a medium, as `medium::mark` finds it.
pub fn mark_by_products(medium: &[u8]) -> u64 {
    let places = (medium.len() - SLOTS_BYTES) / PLACE_BYTES;
    let run = (0..places).take_while(|&before| is_place(before as u64 + 1, place(medium, before)));
    run.count() as u64
}

/// The place with so many before it. Their number is hidden from the compiler, which would go on from
/// place to place otherwise.
fn place(medium: &[u8], before: usize) -> &[u8] {
    &medium[SLOTS_BYTES + PLACE_BYTES * black_box(before)..][..PLACE_BYTES]
}
