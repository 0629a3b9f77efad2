//! Writes the log of a medium, as far as it is asked for, as a segment.

use super::record::{put_record, FRAME_BYTES};
use super::{Pair, Stamp, HEADER_BYTES, OFFSET_BYTES};
use crate::medium::{places, put, Record};

/// The exact lengths of both files for the log up to `mark`, which the medium's own reaches.
pub fn lengths(medium: &[u8], mark: u64) -> [usize; 2] {
    let records: usize = records(medium, mark).map(|record| FRAME_BYTES + record.data.len()).sum();
    [HEADER_BYTES + records, HEADER_BYTES + OFFSET_BYTES * mark as usize]
}

/// Writes the log up to `mark` into files of the exact lengths: every byte of them is written.
pub fn write(medium: &[u8], mark: u64, stamp: Stamp, data: &mut [u8], index: &mut [u8]) {
    let header = stamp.header();
    put(data, 0, &header);
    put(index, 0, &header);
    let offsets = index[HEADER_BYTES..].chunks_exact_mut(OFFSET_BYTES);
    let mut at = HEADER_BYTES;
    for (record, offset) in records(medium, mark).zip(offsets) {
        put(offset, 0, &(at as u64).to_be_bytes());
        at = put_record(data, at, &record);
    }
}

/// The pair that the log up to `mark` is written as.
pub fn written(medium: &[u8], mark: u64, stamp: Stamp) -> Pair {
    let mut pair = Pair::filled(lengths(medium, mark), 0);
    write(medium, mark, stamp, &mut pair.data, &mut pair.index);
    pair
}

/// What the places of the log up to `mark` say.
fn records(medium: &[u8], mark: u64) -> impl Iterator<Item = Record<'_>> {
    places(medium).take(mark as usize).map(Record::of_valid)
}
