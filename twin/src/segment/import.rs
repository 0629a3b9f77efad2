//! Import: a pair of segment files into a medium that is in no cluster.

use super::record::{record_at, size_at};
use super::{Stamp, HEADER_BYTES, OFFSET_BYTES};
use crate::medium::{be64, medium_bytes, place_at, places, put, Record, MOST_PLACES, WIPED};

/// Why an import is declined, in the order in which the reasons are checked: each "over the whole
/// pair" before the next.
#[derive(Clone, Copy, Debug, PartialEq, Eq)]
pub enum Unfit {
    /// N is outside its values, or medium or index has another length.
    Length,
    /// "a header other than export would write, a place not wiped or more offsets than N".
    Unready,
    /// "a first offset that isn't 128 or a later one that isn't the one before plus that record's
    /// size".
    Offset,
    /// "a record cut short, misnumbered, too long or failing a check, or bytes after the last".
    Record,
}

impl Unfit {
    /// Its number in the list of documents 01 and 02.
    pub fn number(&self) -> u64 {
        match self {
            Unfit::Length => 1,
            Unfit::Unready => 24,
            Unfit::Offset => 25,
            Unfit::Record => 26,
        }
    }

    /// Itself, unless what it asks for holds.
    fn unless(self, fits: bool) -> Result<(), Unfit> {
        if fits {
            Ok(())
        } else {
            Err(self)
        }
    }
}

/// Writes the places of the pair's records into a medium of `count` places, all wiped. Declined, it
/// leaves the medium as it was; the slots are neither read nor written.
pub fn import(
    count: u64,
    medium: &mut [u8],
    stamp: Stamp,
    data: &[u8],
    index: &[u8],
) -> Result<(), Unfit> {
    Unfit::Length.unless(has_length(medium, count) && is_index_length(index.len()))?;
    let (index_header, offsets) = index.split_at(HEADER_BYTES);
    let last = (offsets.len() / OFFSET_BYTES) as u64;
    let header = stamp.header();
    let headers = data.starts_with(&header) && index_header == header;
    let wiped = places(medium).all(|place| place == WIPED);
    Unfit::Unready.unless(headers && wiped && last <= count)?;
    let offsets = offsets.chunks_exact(OFFSET_BYTES).map(|bytes| be64(bytes, 0));
    Unfit::Offset.unless(are_offsets(data, offsets))?;
    for record in records(data, 1..=last).ok_or(Unfit::Record)? {
        put(medium, place_at(record.id), &record.encode());
    }
    Ok(())
}

fn has_length(medium: &[u8], count: u64) -> bool {
    (1..=MOST_PLACES).contains(&count) && medium.len() == medium_bytes(count as usize)
}

/// "an import's index: 128 + 8 an offset; its data: any".
fn is_index_length(length: usize) -> bool {
    length.checked_sub(HEADER_BYTES).is_some_and(|rest| rest.is_multiple_of(OFFSET_BYTES))
}

/// Whether the offsets are those of the records, "until a length field is above 28 or not wholly in the
/// slice": that record's own offset still counts, later ones do not.
fn are_offsets(data: &[u8], offsets: impl Iterator<Item = u64>) -> bool {
    let mut at = HEADER_BYTES;
    for offset in offsets {
        if offset != at as u64 {
            return false;
        }
        let Some(size) = size_at(data, at) else {
            return true;
        };
        at += size;
    }
    true
}

/// The records of these numbers one after another, if they are all there and nothing else is.
fn records(data: &[u8], numbers: impl Iterator<Item = u64>) -> Option<Vec<Record<'_>>> {
    let mut records = Vec::new();
    let mut at = HEADER_BYTES;
    for number in numbers {
        let (record, end) = record_at(data, at, number)?;
        records.push(record);
        at = end;
    }
    (at == data.len()).then_some(records)
}
