//! Bytes that are no valid place, though near one: by the four zeros, by the check, or by the layout of
//! the releases before document 02, No. 7.

use crate::crc::crc32;
use crate::medium::{put, seal, PlaceBytes, Record, PLACE_BYTES, PLACE_CHECK_AT, PLACE_ZEROS_AT};
use crate::old;

/// All of them, of a place with this number.
pub fn unfit_places(number: u64) -> Vec<PlaceBytes> {
    let whole = record(number).encode();
    let groups =
        [zeros_not_zero(whole).to_vec(), old_places(number).to_vec(), slips(whole).to_vec()];
    groups.concat()
}

/// A record that both layouts can hold.
fn record(id: u64) -> Record<'static> {
    let (client, generation, partition, sequence, header) = (258, 1, 5, 77, 9);
    Record { id, client, generation, partition, sequence, header, data: b"ABCD" }
}

/// "other bytes there make the place invalid even with a fitting check": each of the four.
pub fn zeros_not_zero(whole: PlaceBytes) -> [PlaceBytes; 4] {
    [0, 1, 2, 3].map(|at| {
        let mut bytes = whole;
        bytes[PLACE_ZEROS_AT + at] = 0x80 >> at;
        seal(&mut bytes);
        bytes
    })
}

/// A valid old place with anything behind it: zeros, other bytes, and a check of the whole. So too one
/// without data, whose length field is read as 0 in either layout.
pub fn old_places(number: u64) -> [PlaceBytes; 5] {
    let full = padded(&record(number), 0);
    let bare = padded(&Record { data: &[], ..record(number) }, 0);
    let sealed = |mut bytes: PlaceBytes| {
        seal(&mut bytes);
        bytes
    };
    [full, padded(&record(number), 0xAA), sealed(full), bare, sealed(bare)]
}

fn padded(record: &Record, fill: u8) -> PlaceBytes {
    let mut bytes = [fill; PLACE_BYTES];
    put(&mut bytes, 0, &old::encode(record));
    bytes
}

/// What a slip in the writing would leave: a check of the first 60 or 64 bytes in place of the 68; and a
/// check where the zeros are, of 64 bytes or of 68.
fn slips(whole: PlaceBytes) -> [PlaceBytes; 4] {
    let check = |upto: usize| crc32(&whole[..upto]).to_be_bytes();
    let with = |at: usize, check: [u8; 4]| {
        let mut bytes = whole;
        bytes[PLACE_ZEROS_AT..].fill(0);
        put(&mut bytes, at, &check);
        bytes
    };
    [
        with(PLACE_CHECK_AT, check(60)),
        with(PLACE_CHECK_AT, check(PLACE_ZEROS_AT)),
        with(PLACE_ZEROS_AT, check(PLACE_ZEROS_AT)),
        with(PLACE_ZEROS_AT, check(PLACE_CHECK_AT)),
    ]
}
