//! The layout of the releases before document 02, No. 7: places of 64 bytes with a sequence of 32 bits.
//! Slots were as they are now. Only the converter reads it.

use crate::medium::{all_zero, be32, be64, is_sealed, put, seal, Record, DATA_LIMIT, SLOTS_BYTES};

/// A place: ID (8), client, generation, partition, sequence, header, data length (4 each), data (28),
/// check (4).
pub const PLACE_BYTES: usize = 64;
const ID_AT: usize = 0;
const CLIENT_AT: usize = 8;
const GENERATION_AT: usize = 12;
const PARTITION_AT: usize = 16;
const SEQUENCE_AT: usize = 20;
const HEADER_AT: usize = 24;
pub const LENGTH_AT: usize = 28;
pub const DATA_AT: usize = 32;
pub const PLACE_CHECK_AT: usize = 60;

pub type PlaceBytes = [u8; PLACE_BYTES];

/// The bytes of a medium with `places` places.
pub const fn medium_bytes(places: usize) -> usize {
    SLOTS_BYTES + PLACE_BYTES * places
}

/// Where place `number` begins.
pub fn place_at(number: u64) -> usize {
    SLOTS_BYTES + (number as usize - 1) * PLACE_BYTES
}

/// The bytes of a record with a sequence of 32 bits: no other was ever written.
pub fn encode(record: &Record) -> PlaceBytes {
    let sequence = u32::try_from(record.sequence).expect("a sequence of 32 bits");
    let mut bytes = [0; PLACE_BYTES];
    put(&mut bytes, ID_AT, &record.id.to_be_bytes());
    put(&mut bytes, CLIENT_AT, &record.client.to_be_bytes());
    put(&mut bytes, GENERATION_AT, &record.generation.to_be_bytes());
    put(&mut bytes, PARTITION_AT, &record.partition.to_be_bytes());
    put(&mut bytes, SEQUENCE_AT, &sequence.to_be_bytes());
    put(&mut bytes, HEADER_AT, &record.header.to_be_bytes());
    put(&mut bytes, LENGTH_AT, &(record.data.len() as u32).to_be_bytes());
    put(&mut bytes[..PLACE_CHECK_AT], DATA_AT, record.data);
    seal(&mut bytes);
    bytes
}

/// The record in `bytes`, if they are a valid place of this number.
pub fn decode(number: u64, bytes: &[u8]) -> Option<Record<'_>> {
    let length = be32(bytes, LENGTH_AT) as usize;
    let valid = be64(bytes, ID_AT) == number
        && length <= DATA_LIMIT
        && all_zero(&bytes[DATA_AT + length..PLACE_CHECK_AT])
        && is_sealed(bytes);
    valid.then(|| Record {
        id: number,
        client: be32(bytes, CLIENT_AT),
        generation: be32(bytes, GENERATION_AT),
        partition: be32(bytes, PARTITION_AT),
        sequence: u64::from(be32(bytes, SEQUENCE_AT)),
        header: be32(bytes, HEADER_AT),
        data: &bytes[DATA_AT..DATA_AT + length],
    })
}

/// The records of the log: the run of valid places from place 1.
pub fn log(medium: &[u8]) -> impl Iterator<Item = Record<'_>> {
    let places = medium[SLOTS_BYTES..].chunks_exact(PLACE_BYTES);
    (1..).zip(places).map_while(|(number, bytes)| decode(number, bytes))
}
