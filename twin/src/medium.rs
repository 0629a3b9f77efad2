//! A replica's medium: two slots, then places 1 to N. How they are laid out, which of them count,
//! and the log's mark.

use crate::crc::crc32;

/// Slots and places end with a check, the CRC-32 of the bytes before it.
const CHECK_BYTES: usize = 4;

/// A slot: promised session, low-water mark, local low-water mark (8 each), zeros (4), check (4).
pub const SLOT_BYTES: usize = 32;
const PROMISE_AT: usize = 0;
const LOW_AT: usize = 8;
const LOCAL_AT: usize = 16;
pub const SLOT_ZEROS_AT: usize = 24;
pub const SLOT_CHECK_AT: usize = SLOT_BYTES - CHECK_BYTES;

/// Both slots, before the first place.
pub const SLOTS_BYTES: usize = 2 * SLOT_BYTES;

/// A place: ID (8), client, generation, partition (4 each), sequence (8), header, data length (4 each),
/// data (28), zeros (4), check (4). Document 02, No. 7 made the sequence so long, "with four zero bytes
/// before the check".
pub const PLACE_BYTES: usize = 72;
const ID_AT: usize = 0;
const CLIENT_AT: usize = 8;
const GENERATION_AT: usize = 12;
const PARTITION_AT: usize = 16;
const SEQUENCE_AT: usize = 20;
const HEADER_AT: usize = 28;
pub const LENGTH_AT: usize = 32;
pub const DATA_AT: usize = 36;
pub const PLACE_ZEROS_AT: usize = 64;
pub const PLACE_CHECK_AT: usize = PLACE_BYTES - CHECK_BYTES;

/// The most places that a medium has.
pub const MOST_PLACES: u64 = 1000;

/// The most data bytes that a record holds.
pub const DATA_LIMIT: usize = PLACE_ZEROS_AT - DATA_AT;

pub type SlotBytes = [u8; SLOT_BYTES];
pub type PlaceBytes = [u8; PLACE_BYTES];

pub const WIPED: PlaceBytes = [0; PLACE_BYTES];

/// The bytes of a medium with `places` places.
pub const fn medium_bytes(places: usize) -> usize {
    SLOTS_BYTES + PLACE_BYTES * places
}

/// A medium of a fresh cluster: both slots valid with all fields 0, every place wiped.
pub fn fresh(places: usize) -> Vec<u8> {
    let mut medium = vec![0; medium_bytes(places)];
    let slot = Slot::default().encode();
    put(&mut medium, 0, &slot);
    put(&mut medium, SLOT_BYTES, &slot);
    medium
}

/// What a slot says.
#[derive(Clone, Copy, Debug, Default, PartialEq, Eq)]
pub struct Slot {
    pub promise: u64,
    pub low: u64,
    pub local: u64,
}

impl Slot {
    pub fn encode(&self) -> SlotBytes {
        let mut bytes = [0; SLOT_BYTES];
        put(&mut bytes, PROMISE_AT, &self.promise.to_be_bytes());
        put(&mut bytes, LOW_AT, &self.low.to_be_bytes());
        put(&mut bytes, LOCAL_AT, &self.local.to_be_bytes());
        seal(&mut bytes);
        bytes
    }

    /// The slot in `bytes`, if it is valid.
    pub fn decode(bytes: &[u8]) -> Option<Slot> {
        let valid = all_zero(&bytes[SLOT_ZEROS_AT..SLOT_CHECK_AT]) && is_sealed(bytes);
        valid.then(|| Slot {
            promise: be64(bytes, PROMISE_AT),
            low: be64(bytes, LOW_AT),
            local: be64(bytes, LOCAL_AT),
        })
    }

    /// By what the current slot is chosen.
    fn rank(&self) -> (u64, u64) {
        (self.promise, self.low)
    }
}

/// What a place says.
#[derive(Clone, Copy, Debug, PartialEq, Eq)]
pub struct Record<'a> {
    pub id: u64,
    pub client: u32,
    pub generation: u32,
    pub partition: u32,
    pub sequence: u64,
    pub header: u32,
    pub data: &'a [u8],
}

impl<'a> Record<'a> {
    /// The bytes of a record with at most `DATA_LIMIT` bytes of data.
    pub fn encode(&self) -> PlaceBytes {
        let mut bytes = WIPED;
        put(&mut bytes, ID_AT, &self.id.to_be_bytes());
        put(&mut bytes, CLIENT_AT, &self.client.to_be_bytes());
        put(&mut bytes, GENERATION_AT, &self.generation.to_be_bytes());
        put(&mut bytes, PARTITION_AT, &self.partition.to_be_bytes());
        put(&mut bytes, SEQUENCE_AT, &self.sequence.to_be_bytes());
        put(&mut bytes, HEADER_AT, &self.header.to_be_bytes());
        put(&mut bytes, LENGTH_AT, &(self.data.len() as u32).to_be_bytes());
        put(&mut bytes[..PLACE_ZEROS_AT], DATA_AT, self.data);
        seal(&mut bytes);
        bytes
    }

    /// The record in `bytes`, if they are a valid place of this number: all is zero from the end of the
    /// data to the check. It is inlined, and so are `is_place` and `is_sealed`, so that every scan of
    /// places is compiled alike.
    #[inline(always)]
    pub fn decode(number: u64, bytes: &'a [u8]) -> Option<Record<'a>> {
        let length = be32(bytes, LENGTH_AT) as usize;
        let valid = be64(bytes, ID_AT) == number
            && length <= DATA_LIMIT
            && all_zero(&bytes[DATA_AT + length..PLACE_CHECK_AT])
            && is_sealed(bytes);
        valid.then(|| Record::of_valid(bytes))
    }

    /// The record in the bytes of a place that is known to be valid: its check is not computed again.
    pub fn of_valid(bytes: &'a [u8]) -> Record<'a> {
        let length = be32(bytes, LENGTH_AT) as usize;
        Record {
            id: be64(bytes, ID_AT),
            client: be32(bytes, CLIENT_AT),
            generation: be32(bytes, GENERATION_AT),
            partition: be32(bytes, PARTITION_AT),
            sequence: be64(bytes, SEQUENCE_AT),
            header: be32(bytes, HEADER_AT),
            data: &bytes[DATA_AT..DATA_AT + length],
        }
    }
}

#[inline(always)]
pub fn is_place(number: u64, bytes: &[u8]) -> bool {
    Record::decode(number, bytes).is_some()
}

/// Whether given bytes pass as a slot (their first 32 do) or as any place from 1 to `places`.
pub fn passes(bytes: &PlaceBytes, places: u64) -> bool {
    let id = be64(bytes, ID_AT);
    let as_place = (1..=places).contains(&id) && is_place(id, bytes);
    as_place || Slot::decode(&bytes[..SLOT_BYTES]).is_some()
}

/// The current slot of a medium and where it stands (0 or 1); `None` if neither is valid.
pub fn current(medium: &[u8]) -> Option<(usize, Slot)> {
    let slot = |index: usize| Slot::decode(&medium[index * SLOT_BYTES..][..SLOT_BYTES]);
    match (slot(0), slot(1)) {
        (Some(first), Some(second)) if second.rank() > first.rank() => Some((1, second)),
        (Some(first), _) => Some((0, first)),
        (None, Some(second)) => Some((1, second)),
        (None, None) => None,
    }
}

/// The bytes of each place, from place 1 on.
pub fn places(medium: &[u8]) -> impl Iterator<Item = &[u8]> {
    medium[SLOTS_BYTES..].chunks_exact(PLACE_BYTES)
}

/// The bytes of place `number`, from 1 to the medium's number of places.
pub fn place(medium: &[u8], number: u64) -> PlaceBytes {
    let at = place_at(number);
    medium[at..at + PLACE_BYTES].try_into().expect("a place")
}

/// The highest ID of the log, which is the run of valid places from place 1. It is a function of its own,
/// so that its loop is compiled alike for every caller.
#[inline(never)]
pub fn mark(medium: &[u8]) -> u64 {
    mark_above(medium, 0)
}

/// The mark of a medium whose places up to `held` are valid: these are not read again.
pub fn mark_above(medium: &[u8], held: u64) -> u64 {
    let above = medium[place_at(held + 1)..].chunks_exact(PLACE_BYTES);
    let run = (held + 1..).zip(above).take_while(|(number, bytes)| is_place(*number, bytes));
    held + run.count() as u64
}

/// Where place `number` begins.
pub fn place_at(number: u64) -> usize {
    SLOTS_BYTES + (number as usize - 1) * PLACE_BYTES
}

/// Makes the last four bytes the check of those before.
pub fn seal(bytes: &mut [u8]) {
    let (checked, check) = bytes.split_at_mut(bytes.len() - CHECK_BYTES);
    put(check, 0, &crc32(checked).to_be_bytes());
}

#[inline(always)]
pub(crate) fn is_sealed(bytes: &[u8]) -> bool {
    let (checked, check) = bytes.split_at(bytes.len() - CHECK_BYTES);
    be32(check, 0) == crc32(checked)
}

/// Writes `part` into `bytes`.
pub fn put(bytes: &mut [u8], at: usize, part: &[u8]) {
    bytes[at..at + part.len()].copy_from_slice(part);
}

pub(crate) fn be32(bytes: &[u8], at: usize) -> u32 {
    u32::from_be_bytes(bytes[at..at + 4].try_into().expect("four bytes"))
}

pub(crate) fn be64(bytes: &[u8], at: usize) -> u64 {
    u64::from_be_bytes(bytes[at..at + 8].try_into().expect("eight bytes"))
}

pub(crate) fn all_zero(bytes: &[u8]) -> bool {
    bytes.iter().all(|&byte| byte == 0)
}
