//! Imports: whole pairs into wiped media, to be changed; and the pair of the examples.

use crate::medium::{medium_bytes, place_at, put, Record};
use crate::segment::{self, Pair, Stamp, Unfit, FRAME_BYTES, HEADER_BYTES, OFFSET_BYTES};

/// All that an import is given.
#[derive(Clone, Debug, PartialEq, Eq)]
pub struct Import {
    /// N.
    pub places: u64,
    pub medium: Vec<u8>,
    pub stamp: Stamp,
    pub pair: Pair,
}

impl Import {
    /// The pair of these records, whose IDs are 1 and on, and a wiped medium of so many places.
    pub fn whole(places: u64, stamp: Stamp, records: &[Record]) -> Import {
        let mut log = vec![0; medium_bytes(records.len())];
        for record in records {
            put(&mut log, place_at(record.id), &record.encode());
        }
        let pair = segment::written(&log, records.len() as u64, stamp);
        Import { places, medium: vec![0; medium_bytes(places as usize)], stamp, pair }
    }

    pub fn apply(&mut self) -> Result<(), Unfit> {
        let Pair { data, index } = &self.pair;
        segment::import(self.places, &mut self.medium, self.stamp, data, index)
    }

    /// The same with a change.
    pub fn with(&self, change: impl FnOnce(&mut Import)) -> Import {
        let mut import = self.clone();
        change(&mut import);
        import
    }

    pub fn set_offset(&mut self, number: usize, offset: u64) {
        let at = HEADER_BYTES + (number - 1) * OFFSET_BYTES;
        put(&mut self.pair.index, at, &offset.to_be_bytes());
    }

    /// Puts bytes of the data file.
    pub fn set_data(&mut self, at: usize, bytes: &[u8]) {
        put(&mut self.pair.data, at, bytes);
    }

    /// Puts bytes of both headers.
    pub fn set_headers(&mut self, at: usize, bytes: &[u8]) {
        put(&mut self.pair.data, at, bytes);
        put(&mut self.pair.index, at, bytes);
    }
}

/// The record with this ID and this data, all other fields 0.
pub fn plain(id: u64, data: &[u8]) -> Record<'_> {
    Record { id, client: 0, generation: 0, partition: 0, sequence: 0, header: 0, data }
}

/// Time and key of the examples.
pub const STAMP: Stamp = Stamp {
    time: 1_700_000_000_000,
    key: 0x0011_2233_4455_6677_8899_AABB_CCDD_EEFF_u128.to_be_bytes(),
};

/// The first record of the examples; 32 bits do not hold its sequence.
pub const RECORD: Record = Record {
    id: 1,
    client: 258,
    generation: 0,
    partition: 5,
    sequence: (1 << 32) + 77,
    header: 9,
    data: &[0x41, 0x42, 0x43, 0x44],
};

/// Where the second record of the examples begins.
pub const SECOND_AT: usize = HEADER_BYTES + FRAME_BYTES + RECORD.data.len();

/// The whole of the examples: the record and a second one, "all other fields 0, no data", into a medium
/// of two places.
pub fn example() -> Import {
    Import::whole(2, STAMP, &[RECORD, plain(2, &[])])
}
