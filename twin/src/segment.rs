//! Segment files: a log as the data and index file that archive sites keep (document 02, No. 3). They
//! "carry the 64 bits too, as version 2, and only version 2 is read" (No. 7).
//!
//! Both files begin with the same header. In the data file the records follow, in the index file the
//! offset of each of them, counted from the start of the data file (004: "Each element is byte
//! offsets of the transaction record in the data file"). Integers are big-endian.

mod import;
mod record;
mod write;

use crate::medium::put;

pub use import::{import, Unfit};
pub use record::{FRAME_BYTES, LENGTH_AT};
pub use write::{lengths, write, written};

/// A header: version (4), time (8), cluster key (16), partition (4), first ID (8), zeros (88).
pub const HEADER_BYTES: usize = 128;
const VERSION_AT: usize = 0;
const TIME_AT: usize = 4;
const KEY_AT: usize = 12;
const PARTITION_AT: usize = 28;
const FIRST_AT: usize = 32;

/// The only version that is written and read.
const VERSION: u32 = 2;

/// "partition 0, first ID 1", also for an empty log. The records keep their own partition.
const PARTITION: u32 = 0;
const FIRST: u64 = 1;

/// An offset in the index file.
pub const OFFSET_BYTES: usize = 8;

pub type Key = [u8; 16];

/// What both headers are told from outside: "time and cluster key handed in".
#[derive(Clone, Copy, Debug, Default, PartialEq, Eq)]
pub struct Stamp {
    pub time: u64,
    pub key: Key,
}

impl Stamp {
    /// The header that export writes in both files.
    pub fn header(&self) -> [u8; HEADER_BYTES] {
        let mut header = [0; HEADER_BYTES];
        put(&mut header, VERSION_AT, &VERSION.to_be_bytes());
        put(&mut header, TIME_AT, &self.time.to_be_bytes());
        put(&mut header, KEY_AT, &self.key);
        put(&mut header, PARTITION_AT, &PARTITION.to_be_bytes());
        put(&mut header, FIRST_AT, &FIRST.to_be_bytes());
        header
    }
}

/// The two files of a segment.
#[derive(Clone, Debug, PartialEq, Eq)]
pub struct Pair {
    pub data: Vec<u8>,
    pub index: Vec<u8>,
}

impl Pair {
    /// Files of these lengths, with one byte throughout.
    pub fn filled([data, index]: [usize; 2], byte: u8) -> Pair {
        Pair { data: vec![byte; data], index: vec![byte; index] }
    }

    pub fn lengths(&self) -> [usize; 2] {
        [self.data.len(), self.index.len()]
    }
}
