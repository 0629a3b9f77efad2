//! Vectors of records that no gate may send any more (document 02, No. 6): storage and segment files know
//! no limit but a place's, whoever the client is.

use super::segments::{import_line, pair_line};
use super::texts::{place_line, record_line};
use crate::hex;
use crate::medium::{medium_bytes, place_at, put, Record, Slot, DATA_LIMIT};
use crate::tries::imports::{plain, Import, STAMP};

/// As much as a place holds.
const DATA: [u8; DATA_LIMIT] = [0xC3; DATA_LIMIT];

/// Every line: of a gate's record with one byte more than it may send, and of one with as much as a place
/// holds.
pub fn lines() -> Vec<String> {
    let records =
        [Record { client: 99, ..plain(1, &DATA[..13]) }, Record { client: 0, ..plain(2, &DATA) }];
    let lines = |it: &Record| [record_line(it), place_line(it.id, &it.encode())];
    let mut lines: Vec<String> = records.iter().flat_map(lines).collect();
    let mut medium = vec![0; medium_bytes(records.len())];
    put(&mut medium, 0, &Slot::default().encode());
    records.iter().for_each(|it| put(&mut medium, place_at(it.id), &it.encode()));
    lines.push(format!("medium\t{}\t{}", records.len(), hex::encode(&medium)));
    lines.push(pair_line(STAMP, &medium));
    lines.push(import_line(&Import::whole(2, STAMP, &records)));
    lines
}
