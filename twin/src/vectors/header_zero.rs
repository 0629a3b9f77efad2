//! Vectors of records with header 0, which issue does not take any more (document 02, No. 8): "Stored ones stay
//! readable", and storage, segment files and the converter know no header but by its bytes.

use super::conversions;
use super::segments::{import_line, pair_line};
use super::texts::{place_line, record_line};
use crate::hex;
use crate::medium::{medium_bytes, place_at, put, Record, Slot};
use crate::old;
use crate::tries::imports::{Import, RECORD, STAMP};
use crate::tries::records::TOPS;

/// Every line: each record written and read; logs of which all records have header 0, or the first, the second
/// or the last one alone, scanned, written out, imported and converted from the old layout.
pub fn lines() -> Vec<String> {
    let records = [Record { header: 0, ..RECORD }, Record { header: 0, ..TOPS }];
    let stored = |it: &Record| [record_line(it), place_line(it.id, &it.encode())];
    let mut lines: Vec<String> = records.iter().flat_map(stored).collect();
    for headers in [[0, 0, 0], [0, 9, 9], [9, 0, 9], [9, 9, 0]] {
        lines.extend(log(headers));
    }
    lines
}

/// Three records with these headers, which either layout can hold.
fn log(headers: [u32; 3]) -> [String; 4] {
    let record = |(id, header)| Record { id, header, sequence: 77, ..RECORD };
    let records: Vec<Record> = (1..).zip(headers).map(record).collect();
    let slots = [Slot { promise: 2, low: 0, local: 0 }.encode(), Slot::default().encode()].concat();
    let mut old = slots.clone();
    records.iter().for_each(|record| old.extend(old::encode(record)));
    let mut medium = slots;
    medium.resize(medium_bytes(records.len()), 0);
    records.iter().for_each(|it| put(&mut medium, place_at(it.id), &it.encode()));
    [
        format!("medium\t{}\t{}", records.len(), hex::encode(&medium)),
        pair_line(STAMP, &medium),
        import_line(&Import::whole(3, STAMP, &records)),
        conversions::line(&old, medium_bytes(records.len()), 0xAA),
    ]
}
