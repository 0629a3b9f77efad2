//! Vectors of the longer sequence (document 02, No. 7): records on both sides of what 32 bits hold, places
//! that are near valid ones, and segment files of either version.

use super::segments::{import_line, pair_line};
use super::texts::{place_line, record_line};
use crate::hex;
use crate::medium::{fresh, place_at, put, Record};
use crate::tries::imports::{plain, Import, RECORD, STAMP};
use crate::tries::records::SEQUENCES;
use crate::tries::unfit::unfit_places;
use crate::tries::version_1;

/// Every line.
pub fn lines() -> Vec<String> {
    let records = SEQUENCES.map(|sequence| Record { sequence, ..RECORD });
    let mut lines: Vec<String> = records.iter().flat_map(stored).collect();
    lines.extend(unfit_places(1).iter().map(|bytes| place_line(1, bytes)));
    lines.extend(unfit_places(2).iter().map(|bytes| log_with(bytes)));
    lines.extend(records.map(|record| import_line(&Import::whole(1, STAMP, &[record]))));
    lines.extend(of_version_1().iter().map(import_line));
    lines.extend(malformed());
    lines
}

/// The record written, read and written out.
fn stored(record: &Record) -> [String; 3] {
    let bytes = record.encode();
    let mut medium = fresh(1);
    put(&mut medium, place_at(1), &bytes);
    [record_line(record), place_line(record.id, &bytes), pair_line(STAMP, &medium)]
}

/// Three places, the second of which holds these bytes.
fn log_with(bytes: &[u8]) -> String {
    let mut medium = fresh(3);
    for id in [1, 3] {
        put(&mut medium, place_at(id), &Record { id, ..RECORD }.encode());
    }
    put(&mut medium, place_at(2), bytes);
    format!("medium\t3\t{}", hex::encode(&medium))
}

/// Pairs as the release before wrote them, and pairs of which the headers alone say that they are: "only
/// version 2 is read".
fn of_version_1() -> Vec<Import> {
    let record = Record { sequence: 77, ..RECORD };
    let logs: [&[Record]; 3] = [&[], &[record], &[record, plain(2, &[])]];
    let mut imports = Vec::new();
    for records in logs {
        let whole = Import::whole(2, STAMP, records);
        imports.push(whole.with(|import| import.pair = version_1::pair(STAMP, records)));
        imports.push(whole.with(|import| import.set_headers(3, &[1])));
        // Records of version 1 behind a header of version 2.
        imports.push(whole.with(|import| {
            import.pair = version_1::pair(STAMP, records);
            import.set_headers(3, &[2])
        }));
    }
    imports
}

/// A sequence beyond 64 bits, other fields beyond 32, places of the old length and a byte off.
fn malformed() -> Vec<String> {
    let place = hex::encode(&RECORD.encode());
    let mut lines = vec![
        "record\t1\t258\t0\t5\t18446744073709551616\t9\t41".to_string(),
        "record\t1\t258\t0\t4294967296\t77\t9\t41".to_string(),
        "record\t1\t258\t0\t5\t77\t4294967296\t41".to_string(),
        format!("record\t1\t258\t0\t5\t77\t9\t{}", "41".repeat(29)),
    ];
    lines.extend([128, 142, 143].map(|digits| format!("place\t1\t{}", &place[..digits])));
    lines.push(format!("place\t1\t{place}00"));
    lines
}
