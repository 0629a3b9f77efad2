//! What import answers: pairs and media that fit, and those that do not, in one way or two.

use super::imports::{example, Import, SECOND_AT, STAMP};
use super::records::TOPS;
use crate::crc::crc32;
use crate::medium::{medium_bytes, put, seal, SLOTS_BYTES};
use crate::segment::{Stamp, FRAME_BYTES, HEADER_BYTES, LENGTH_AT};

/// An import, what is the matter with it, and the number that it gives, if any.
pub struct Row {
    pub name: &'static str,
    pub import: Import,
    pub number: Option<u64>,
}

/// Every reason once and more, those that two reasons speak of among them.
pub fn rows() -> Vec<Row> {
    [fitting(), lengths(), starts(), offsets(), records()].into_iter().flatten().collect()
}

fn row(name: &'static str, number: u64, change: impl FnOnce(&mut Import)) -> Row {
    Row { name, import: example().with(change), number: Some(number) }
}

fn fitting() -> Vec<Row> {
    let fits = |name: &'static str, import: Import| Row { name, import, number: None };
    let whole = example();
    let slots = whole.with(|import| import.medium[..SLOTS_BYTES].fill(0xAA));
    vec![
        fits("whole", whole),
        fits("whole, slots all AA", slots),
        fits("two bare headers", Import::whole(2, STAMP, &[])),
        fits("fields at their tops", Import::whole(1, STAMP, &[TOPS])),
        fits("time 0 and key 0", Import::whole(1, Stamp::default(), &[])),
    ]
}

fn lengths() -> Vec<Row> {
    vec![
        row("medium a byte short", 1, |import| import.medium.truncate(medium_bytes(2) - 1)),
        row("medium a byte long", 1, |import| import.medium.push(0)),
        row("no medium", 1, |import| import.medium.clear()),
        row("index of 135 bytes", 1, |import| import.pair.index.truncate(135)),
        row("index of 120 bytes", 1, |import| import.pair.index.truncate(120)),
        other_places("N = 0", 0, medium_bytes(1)),
        other_places("N = 0, medium of two slots", 0, SLOTS_BYTES),
        other_places("N = 1,000", 1000, medium_bytes(1)),
        other_places("N = 1,001", 1001, medium_bytes(1)),
        other_places("N = 2^61, medium of two slots", 1 << 61, SLOTS_BYTES),
        other_places("N at its top, no medium", u64::MAX, 0),
    ]
}

/// Two bare headers, and an N that does not go with the medium, or would if 64 + 72 × N wrapped.
fn other_places(name: &'static str, places: u64, length: usize) -> Row {
    let (medium, stamp) = (vec![0; length], STAMP);
    let pair = Import::whole(1, STAMP, &[]).pair;
    Row { name, import: Import { places, medium, stamp, pair }, number: Some(1) }
}

fn starts() -> Vec<Row> {
    vec![
        row("N = 1 and two offsets", 24, |import| {
            import.places = 1;
            import.medium.truncate(medium_bytes(1))
        }),
        row("data of 127 bytes", 24, |import| import.pair.data.truncate(127)),
        row("other time", 24, |import| import.stamp.time += 1),
        row("other key", 24, |import| import.stamp.key[15] ^= 1),
        row("version 1 in both headers", 24, |import| import.set_headers(3, &[1])),
        row("version 3 in both headers", 24, |import| import.set_headers(3, &[3])),
        row("partition 5 in both headers", 24, |import| import.set_headers(31, &[5])),
        row("first ID 0 in both headers", 24, |import| import.set_headers(39, &[0])),
        row("last byte of place 2", 24, |import| import.medium[medium_bytes(2) - 1] = 1),
        row("first offset 129, place not wiped", 24, |import| {
            import.set_offset(1, 129);
            import.medium[100] = 1
        }),
    ]
}

fn offsets() -> Vec<Row> {
    let second_7 = |import: &mut Import| import.set_offset(2, 7);
    let length_at = HEADER_BYTES + LENGTH_AT;
    vec![
        row("first offset 129", 25, |import| import.set_offset(1, 129)),
        row("second offset 2^64 - 1", 25, |import| import.set_offset(2, u64::MAX)),
        row("offsets from the first record on", 25, |import| {
            import.set_offset(1, 0);
            import.set_offset(2, (SECOND_AT - HEADER_BYTES) as u64)
        }),
        row("second offset 7, and record 1 spoilt", 25, |import| {
            second_7(import);
            import.set_data(HEADER_BYTES, &[1])
        }),
        row("length field of record 1 is 5, offsets as they were", 25, |import| {
            import.set_data(length_at, &[0, 0, 0, 5])
        }),
        row("data end just behind length field 1, second offset 7", 25, |import| {
            second_7(import);
            import.pair.data.truncate(length_at + 4)
        }),
        row("data end within length field 1, first offset 129", 25, |import| {
            import.set_offset(1, 129);
            import.pair.data.truncate(length_at + 3)
        }),
        row("bare header, first offset 7", 25, |import| {
            import.set_offset(1, 7);
            import.pair.data.truncate(HEADER_BYTES)
        }),
    ]
}

fn records() -> Vec<Row> {
    let second_7 = |import: &mut Import| import.set_offset(2, 7);
    let length_at = HEADER_BYTES + LENGTH_AT;
    let mut rows = vec![
        row("data end within length field 1, second offset 7", 26, |import| {
            second_7(import);
            import.pair.data.truncate(length_at + 3)
        }),
        row("length field of record 1 is 29, second offset 7", 26, |import| {
            second_7(import);
            import.set_data(length_at, &[0, 0, 0, 29])
        }),
        row("length field of record 1 is at its top, second offset 7", 26, |import| {
            second_7(import);
            import.set_data(length_at, &[0xFF; 4])
        }),
        row("a byte less", 26, |import| import.pair.data.truncate(SECOND_AT + FRAME_BYTES - 1)),
        row("a byte more", 26, |import| import.pair.data.push(0)),
        row("record 2 missing", 26, |import| import.pair.data.truncate(SECOND_AT)),
        row("last offset missing", 26, |import| import.pair.index.truncate(136)),
        row("no offsets, header and one byte", 26, |import| {
            import.pair.index.truncate(HEADER_BYTES);
            import.pair.data.truncate(HEADER_BYTES + 1)
        }),
    ];
    rows.extend(wrong_records());
    rows
}

/// Second records that are whole but for one thing.
fn wrong_records() -> Vec<Row> {
    let second = |name: &'static str, change: fn(&mut Vec<u8>)| {
        row(name, 26, |import| {
            let mut record = import.pair.data.split_off(SECOND_AT);
            change(&mut record);
            import.pair.data.extend(record)
        })
    };
    vec![
        second("record 2 numbered 3", |record| renumber(record, 3)),
        second("record 2 numbered 2 and 2^32", |record| renumber(record, 2 + (1 << 32))),
        second("length field of record 2 is 2^31, under a record check that agrees", |record| {
            record[LENGTH_AT] = 0x80;
            seal(record)
        }),
        second("another data check, under a record check that agrees", |record| {
            record[LENGTH_AT + 4] = 1;
            seal(record)
        }),
        second("the data check in place of the record check", |record| {
            let end = record.len() - 4;
            record.copy_within(LENGTH_AT + 4..LENGTH_AT + 8, end)
        }),
        second("29 bytes of data, with checks that agree", |record| {
            record[LENGTH_AT + 3] = 29;
            record.splice(FRAME_BYTES - 4..FRAME_BYTES - 4, [7; 29]);
            let check = crc32(&[7; 29]).to_be_bytes();
            put(record, LENGTH_AT + 4, &check);
            seal(record)
        }),
    ]
}

fn renumber(record: &mut [u8], id: u64) {
    put(record, 0, &id.to_be_bytes());
    seal(record);
}
