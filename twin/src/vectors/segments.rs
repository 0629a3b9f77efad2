//! Vectors of segment files: logs written as pairs, and imports of pairs whole and spoilt.

use crate::hex;
use crate::medium::{
    medium_bytes, place_at, put, Record, Slot, DATA_LIMIT, PLACE_BYTES, SLOTS_BYTES,
};
use crate::random::Random;
use crate::segment::{Pair, Stamp, HEADER_BYTES};
use crate::tries::exports::draw_stamp;
use crate::tries::import_rows::rows;
use crate::tries::imports::{Import, RECORD, STAMP};
use crate::tries::records::{draw_record, TOPS};

/// Every line.
pub fn lines(random: &mut Random) -> Vec<String> {
    let groups = [
        pairs(random),
        whole_imports(random),
        rows().iter().map(|row| import_line(&row.import)).collect(),
        wiped(),
        changed_headers(),
        changed_records(),
        lengths(),
        malformed(),
    ];
    groups.into_iter().flatten().collect()
}

pub fn pair_line(stamp: Stamp, medium: &[u8]) -> String {
    let places = (medium.len() - SLOTS_BYTES) / PLACE_BYTES;
    let Stamp { time, key } = stamp;
    format!("pair\t{time}\t{}\t{places}\t{}", hex::encode(&key), hex::encode(medium))
}

pub fn import_line(import: &Import) -> String {
    let Import { places, medium, stamp, pair: Pair { data, index } } = import;
    let [key, medium, data, index] = [&stamp.key[..], medium, data, index].map(hex::encode);
    format!("import\t{places}\t{}\t{key}\t{medium}\t{data}\t{index}", stamp.time)
}

/// A record with any fields and so much data.
fn place(random: &mut Random, id: u64, length: usize) -> [u8; PLACE_BYTES] {
    let data = &random.bytes(length);
    draw_record(random, id, data).encode()
}

/// A medium of so many places with records of these lengths of data from place 1 on.
fn medium(random: &mut Random, places: usize, lengths: &[usize]) -> Vec<u8> {
    let mut medium = vec![0; medium_bytes(places)];
    put(&mut medium, 0, &Slot { promise: 3, low: 1, local: 2 }.encode());
    for (id, &length) in (1..).zip(lengths) {
        put(&mut medium, place_at(id), &place(random, id, length));
    }
    medium
}

/// Empty logs, full ones, data of every length, bytes and records behind the log, slots of any bytes.
fn pairs(random: &mut Random) -> Vec<String> {
    let logs: [(usize, &[usize]); 12] = [
        (1, &[]),
        (5, &[]),
        (1, &[0]),
        (1, &[1]),
        (2, &[28]),
        (2, &[0, 28]),
        (3, &[28, 1, 0]),
        (4, &[1, 27, 5]),
        (9, &[2, 3, 4, 6, 7, 8, 9, 10, 11]),
        (14, &[12, 13, 14, 15, 16, 17, 18, 19, 20, 21, 22, 23, 24, 25]),
        (4, &[26, 0, 28]),
        (14, &[DATA_LIMIT; 14]),
    ];
    let mut lines = Vec::new();
    for (places, log) in logs {
        let medium = medium(random, places, log);
        lines.push(pair_line(draw_stamp(random), &medium));
    }
    lines.push(pair_line(STAMP, &with_record(RECORD)));
    lines.push(pair_line(Stamp { time: u64::MAX, key: [0xFF; 16] }, &with_record(TOPS)));
    lines.extend(short_logs(random));
    lines
}

/// Records behind the end of the log are not written.
fn short_logs(random: &mut Random) -> Vec<String> {
    let log = medium(random, 4, &[3, 2, 1, 0]);
    let changed = |at: usize| {
        let mut log = log.clone();
        log[at] ^= 0x10;
        pair_line(STAMP, &log)
    };
    let places = [1, 2, 3, 4].map(|number| changed(place_at(number) + 40));
    let slots = [changed(0), changed(SLOTS_BYTES - 1)];
    places.into_iter().chain(slots).collect()
}

/// A medium of one place, which holds the record.
fn with_record(record: Record) -> Vec<u8> {
    let mut medium = vec![0; medium_bytes(1)];
    put(&mut medium, place_at(1), &record.encode());
    medium
}

/// Pairs of up to four records, into media with and without places to spare; and no bytes at all.
fn whole_imports(random: &mut Random) -> Vec<String> {
    let logs: [(u64, &[usize]); 7] = [
        (1, &[]),
        (1, &[0]),
        (1, &[28]),
        (2, &[1]),
        (2, &[28, 0]),
        (3, &[0, 1, 28]),
        (4, &[28, 28, 28, 28]),
    ];
    let mut lines = Vec::new();
    for (places, lengths) in logs {
        let data: Vec<Vec<u8>> = lengths.iter().map(|&length| random.bytes(length)).collect();
        let records: Vec<Record> =
            (1..).zip(&data).map(|(id, data)| draw_record(random, id, data)).collect();
        let mut import = Import::whole(places, draw_stamp(random), &records);
        let slots = random.bytes(SLOTS_BYTES);
        put(&mut import.medium, 0, &slots);
        lines.push(import_line(&import));
    }
    let (medium, pair) = (Vec::new(), Pair::filled([0, 0], 0));
    lines.push(import_line(&Import { places: 1, medium, stamp: STAMP, pair }));
    lines
}

/// A record alone, in a medium that has room for no more.
fn single(data: &[u8]) -> Import {
    Import::whole(1, Stamp { time: 7, key: STAMP.key }, &[Record { data, ..RECORD }])
}

/// Two bare headers, and a medium of one place.
fn bare() -> Import {
    Import::whole(1, Stamp { time: 7, key: STAMP.key }, &[])
}

/// The first and the last byte of a place that has a record and of one behind the records, and some
/// between.
fn wiped() -> Vec<String> {
    let spread = Import::whole(2, STAMP, &[RECORD]);
    let edges = [1, 2].map(place_at).into_iter().flat_map(|at| [at, at + PLACE_BYTES - 1]);
    let edges = edges.map(|at| import_line(&spread.with(|import| import.medium[at] = 0x80)));
    let bytes = (0..PLACE_BYTES).map(|at| {
        import_line(&bare().with(|import| import.medium[place_at(1) + at] = 1 << (at % 8)))
    });
    edges.chain(bytes.skip(7).step_by(19)).collect()
}

/// One bit of each byte of either header.
fn changed_headers() -> Vec<String> {
    let data = |at: usize| bare().with(|import| import.pair.data[at] ^= 1 << (at % 8));
    let index = |at: usize| bare().with(|import| import.pair.index[at] ^= 1 << (at % 8));
    (0..HEADER_BYTES).flat_map(|at| [data(at), index(at)]).map(|it| import_line(&it)).collect()
}

/// One bit of each byte of a record and of its offset.
fn changed_records() -> Vec<String> {
    let whole = single(&[0x41]);
    let data = (HEADER_BYTES..whole.pair.data.len())
        .map(|at| whole.with(|import| import.pair.data[at] ^= 1 << (at % 8)));
    let index = (HEADER_BYTES..whole.pair.index.len())
        .map(|at| whole.with(|import| import.pair.index[at] ^= 1 << (at % 8)));
    data.chain(index).map(|import| import_line(&import)).collect()
}

/// Each length of either file, from none to one byte more than the whole. An index that is no header is
/// seen before the data are, so that there the line has none; and data that are none before the offsets.
fn lengths() -> Vec<String> {
    let whole = single(&[]);
    let data = (HEADER_BYTES..=whole.pair.data.len() + 1)
        .map(|length| whole.with(|import| import.pair.data.resize(length, 0)));
    let index = (HEADER_BYTES..=whole.pair.index.len() + 1)
        .map(|length| whole.with(|import| import.pair.index.resize(length, 0)));
    let short_data =
        (0..HEADER_BYTES).map(|length| bare().with(|import| import.pair.data.truncate(length)));
    let short_index = (0..HEADER_BYTES).map(|length| {
        bare().with(|import| {
            import.pair.index.truncate(length);
            import.pair.data.clear()
        })
    });
    let all = data.chain(index).chain(short_data).chain(short_index);
    all.map(|import| import_line(&import)).collect()
}

/// Lines that fit no form.
fn malformed() -> Vec<String> {
    let pair = pair_line(STAMP, &with_record(RECORD));
    let key = hex::encode(&STAMP.key);
    let medium = hex::encode(&with_record(RECORD));
    vec![
        "pair".to_string(),
        "import".to_string(),
        format!("{pair}\t"),
        format!("{pair}0"),
        pair.replace(&key, &key[..30]),
        pair.replace(&key, ""),
        format!("pair\t18446744073709551616\t{key}\t1\t{medium}"),
        format!("pair\t7\t{key}\t2\t{medium}"),
        format!("pair\t7\t{key}\t1\t{}", &medium[2..]),
        format!("pair\t7\t{key}\t15\t{}", "00".repeat(medium_bytes(1))),
        format!("import\t18446744073709551616\t7\t{key}\t\t\t"),
        format!("import\t1\t\t{key}\t\t\t"),
        format!("import\t1\t7\t{}\t\t\t", &key[..31]),
        format!("import\t1\t7\t{key}00\t\t\t"),
        format!("import\t1\t7\t{}\t\t\t", key.replace('0', "G")),
        format!("import\t1\t7\t{key}\t\t"),
        format!("import\t1\t7\t{key}\t0\t\t"),
        format!("import\t1\t7\t{key}\t\t0\t"),
        format!("import\t1\t7\t{key}\t\t\t0"),
        format!("import\t1\t7\t{key}\t\t\t\t"),
    ]
}
