//! A record of the data file: "ID, request, header, length, data check, data, record check". 004's
//! table has a check more, "which we drop".

use crate::crc::crc32;
use crate::medium::{be32, be64, put, Record, DATA_LIMIT};

/// ID (8), client, generation, partition (4 each), sequence (8), header, length, data check (4 each),
/// data, record check (4). A place's zeros are not in the files.
const ID_AT: usize = 0;
const CLIENT_AT: usize = 8;
const GENERATION_AT: usize = 12;
const PARTITION_AT: usize = 16;
const SEQUENCE_AT: usize = 20;
const HEADER_AT: usize = 28;
pub const LENGTH_AT: usize = 32;
const DATA_CHECK_AT: usize = 36;
const DATA_AT: usize = 40;
const CHECK_BYTES: usize = 4;

/// What a record has beside its data.
pub const FRAME_BYTES: usize = DATA_AT + CHECK_BYTES;

/// Writes a record into a file; where it ends.
pub fn put_record(file: &mut [u8], at: usize, record: &Record) -> usize {
    let check_at = at + DATA_AT + record.data.len();
    let bytes = &mut file[at..check_at + CHECK_BYTES];
    put(bytes, ID_AT, &record.id.to_be_bytes());
    put(bytes, CLIENT_AT, &record.client.to_be_bytes());
    put(bytes, GENERATION_AT, &record.generation.to_be_bytes());
    put(bytes, PARTITION_AT, &record.partition.to_be_bytes());
    put(bytes, SEQUENCE_AT, &record.sequence.to_be_bytes());
    put(bytes, HEADER_AT, &record.header.to_be_bytes());
    put(bytes, LENGTH_AT, &(record.data.len() as u32).to_be_bytes());
    put(bytes, DATA_CHECK_AT, &crc32(record.data).to_be_bytes());
    put(bytes, DATA_AT, record.data);
    let check = crc32(&file[at..check_at]);
    put(file, check_at, &check.to_be_bytes());
    check_at + CHECK_BYTES
}

/// The size of the record that begins at `at`, if its length field lies wholly in the file and is not
/// above the limit. Its data may run past the end.
pub fn size_at(file: &[u8], at: usize) -> Option<usize> {
    let field = file.get(at + LENGTH_AT..at + LENGTH_AT + 4)?;
    let length = be32(field, 0) as usize;
    (length <= DATA_LIMIT).then_some(FRAME_BYTES + length)
}

/// The record that begins at `at`, and where it ends; `None` if it is "cut short, misnumbered, too long
/// or failing a check". No other field is looked at.
pub fn record_at(file: &[u8], at: usize, number: u64) -> Option<(Record<'_>, usize)> {
    let end = at + size_at(file, at)?;
    let bytes = file.get(at..end)?;
    let (checked, check) = bytes.split_at(bytes.len() - CHECK_BYTES);
    let data = &checked[DATA_AT..];
    let fits = be64(checked, ID_AT) == number
        && be32(checked, DATA_CHECK_AT) == crc32(data)
        && be32(check, 0) == crc32(checked);
    let record = Record {
        id: number,
        client: be32(checked, CLIENT_AT),
        generation: be32(checked, GENERATION_AT),
        partition: be32(checked, PARTITION_AT),
        sequence: be64(checked, SEQUENCE_AT),
        header: be32(checked, HEADER_AT),
        data,
    };
    fits.then_some((record, end))
}
