//! Lines of single records and places.

use crate::hex;
use crate::medium::Record;

pub fn record_line(record: &Record) -> String {
    let Record { id, client, generation, partition, sequence, header, data } = *record;
    let data = hex::encode(data);
    format!("record\t{id}\t{client}\t{generation}\t{partition}\t{sequence}\t{header}\t{data}")
}

pub fn place_line(number: u64, bytes: &[u8]) -> String {
    format!("place\t{number}\t{}", hex::encode(bytes))
}
