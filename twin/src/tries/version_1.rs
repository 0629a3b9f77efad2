//! Pairs as the releases before document 02, No. 7 wrote them: version 1, with a sequence of 32 bits. They
//! are not read any more.

use crate::crc::crc32;
use crate::medium::Record;
use crate::segment::{Pair, Stamp, HEADER_BYTES};

/// The pair of these records, whose IDs are 1 and on and whose sequences fit.
pub fn pair(stamp: Stamp, records: &[Record]) -> Pair {
    let header = header(stamp);
    let mut pair = Pair { data: header.clone(), index: header };
    for record in records {
        pair.index.extend((pair.data.len() as u64).to_be_bytes());
        pair.data.extend(record_bytes(record));
    }
    pair
}

/// Version (4), time (8), key (16), partition (4), first ID (8), zeros.
fn header(stamp: Stamp) -> Vec<u8> {
    let [version, partition] = [1u32, 0].map(u32::to_be_bytes);
    let [time, first] = [stamp.time, 1].map(u64::to_be_bytes);
    let mut header = [&version[..], &time, &stamp.key, &partition, &first].concat();
    header.resize(HEADER_BYTES, 0);
    header
}

/// 40 bytes and the data.
fn record_bytes(record: &Record) -> Vec<u8> {
    let Record { id, client, generation, partition, sequence, header, data } = *record;
    let sequence = u32::try_from(sequence).expect("a sequence of 32 bits");
    let words = [client, generation, partition, sequence, header, data.len() as u32, crc32(data)];
    let mut bytes = id.to_be_bytes().to_vec();
    bytes.extend(words.iter().flat_map(|word| word.to_be_bytes()));
    bytes.extend(data);
    bytes.extend(crc32(&bytes).to_be_bytes());
    bytes
}
