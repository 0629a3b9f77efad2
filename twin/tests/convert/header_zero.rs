//! Header 0 (document 02, No. 8): the releases whose media are converted took it, and "every record of the log"
//! is kept, whatever header it has.

use twin::convert::converted;
use twin::medium::{mark, place, Record};
use twin::old;
use twin::random::Random;
use twin::tries::old_media::{draw_old_record, example, FIRST};

/// An old medium whose records have these headers, and each record.
fn medium<'a>(random: &mut Random, headers: &[u32]) -> (Vec<u8>, Vec<Record<'a>>) {
    let mut medium = example()[..64].to_vec();
    let mut records = Vec::new();
    for (id, &header) in (1..).zip(headers) {
        let record = Record { header, ..draw_old_record(random, id, FIRST.data) };
        medium.extend(old::encode(&record));
        records.push(record);
    }
    (medium, records)
}

/// Every choice of 0 and 9 for five records: all are there, with the same header.
#[test]
fn records_with_header_0_are_kept() {
    let mut random = Random::new(8);
    for choice in 0..32 {
        let headers = [0, 1, 2, 3, 4].map(|bit| if choice >> bit & 1 == 0 { 0 } else { 9 });
        let (old, records) = medium(&mut random, &headers);
        let new = converted(&old).expect("a valid slot");
        assert_eq!(mark(&new), 5);
        for record in records {
            assert_eq!(Record::decode(record.id, &place(&new, record.id)), Some(record));
        }
    }
}
