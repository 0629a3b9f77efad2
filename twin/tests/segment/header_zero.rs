//! Header 0 (document 02, No. 8): "Stored ones stay readable, are copied in recovery and exported."

use twin::medium::{medium_bytes, place_at, put, Record};
use twin::segment::{import, written, FRAME_BYTES, HEADER_BYTES, LENGTH_AT};
use twin::tries::imports::{RECORD, STAMP};

/// Every choice of 0 and 9 for four records: each is in the pair with its header, and comes back from it.
#[test]
fn records_with_header_0_are_written_and_imported() {
    for choice in 0..16 {
        let header = |id: u64| if choice >> (id - 1) & 1 == 0 { 0 } else { 9 };
        let records = [1, 2, 3, 4].map(|id| Record { id, header: header(id), ..RECORD });
        let mut log = vec![0; medium_bytes(4)];
        records.iter().for_each(|it| put(&mut log, place_at(it.id), &it.encode()));
        let pair = written(&log, 4, STAMP);
        for (index, record) in records.iter().enumerate() {
            let at = HEADER_BYTES + index * (FRAME_BYTES + RECORD.data.len());
            // The header's four bytes stand before the length.
            let header = &pair.data[at + LENGTH_AT - 4..at + LENGTH_AT];
            assert_eq!(header, record.header.to_be_bytes());
        }
        let mut medium = vec![0; medium_bytes(4)];
        assert_eq!(import(4, &mut medium, STAMP, &pair.data, &pair.index), Ok(()));
        assert!(medium == log);
    }
}
