//! Records with any fields, and requests with any sequence (document 02, No. 7).

use super::headers::draw_stored_header;
use crate::medium::{Record, DATA_LIMIT};
use crate::random::Random;

/// Sequences on both sides of the edge of 32 bits, and at both ends of 64: what a field of the old width
/// would cut off shows.
pub const SEQUENCES: [u64; 8] =
    [0, 1, 77, u32::MAX as u64, 1 << 32, (1 << 32) + 77, 1 << 63, u64::MAX];

/// The first record with all other fields at their tops.
pub const TOPS: Record = Record {
    id: 1,
    client: u32::MAX,
    generation: u32::MAX,
    partition: u32::MAX,
    sequence: u64::MAX,
    header: u32::MAX,
    data: &[0xFF; DATA_LIMIT],
};

/// Often one of the edges, otherwise any of either width.
pub fn draw_sequence(random: &mut Random) -> u64 {
    let (edge, any) = (*random.pick(&SEQUENCES), random.number());
    *random.pick(&[edge, edge, any, any >> 32])
}

/// A record with this ID and this data, and any other fields, header 0 often.
pub fn draw_record<'a>(random: &mut Random, id: u64, data: &'a [u8]) -> Record<'a> {
    let [client, generation, partition] = [(); 3].map(|_| random.word());
    let (sequence, header) = (draw_sequence(random), draw_stored_header(random));
    Record { id, client, generation, partition, sequence, header, data }
}
