//! Exports, mostly with files of the exact lengths.

use crate::cluster::{Call, Cluster, Message, SERVERS};
use crate::medium;
use crate::random::Random;
use crate::segment::{self, Pair, Stamp, HEADER_BYTES};

use super::scene::UNWRITTEN;

/// An export with any time and key. One in some has a file that is a byte or more too short or too
/// long.
pub fn draw_export(
    random: &mut Random,
    cluster: &Cluster,
    server: u64,
    replica: u64,
    message: Message,
) -> Call {
    let exact = exact_lengths(cluster, server, replica);
    let lengths = if random.chance(4) { other_lengths(random, exact) } else { exact };
    let files = Pair::filled(lengths, UNWRITTEN);
    Call::Export { server, replica, stamp: draw_stamp(random), files, message }
}

/// The lengths of the files that the server's export of the replica asks for; those of an empty log
/// where the cluster, the server or the replica is none, or holds less than the server has recorded.
pub fn exact_lengths(cluster: &Cluster, server: u64, replica: u64) -> [usize; 2] {
    let empty = [HEADER_BYTES; 2];
    let shape = cluster.shape;
    let fits = shape.is_allowed() && cluster.has_exact_lengths();
    if !fits || server >= SERVERS as u64 || replica >= shape.replicas {
        return empty;
    }
    let record = &cluster.records.servers[server as usize];
    let mark = record.marks[replica as usize].min(record.acknowledged);
    let medium = cluster.medium(replica as usize);
    if medium::mark(medium) < mark {
        return empty;
    }
    segment::lengths(medium, mark)
}

/// Not the exact ones. No file is longer by more than a byte.
fn other_lengths(random: &mut Random, [data, index]: [usize; 2]) -> [usize; 2] {
    let others = [
        [data - 1, index],
        [data + 1, index],
        [data, index - 1],
        [data, index + 1],
        [data, index - 8],
        [0, index],
        [data, 0],
        [0, 0],
        [HEADER_BYTES - 1, HEADER_BYTES],
    ];
    *random.pick(&others)
}

pub fn draw_stamp(random: &mut Random) -> Stamp {
    let any = random.number();
    let time = *random.pick(&[0, 1, 1_700_000_000_000, any, u64::MAX]);
    Stamp { time, key: random.bytes(16).try_into().expect("16 bytes") }
}
