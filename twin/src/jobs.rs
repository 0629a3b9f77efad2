//! The benchmark's jobs, as the proved program crates/bench does them: a line names a job and how
//! often it is done, and the answer is one number that depends on every turn. A job changes a byte
//! that its result does not depend on, or undoes what the turn before did, so that no turn can be
//! saved.

pub mod scan;
mod stage;

use crate::cluster::{Answer, Call, Closing, Cluster, Entry, HELD};
use crate::convert;
use crate::crc::crc32;
use crate::fate::Fate;
use crate::medium::{self, Record, PLACE_BYTES, SLOTS_BYTES};
use crate::old;
use crate::segment::{self, Pair, Stamp};
use scan::mark_by_products;
use stage::{filled, make, message, prepare_all};

/// The bytes whose CRC is taken.
const CRC_BYTES: usize = 65536;

/// The answers to lines of jobs.
pub fn output(input: &str) -> String {
    input.lines().map(|line| answer(line).unwrap_or("bad".to_string()) + "\n").collect()
}

fn answer(line: &str) -> Option<String> {
    let (name, count) = line.split_once('\t')?;
    let job = match name {
        "crc" => crc,
        "marks" => |count| marks(count, medium::mark),
        "products" => |count| marks(count, mark_by_products),
        "send" => send,
        "prepare" => prepare,
        "open" => open,
        "export" => export,
        "import" => import,
        "convert" => convert,
        "issue" => issue,
        _ => return None,
    };
    Some(job(count.parse().ok()?).to_string())
}

/// The CRC of 64 KB.
fn crc(count: u64) -> u64 {
    let mut cluster = stage::fresh();
    let bytes = &mut cluster.media[..CRC_BYTES];
    total(count, |left| {
        bytes[0] = left as u8;
        u64::from(crc32(bytes))
    })
}

/// The marks of seven full media, each found by this scan, which is a function of its own: built into
/// the job, one scan could be compiled better than another.
fn marks(count: u64, mark: fn(&[u8]) -> u64) -> u64 {
    let mut cluster = filled(1000);
    total(count, |left| {
        cluster.media[0] = left as u8;
        (0..7).map(|replica| mark(cluster.medium(replica))).sum()
    })
}

/// One send of record 1,000 to a replica that holds 999.
fn send(count: u64) -> u64 {
    let mut cluster = filled(999);
    stage::issue(&mut cluster);
    let ready = cluster.records;
    total(count, |_| {
        let last = medium::place_at(1000);
        cluster.medium_mut(0)[last..].fill(0);
        cluster.records = ready;
        make(&mut cluster, Call::Send { server: 0, replica: 0, message: message() })
    })
}

/// One prepare that cuts a full log of 1,000 to 500; the full medium is put back before each, which
/// counts, and so does the lowest byte of the ID in its last place.
fn prepare(count: u64) -> u64 {
    let mut cluster = filled(1000);
    let full = cluster.medium(0).to_vec();
    make(&mut cluster, Call::Take { server: 1, fate: Fate::Answered });
    cluster.records.servers[1].entries[0] = Entry { session: 1, closing: Closing::Mark(500) };
    let ready = cluster.records;
    total(count, |_| {
        cluster.medium_mut(0).copy_from_slice(&full);
        cluster.records = ready;
        let last = u64::from(cluster.medium(0)[medium::place_at(1000) + 7]);
        last + make(&mut cluster, Call::Prepare { server: 1, replica: 0, message: message() })
    })
}

/// One open over seven replicas that all hold 1,000.
fn open(count: u64) -> u64 {
    let mut cluster: Cluster = filled(1000);
    prepare_all(&mut cluster, 1);
    let ready = cluster.records;
    total(count, |_| {
        cluster.records = ready;
        make(&mut cluster, Call::Open { server: 1, fate: Fate::Answered })
    })
}

/// One export of a member that holds 1,000 places. The time handed in is the number of turns left; what
/// counts is its lowest byte in the data file and the last byte of the index file.
fn export(count: u64) -> u64 {
    let mut cluster = filled(1000);
    let mut files = Pair::filled(segment::lengths(cluster.medium(0), 1000), 0);
    total(count, |left| {
        let stamp = Stamp { time: left, ..Stamp::default() };
        let reply = cluster.export(0, 0, stamp, &mut files, &message());
        assert_eq!(reply, Ok(Answer::Nothing));
        u64::from(files.data[11]) + u64::from(files.index[files.index.len() - 1])
    })
}

/// One import of that pair into a wiped medium. What counts is the lowest byte of the ID in place 1,000;
/// the places are wiped after each, which counts too.
fn import(count: u64) -> u64 {
    let stamp = Stamp::default();
    let pair = segment::written(filled(1000).medium(0), 1000, stamp);
    let mut medium = vec![0; medium::medium_bytes(1000)];
    total(count, |left| {
        medium[0] = left as u8;
        let reply = segment::import(1000, &mut medium, stamp, &pair.data, &pair.index);
        assert_eq!(reply, Ok(()));
        let byte = medium[medium::place_at(1000) + 7];
        medium[SLOTS_BYTES..].fill(0);
        u64::from(byte)
    })
}

/// One conversion of an old medium of 1,000 places. Its first byte becomes the number of turns left; the
/// other slot stays valid and current. What counts is the first byte of the new medium and the lowest byte
/// of the ID in place 1,000.
fn convert(count: u64) -> u64 {
    let mut old = old_medium(filled(1000).medium(0));
    let mut new = vec![0; medium::medium_bytes(1000)];
    total(count, |left| {
        old[0] = left as u8;
        let reply = convert::convert(&old, &mut new);
        assert_eq!(reply, Ok(()));
        u64::from(new[0]) + u64::from(new[medium::place_at(1000) + 7])
    })
}

/// A full medium as the old layout had it.
fn old_medium(full: &[u8]) -> Vec<u8> {
    let mut medium = full[..SLOTS_BYTES].to_vec();
    medium::places(full).for_each(|place| medium.extend(old::encode(&Record::of_valid(place))));
    medium
}

/// One issue of 28 bytes without locks, behind 500 records that are all acknowledged. What counts is the
/// ID and the last byte of the newest record held.
fn issue(count: u64) -> u64 {
    let mut cluster = filled(500);
    let ready = cluster.records;
    total(count, |_| {
        cluster.records = ready;
        let id = stage::issue(&mut cluster);
        id + u64::from(cluster.records.servers[0].held[HELD - 1][PLACE_BYTES - 1])
    })
}

/// The sum over the turns; each is told how many are left.
fn total(count: u64, mut turn: impl FnMut(u64) -> u64) -> u64 {
    (1..=count).rev().fold(0, |sum, left| sum.wrapping_add(turn(left)))
}
