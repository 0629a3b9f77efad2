//! Headers (document 02, No. 8): requests have header 0 now and then, stored records often, since the
//! releases before took it; and what calls do with a record that has it.

use crate::cluster::{Answer, Call, Cluster, Reply, Server, Standing};
use crate::medium::{self, be64, place_at, places, PlaceBytes, Record};
use crate::random::Random;

/// The least and the greatest that is taken, and some of which the lower bits alone are 0.
pub const TAKEN: [u32; 6] = [1, 2, 1 << 8, 1 << 16, 1 << 31, u32::MAX];

/// A request's header: 0 in one of so many, otherwise any other, often an edge.
pub fn draw_header(random: &mut Random, one_in: u64) -> u32 {
    if random.chance(one_in) {
        return 0;
    }
    let (edge, any) = (*random.pick(&TAKEN), random.word().max(1));
    *random.pick(&[edge, any])
}

/// A stored record's header: 0 in one of three.
pub fn draw_stored_header(random: &mut Random) -> u32 {
    draw_header(random, 3)
}

/// The same bytes with another header, if they are a record; its check is made anew.
pub fn with_header(bytes: &PlaceBytes, header: u32) -> PlaceBytes {
    changed(bytes, |_| header)
}

fn changed(bytes: &PlaceBytes, header: impl FnOnce(Record) -> u32) -> PlaceBytes {
    match Record::decode(be64(bytes, 0), bytes) {
        Some(record) => Record { header: header(record), ..record }.encode(),
        None => *bytes,
    }
}

/// The same cluster with other headers in all records, those that its replicas store, in the log or behind
/// it, and those that its servers hold.
pub fn with_headers(cluster: &Cluster, mut header: impl FnMut(Record) -> u32) -> Cluster {
    let mut other = cluster.clone();
    let held = other.records.servers.iter_mut().flat_map(|server| &mut server.held);
    held.for_each(|bytes| *bytes = changed(bytes, &mut header));
    if !cluster.shape.is_allowed() || !cluster.has_exact_lengths() {
        return other;
    }
    for replica in 0..cluster.shape.replicas as usize {
        let medium = &mut other.medium_mut(replica)[place_at(1)..];
        for place in medium.as_chunks_mut().0 {
            *place = changed(place, &mut header);
        }
    }
    other
}

/// What calls do with a record that has header 0, or with a log that has one.
pub const USES: [&str; 8] =
    ["found", "copied", "trimmed", "opened", "sent", "noted", "read", "exported"];

/// Which of these an answered call did; the cluster is as the call found it.
pub fn use_of_zero(cluster: &Cluster, call: &Call, reply: &Reply) -> Option<&'static str> {
    let answer = reply.as_ref().ok().filter(|answer| **answer != Answer::Silent)?;
    let stored = Stored { cluster };
    let (used, name) = match (call, answer) {
        (Call::Prepare { replica, .. }, _) => (stored.above(*replica, 0), "found"),
        (Call::Note { replica, .. }, _) => (stored.above(*replica, 0), "noted"),
        (Call::Trim { replica, .. }, Answer::Number(to)) => {
            (stored.above(*replica, *to), "trimmed")
        }
        (Call::Copy { server, from, to, .. }, _) => (stored.next(*server, *from, *to), "copied"),
        (Call::Open { server, .. }, Answer::Number(to)) => (stored.clean(*server, *to), "opened"),
        (Call::Send { server, replica, .. }, _) => (stored.held(*server, *replica), "sent"),
        (Call::Read { .. }, Answer::Bytes(bytes)) => (is_zero(bytes), "read"),
        (Call::Export { server, replica, .. }, _) => (stored.ended(*server, *replica), "exported"),
        _ => return None,
    };
    used.then_some(name)
}

/// Where a call that is answered finds records: as it is answered, recorded marks are those of the logs.
struct Stored<'a> {
    cluster: &'a Cluster,
}

impl Stored<'_> {
    fn record(&self, server: u64) -> &Server {
        &self.cluster.records.servers[server as usize]
    }

    fn recorded(&self, server: u64, replica: u64) -> u64 {
        self.record(server).marks[replica as usize]
    }

    /// Whether a record of the replica's log above the one mark and up to the other has header 0.
    fn between(&self, replica: u64, above: u64, to: u64) -> bool {
        let log = places(self.cluster.medium(replica as usize)).take(to as usize);
        log.skip(above as usize).any(|place| Record::of_valid(place).header == 0)
    }

    /// In the log above this mark.
    fn above(&self, replica: u64, mark: u64) -> bool {
        self.between(replica, mark, medium::mark(self.cluster.medium(replica as usize)))
    }

    /// Of the one replica, behind the other's mark.
    fn next(&self, server: u64, from: u64, to: u64) -> bool {
        let mark = self.recorded(server, to);
        self.between(from, mark, mark + 1)
    }

    /// Of a known replica at this mark.
    fn clean(&self, server: u64, mark: u64) -> bool {
        let standings = self.record(server).standings;
        let at_mark = |&i: &u64| {
            let log = medium::mark(self.cluster.medium(i as usize));
            standings[i as usize] == Standing::In && log == mark
        };
        let mut clean = (0..self.cluster.shape.replicas).filter(at_mark);
        clean.any(|replica| self.between(replica, 0, mark))
    }

    /// Of what is held, behind the replica's mark.
    fn held(&self, server: u64, replica: u64) -> bool {
        let next = self.recorded(server, replica) + 1;
        self.record(server).held_record(next).is_some_and(|bytes| is_zero(bytes))
    }

    /// Up to where an export ends.
    fn ended(&self, server: u64, replica: u64) -> bool {
        let end = self.recorded(server, replica).min(self.record(server).acknowledged);
        self.between(replica, 0, end)
    }
}

fn is_zero(bytes: &[u8]) -> bool {
    Record::decode(be64(bytes, 0), bytes).is_some_and(|record| record.header == 0)
}
