//! What the calls work on: register, server records, media and lock tables.

use crate::locks::TABLE_MARKS;
use crate::medium::{self, PlaceBytes, MOST_PLACES, WIPED};
use crate::replica::Closing;
use crate::votes::{quorum, MOST_REPLICAS};

pub const SERVERS: usize = 4;

/// How many records a server holds: "the last eight records that its session issued" (document 02,
/// No. 5).
pub const HELD: usize = 8;

/// R, N and K, which each call gets.
#[derive(Clone, Copy, Debug, PartialEq, Eq)]
pub struct Shape {
    pub replicas: u64,
    pub places: u64,
    /// The checkpoint interval of document 02, No. 1: how many records a session may issue.
    pub interval: u64,
}

impl Shape {
    /// With K = N: one session may fill the log.
    pub fn whole(replicas: u64, places: u64) -> Shape {
        Shape { replicas, places, interval: places }
    }

    pub fn is_allowed(&self) -> bool {
        matches!(self.replicas, 1 | 3 | 5 | 7)
            && (1..=MOST_PLACES).contains(&self.places)
            && (1..=self.places).contains(&self.interval)
    }

    /// Bytes of one replica's medium.
    pub(super) fn medium_bytes(&self) -> usize {
        medium::medium_bytes(self.places as usize)
    }
}

/// What the register holds of one replica.
#[derive(Clone, Copy, Debug, Default, PartialEq, Eq)]
pub struct Entry {
    pub session: u64,
    pub closing: Closing,
}

#[derive(Clone, Copy, Debug, Default, PartialEq, Eq)]
pub struct Register {
    pub session: u64,
    pub generation: u32,
    pub entries: [Entry; MOST_REPLICAS],
}

#[derive(Clone, Copy, Debug, Default, PartialEq, Eq)]
pub enum Phase {
    #[default]
    Idle,
    Opening,
    Open,
}

/// What a replica is to a server.
#[derive(Clone, Copy, Debug, Default, PartialEq, Eq)]
pub enum Standing {
    /// Not known while opening, no member once open.
    #[default]
    Out,
    /// Known while opening, a member once open.
    In,
    /// A member that was silent and is not used again in this session.
    Dropped,
}

/// A server's record; an idle server's is all zeros.
#[derive(Clone, Copy, Debug, PartialEq, Eq)]
pub struct Server {
    pub phase: Phase,
    pub session: u64,
    pub generation: u32,
    /// The register's entries as take handed them over.
    pub entries: [Entry; MOST_REPLICAS],
    pub standings: [Standing; MOST_REPLICAS],
    /// The recorded mark of each replica.
    pub marks: [u64; MOST_REPLICAS],
    pub starting: u64,
    pub issued: u64,
    pub acknowledged: u64,
    /// The last records that its session issued, "in order": the oldest first, the newest always last.
    /// So the record of ID n lies at index 7 − (issued − n).
    pub held: [PlaceBytes; HELD],
}

impl Server {
    /// Whether take handed the replica's entry over as restored.
    pub fn is_restored(&self, replica: usize) -> bool {
        self.entries[replica].closing == Closing::Restored
    }

    /// The recorded mark of a replica that is known, or a member that was never silent.
    pub fn known_mark(&self, replica: usize) -> Option<u64> {
        (self.standings[replica] == Standing::In).then_some(self.marks[replica])
    }

    /// The same, unless the replica is restored: it "counts as absent in the vote".
    pub fn vote(&self, replica: usize) -> Option<u64> {
        self.known_mark(replica).filter(|_| !self.is_restored(replica))
    }

    /// The record of this ID, if it is held: "Held are the IDs above the starting mark and above
    /// issued − 8, up to issued."
    pub fn held_record(&self, id: u64) -> Option<&PlaceBytes> {
        let behind = self.issued.checked_sub(id)?;
        let is_held = id > self.starting && behind < HELD as u64;
        is_held.then(|| &self.held[HELD - 1 - behind as usize])
    }

    /// Holds the record as the newest; the oldest is dropped.
    pub(super) fn hold(&mut self, record: PlaceBytes) {
        self.held.copy_within(1.., 0);
        self.held[HELD - 1] = record;
    }

    /// How many of the issued records are not acknowledged yet; none if more is acknowledged than
    /// issued, as may be handed in.
    pub fn unacknowledged(&self) -> u64 {
        self.issued.saturating_sub(self.acknowledged)
    }
}

impl Default for Server {
    fn default() -> Server {
        Server {
            phase: Phase::Idle,
            session: 0,
            generation: 0,
            entries: Default::default(),
            standings: Default::default(),
            marks: [0; MOST_REPLICAS],
            starting: 0,
            issued: 0,
            acknowledged: 0,
            held: [WIPED; HELD],
        }
    }
}

#[derive(Clone, Copy, Debug, Default, PartialEq, Eq)]
pub struct Records {
    pub register: Register,
    pub servers: [Server; SERVERS],
}

/// All that a call gets. Any values and lengths may be handed in; the calls decline what does not
/// fit.
#[derive(Clone, Debug, PartialEq, Eq)]
pub struct Cluster {
    pub shape: Shape,
    pub records: Records,
    /// The media one after another.
    pub media: Vec<u8>,
    /// The servers' lock tables one after another.
    pub locks: Vec<u64>,
}

impl Cluster {
    /// A fresh cluster, if the shape is allowed.
    pub fn fresh(shape: Shape) -> Option<Cluster> {
        shape.is_allowed().then(|| Cluster {
            shape,
            records: Records::default(),
            media: medium::fresh(shape.places as usize).repeat(shape.replicas as usize),
            locks: vec![0; SERVERS * TABLE_MARKS],
        })
    }

    pub(super) fn replicas(&self) -> usize {
        self.shape.replicas as usize
    }

    pub(super) fn quorum(&self) -> usize {
        quorum(self.replicas())
    }

    /// One replica's medium.
    pub fn medium(&self, replica: usize) -> &[u8] {
        let bytes = self.shape.medium_bytes();
        &self.media[replica * bytes..][..bytes]
    }

    pub fn medium_mut(&mut self, replica: usize) -> &mut [u8] {
        let bytes = self.shape.medium_bytes();
        &mut self.media[replica * bytes..][..bytes]
    }

    /// One server's lock table.
    pub fn table(&self, server: usize) -> &[u64] {
        &self.locks[server * TABLE_MARKS..][..TABLE_MARKS]
    }

    pub fn table_mut(&mut self, server: usize) -> &mut [u64] {
        &mut self.locks[server * TABLE_MARKS..][..TABLE_MARKS]
    }
}
