//! For each call a state in which it is not declined.

use crate::cluster::{Call, Cluster, Message, Phase, Reply, Request, Shape, Standing, HELD};
use crate::fate::Fate;
use crate::medium::{self, place_at, put, PlaceBytes, Record, Slot, PLACE_BYTES, SLOT_BYTES};
use crate::segment::{Pair, Stamp, FRAME_BYTES, HEADER_BYTES, OFFSET_BYTES};

pub const PLACES: u64 = 13;
pub const SESSION: u64 = 5;
pub const GENERATION: u32 = 2;

/// The client's mark in issue's scenes. Its locks' estimates are the same, the highest that are granted.
pub const CLIENT_MARK: u64 = 3;

/// The server that makes the call, the replica that gets its message, and the one that a copy
/// reads.
pub const SERVER: usize = 1;
pub const REPLICA: usize = 0;
pub const SOURCE: usize = 2;

/// The records that export's scene has to write, and the exact lengths of its files.
pub const EXPORTED: usize = 4;
pub const EXACT: [usize; 2] = exact_of(EXPORTED);

/// The exact lengths for so many of its records.
pub const fn exact_of(records: usize) -> [usize; 2] {
    [HEADER_BYTES + records * (FRAME_BYTES + DATA.len()), HEADER_BYTES + records * OFFSET_BYTES]
}

/// What the files hold before they are written.
pub const UNWRITTEN: u8 = 0xAA;

/// The sequence of every record and of issue's requests: more than 32 bits hold.
const SEQUENCE: u64 = (1 << 32) + 4;

/// The header of the records whose IDs are odd. The others have 0, which issue does not take any more: it is
/// they that the scenes' calls read, write and wipe.
const HEADER: u32 = 5;

/// The data of every record.
const DATA: &[u8] = b"six";

/// The calls, copy once for each phase, and issue once for each kind of client.
#[derive(Clone, Copy, Debug, PartialEq, Eq)]
pub enum Kind {
    Take,
    Prepare,
    OpeningCopy,
    OpenCopy,
    Trim,
    Open,
    GateIssue,
    BookingIssue,
    Send,
    Note,
    Read,
    Export,
    Stop,
    Reassign,
    Restore,
}

/// A state and a call on it.
#[derive(Clone, Debug, PartialEq, Eq)]
pub struct Scene {
    pub kind: Kind,
    pub cluster: Cluster,
    pub call: Call,
}

impl Scene {
    pub fn apply(&mut self) -> Reply {
        self.cluster.apply(&mut self.call)
    }

    pub fn medium(&mut self) -> &mut [u8] {
        self.cluster.medium_mut(REPLICA)
    }

    pub fn source(&mut self) -> &mut [u8] {
        self.cluster.medium_mut(SOURCE)
    }

    pub fn set_server(&mut self, number: u64) {
        match &mut self.call {
            Call::Reassign | Call::Restore { .. } => {}
            Call::Take { server, .. }
            | Call::Prepare { server, .. }
            | Call::Copy { server, .. }
            | Call::Trim { server, .. }
            | Call::Open { server, .. }
            | Call::Issue { server, .. }
            | Call::Send { server, .. }
            | Call::Note { server, .. }
            | Call::Read { server, .. }
            | Call::Export { server, .. }
            | Call::Stop { server } => *server = number,
        }
    }

    pub fn set_replica(&mut self, number: u64) {
        match &mut self.call {
            Call::Copy { to: replica, .. }
            | Call::Prepare { replica, .. }
            | Call::Trim { replica, .. }
            | Call::Send { replica, .. }
            | Call::Note { replica, .. }
            | Call::Read { replica, .. }
            | Call::Export { replica, .. }
            | Call::Restore { replica, .. } => *replica = number,
            _ => {}
        }
    }

    pub fn set_source(&mut self, number: u64) {
        if let Call::Copy { from, .. } = &mut self.call {
            *from = number;
        }
    }

    pub fn set_read_id(&mut self, number: u64) {
        if let Call::Read { id, .. } = &mut self.call {
            *id = number;
        }
    }

    pub fn set_message(&mut self, new: Message) {
        match &mut self.call {
            Call::Take { fate, .. } | Call::Open { fate, .. } => *fate = new.fate,
            Call::Prepare { message, .. }
            | Call::Copy { message, .. }
            | Call::Trim { message, .. }
            | Call::Send { message, .. }
            | Call::Note { message, .. }
            | Call::Read { message, .. }
            | Call::Export { message, .. } => *message = new,
            _ => {}
        }
    }

    /// Lends export's files at these lengths.
    pub fn lend(&mut self, lengths: [usize; 2]) {
        if let Call::Export { files, .. } = &mut self.call {
            *files = Pair::filled(lengths, UNWRITTEN);
        }
    }

    /// The bytes of a restore.
    pub fn backup(&mut self) -> &mut Vec<u8> {
        match &mut self.call {
            Call::Restore { backup, .. } => backup,
            _ => panic!("only restore has a backup"),
        }
    }

    pub fn request(&mut self) -> &mut Request {
        match &mut self.call {
            Call::Issue { request, .. } => request,
            _ => panic!("only issue has a request"),
        }
    }
}

/// Slot 0 with this promise, above that of slot 1.
pub fn set_promise(medium: &mut [u8], promise: u64) {
    put(medium, 0, &Slot { promise, low: 0, local: 0 }.encode());
    put(medium, SLOT_BYTES, &Slot::default().encode());
}

/// A valid record in place `id`.
pub fn set_place(medium: &mut [u8], id: u64) {
    put(medium, place_at(id), &record_bytes(id));
}

/// One mark throughout the lock table of the server that makes the call, and one throughout those of
/// the others, which it must not read.
pub fn set_tables(cluster: &mut Cluster, own: u64, others: u64) {
    cluster.locks.fill(others);
    cluster.table_mut(SERVER).fill(own);
}

pub fn record_bytes(id: u64) -> PlaceBytes {
    let (client, generation, partition) = (1, 2, 3);
    let header = if id.is_multiple_of(2) { 0 } else { HEADER };
    Record { id, client, generation, partition, sequence: SEQUENCE, header, data: DATA }.encode()
}

/// What a server holds that has issued so much: record n is that of place n. Where there is none
/// because nothing is below 1, bytes stand that pass as no place; all eight differ.
pub fn held_up_to(issued: u64) -> [PlaceBytes; HELD] {
    std::array::from_fn(|index| match (issued + 1 + index as u64).saturating_sub(HELD as u64) {
        0 => [0xE0 + index as u8; PLACE_BYTES],
        id => record_bytes(id),
    })
}

/// Replicas with these marks and the promise `SESSION`, all known to the server or its members.
fn cluster(phase: Phase, marks: [u64; 3]) -> Cluster {
    let mut cluster = Cluster::fresh(Shape::whole(3, PLACES)).expect("an allowed shape");
    cluster.records.register.session = SESSION;
    for (replica, mark) in marks.into_iter().enumerate() {
        let medium = cluster.medium_mut(replica);
        set_promise(medium, SESSION);
        (1..=mark).for_each(|id| set_place(medium, id));
        let server = &mut cluster.records.servers[SERVER];
        server.standings[replica] = Standing::In;
        server.marks[replica] = mark;
    }
    let server = &mut cluster.records.servers[SERVER];
    (server.phase, server.session, server.generation) = (phase, SESSION, GENERATION);
    cluster
}

/// An open server with this much issued and acknowledged, which holds the newest record alone.
fn open_cluster(marks: [u64; 3], issued: u64, acknowledged: u64) -> Cluster {
    let mut cluster = cluster(Phase::Open, marks);
    let server = &mut cluster.records.servers[SERVER];
    (server.starting, server.issued, server.acknowledged) = (2, issued, acknowledged);
    server.held[HELD - 1] = record_bytes(issued);
    cluster
}

/// A server with two records in flight, both of which a member lacks.
fn sending_cluster() -> Cluster {
    let mut cluster = open_cluster([3, 4, 3], 5, 3);
    cluster.records.servers[SERVER].held = held_up_to(5);
    cluster
}

/// A server that may issue: all locks stand at the client's mark, and by the other servers' tables
/// none would be given.
fn issuing_cluster() -> Cluster {
    let mut cluster = open_cluster([5, 5, 5], 5, 5);
    set_tables(&mut cluster, CLIENT_MARK, CLIENT_MARK + 1);
    cluster
}

/// A request with so much data and so many locks.
fn request(client: u32, data: usize, locks: u64) -> Request {
    Request {
        client_mark: CLIENT_MARK,
        client,
        generation: GENERATION,
        sequence: SEQUENCE,
        data: vec![1; data],
        locks: (1..=locks).collect(),
        ..Request::default()
    }
}

/// What the replica held in an earlier session: its slots differ, one mark from the other.
pub fn backup() -> Vec<u8> {
    let mut medium = medium::fresh(PLACES as usize);
    put(&mut medium, 0, &Slot { promise: 2, low: 1, local: 2 }.encode());
    put(&mut medium, SLOT_BYTES, &Slot { promise: 3, low: 1, local: 2 }.encode());
    (1..=3).for_each(|id| set_place(&mut medium, id));
    medium
}

pub fn all_scenes() -> [Scene; 15] {
    let (server, replica, from) = (SERVER as u64, REPLICA as u64, SOURCE as u64);
    let fate = Fate::Answered;
    let message = Message::new(fate);
    let copy = Call::Copy { server, from, to: replica, message };
    // Each has as much as it may: the last number of a gate, and the first of the booking system.
    let [gate, booking] = [request(99, 12, 1), request(100, 28, 4)];
    let opening = |marks| cluster(Phase::Opening, marks);
    let calm = || open_cluster([4, 4, 4], 4, 4);
    let idle = || cluster(Phase::Idle, [4, 4, 4]);
    let stamp = Stamp { time: 1_700_000_000_000, key: *b"the cluster key." };
    let files = Pair::filled(EXACT, UNWRITTEN);
    [
        (Kind::Take, idle(), Call::Take { server, fate }),
        (Kind::Prepare, opening([4, 4, 4]), Call::Prepare { server, replica, message }),
        (Kind::OpeningCopy, opening([3, 4, 4]), copy.clone()),
        (Kind::OpenCopy, open_cluster([3, 4, 4], 4, 4), copy),
        (Kind::Trim, opening([6, 4, 4]), Call::Trim { server, replica, message }),
        (Kind::Open, opening([4, 4, 6]), Call::Open { server, fate }),
        (Kind::GateIssue, issuing_cluster(), Call::Issue { server, request: gate }),
        (Kind::BookingIssue, issuing_cluster(), Call::Issue { server, request: booking }),
        (Kind::Send, sending_cluster(), Call::Send { server, replica, message }),
        (Kind::Note, calm(), Call::Note { server, replica, message }),
        (Kind::Read, calm(), Call::Read { server, replica, id: 4, message }),
        (Kind::Export, calm(), Call::Export { server, replica, stamp, files, message }),
        (Kind::Stop, calm(), Call::Stop { server }),
        (Kind::Reassign, idle(), Call::Reassign),
        (Kind::Restore, calm(), Call::Restore { replica, backup: backup() }),
    ]
    .map(|(kind, cluster, call)| Scene { kind, cluster, call })
}
