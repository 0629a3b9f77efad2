//! What a call is counted as: its fate, K beside N, how much a client asks for, its locks beside the
//! client's mark, the end of what it exports, records in flight, which held record it sends or why none,
//! its sequence, what its given bytes pass as, whose header 0 is declined.

use std::cmp::Ordering;

use crate::cluster::{Answer, Call, Cluster, Limits, Refusal, Reply, Request, Shape};
use crate::cluster::{BOOKING, GATE, HELD};
use crate::fate::{Fate, Left};
use crate::medium::{self, be64, SLOT_BYTES};
use crate::old;
use crate::tries::clients::needed_mark;

pub const FATES: [&str; 6] = ["answered", "lost", "answer lost", "cut old", "cut new", "cut torn"];

/// What K can be beside N; "1" and "between" are below N.
pub const INTERVALS: [&str; 6] = ["0", "1", "between", "N", "N + 1", "above"];

/// The two kinds of clients.
pub const CLIENTS: [&str; 2] = ["gate", "booking"];

/// Which limit a request exceeds, the greater pair's before the lesser's. A gate is granted the first of
/// these alone, a booking client the first four.
pub const AMOUNTS: [&str; 7] =
    ["within", "> 12 bytes", "> 1 lock", "> 12 and 1", "> 28 bytes", "> 4 locks", "> 28 and 4"];

/// Where the greatest estimate of a request's locks lies beside the client's mark. Up to "at" the
/// request is granted.
pub const ESTIMATES: [&str; 5] = ["below", "1 below", "at", "1 above", "above"];

/// What ends an exported log: the acknowledged mark, both marks or the member's own, or there is none.
pub const ENDS: [&str; 4] = ["empty", "acknowledged", "both", "own"];

/// Why nothing that is held follows a member's mark: the next ID is not above the starting mark, or it is
/// issued − 8 or less, or above issued; or more than one of these.
pub const UNSENT: [&str; 4] = ["starting", "too old", "not issued", "several"];

/// The sequence of a request that was granted, around what 32 bits hold.
pub const SEQUENCES: [&str; 6] = ["0", "< 2^32 - 1", "2^32 - 1", "2^32", "> 2^32", "2^64 - 1"];

/// What the given bytes of a torn write pass as. The first two are declined by 6.
pub const GIVEN: [&str; 5] = ["slot", "place", "above N", "old place", "nothing"];

/// What else is the matter with a request of header 0, in issue's order; "28" stands for nothing else. Those
/// before 28 are given in its place, and it is given in that of those behind.
pub const BESIDE: [&str; 8] = ["10", "11", "12", "28", "13", "14", "23", "15"];

pub fn fate_of(call: &Call) -> Option<Fate> {
    match call {
        Call::Take { fate, .. } | Call::Open { fate, .. } => Some(*fate),
        Call::Prepare { message, .. }
        | Call::Copy { message, .. }
        | Call::Trim { message, .. }
        | Call::Send { message, .. }
        | Call::Note { message, .. }
        | Call::Read { message, .. }
        | Call::Export { message, .. } => Some(message.fate),
        Call::Issue { .. } | Call::Stop { .. } | Call::Reassign | Call::Restore { .. } => None,
    }
}

pub fn fate_name(fate: Fate) -> (&'static str, u64) {
    match fate {
        Fate::Answered => ("answered", 0),
        Fate::Lost => ("lost", 0),
        Fate::AnswerLost => ("answer lost", 0),
        Fate::Cut(write, Left::Old) => ("cut old", write),
        Fate::Cut(write, Left::New) => ("cut new", write),
        Fate::Cut(write, Left::Torn) => ("cut torn", write),
    }
}

/// `None` if R, N or a lent length is outside its values, whatever K is.
pub fn interval_name(cluster: &Cluster) -> Option<&'static str> {
    let Shape { replicas, places, interval } = cluster.shape;
    if !Shape::whole(replicas, places).is_allowed() || !cluster.has_exact_lengths() {
        return None;
    }
    Some(match interval {
        0 => "0",
        _ if interval == places => "N",
        _ if interval == places + 1 => "N + 1",
        _ if interval > places => "above",
        1 => "1",
        _ => "between",
    })
}

/// The kind of client and how much it asks for; `None` unless it is granted, or 12 declines it.
pub fn amount_name(call: &Call, reply: &Reply) -> Option<(&'static str, &'static str)> {
    let (Call::Issue { request, .. }, Ok(_) | Err(Refusal::TooMuch)) = (call, reply) else {
        return None;
    };
    let amount = match exceeded(BOOKING, request) {
        0 => exceeded(GATE, request),
        above => 3 + above,
    };
    Some((client_name(request.client), AMOUNTS[amount]))
}

fn client_name(client: u32) -> &'static str {
    CLIENTS[usize::from(Limits::of(client) != GATE)]
}

/// `None` unless the request has header 0 and is declined for it or for one of these.
pub fn beside_name(cluster: &Cluster, call: &Call, reply: &Reply) -> Option<&'static str> {
    let (Call::Issue { server, request }, Err(refusal)) = (call, reply) else {
        return None;
    };
    let other = Request { header: 1, ..request.clone() };
    let number = match refusal {
        _ if request.header != 0 => return None,
        Refusal::HeaderZero => {
            let declined = cluster.clone().issue(*server, &other).err();
            declined.unwrap_or(Refusal::HeaderZero).number()
        }
        before => before.number(),
    };
    BESIDE.into_iter().find(|name| *name == number.to_string())
}

/// The kind of client whose header 0 is declined.
pub fn zero_name(call: &Call, reply: &Reply) -> Option<&'static str> {
    match (call, reply) {
        (Call::Issue { request, .. }, Err(Refusal::HeaderZero)) => {
            Some(client_name(request.client))
        }
        _ => None,
    }
}

/// 1 for data, 2 for locks, 3 for both; 0 for neither.
fn exceeded(limits: Limits, request: &Request) -> usize {
    let [data, locks] =
        [request.data.len() > limits.data, request.locks.len() > limits.locks].map(usize::from);
    data + 2 * locks
}

/// `None` unless the request names a lock and nothing else stands in its way.
pub fn estimate_name(cluster: &Cluster, call: &Call, reply: &Reply) -> Option<&'static str> {
    let (Call::Issue { server, request }, Ok(_) | Err(Refusal::Locked { .. })) = (call, reply)
    else {
        return None;
    };
    let needed = needed_mark(cluster.table(*server as usize), &request.locks)?;
    Some(match i128::from(needed) - i128::from(request.client_mark) {
        ..-1 => "below",
        -1 => "1 below",
        0 => "at",
        1 => "1 above",
        2.. => "above",
    })
}

/// `None` unless a segment was written.
pub fn end_name(cluster: &Cluster, call: &Call, reply: &Reply) -> Option<&'static str> {
    let (Call::Export { server, replica, .. }, Ok(Answer::Nothing)) = (call, reply) else {
        return None;
    };
    let record = &cluster.records.servers[*server as usize];
    let (own, acknowledged) = (record.marks[*replica as usize], record.acknowledged);
    Some(match own.cmp(&acknowledged) {
        _ if own.min(acknowledged) == 0 => "empty",
        Ordering::Less => "own",
        Ordering::Equal => "both",
        Ordering::Greater => "acknowledged",
    })
}

/// How many records were in flight when one more was issued.
pub fn in_flight(cluster: &Cluster, call: &Call, reply: &Reply) -> Option<usize> {
    let (Call::Issue { server, .. }, Ok(_)) = (call, reply) else {
        return None;
    };
    Some(cluster.records.servers[*server as usize].unacknowledged() as usize)
}

/// The index of the record that a send had for the replica.
pub fn sent_index(cluster: &Cluster, call: &Call, reply: &Reply) -> Option<usize> {
    let (Call::Send { server, replica, .. }, Ok(_)) = (call, reply) else {
        return None;
    };
    let record = &cluster.records.servers[*server as usize];
    Some(HELD - (record.issued - record.marks[*replica as usize]) as usize)
}

/// `None` unless a send had none.
pub fn unsent_name(cluster: &Cluster, call: &Call, reply: &Reply) -> Option<&'static str> {
    let (Call::Send { server, replica, .. }, Err(Refusal::NothingToDo)) = (call, reply) else {
        return None;
    };
    let record = &cluster.records.servers[*server as usize];
    let next = record.marks[*replica as usize] + 1;
    let too_old = next + HELD as u64 <= record.issued;
    Some(match [next <= record.starting, too_old, next > record.issued] {
        [true, false, false] => "starting",
        [false, true, false] => "too old",
        [false, false, true] => "not issued",
        _ => "several",
    })
}

/// `None` unless the request is granted.
pub fn sequence_name(call: &Call, reply: &Reply) -> Option<&'static str> {
    let (Call::Issue { request, .. }, Ok(_)) = (call, reply) else {
        return None;
    };
    const EDGE: u64 = 1 << 32;
    const BELOW: u64 = EDGE - 1;
    Some(match request.sequence {
        0 => "0",
        BELOW => "2^32 - 1",
        EDGE => "2^32",
        u64::MAX => "2^64 - 1",
        other if other < EDGE => "< 2^32 - 1",
        _ => "> 2^32",
    })
}

/// `None` unless a write is to be torn.
pub fn given_name(cluster: &Cluster, call: &Call) -> Option<&'static str> {
    let given = match call {
        Call::Prepare { message, .. }
        | Call::Copy { message, .. }
        | Call::Trim { message, .. }
        | Call::Send { message, .. }
        | Call::Note { message, .. }
        | Call::Read { message, .. }
        | Call::Export { message, .. } => {
            matches!(message.fate, Fate::Cut(_, Left::Torn)).then_some(message.given)?
        }
        _ => return None,
    };
    let id = be64(&given, 0);
    Some(match medium::is_place(id, &given) {
        _ if medium::Slot::decode(&given[..SLOT_BYTES]).is_some() => "slot",
        true if (1..=cluster.shape.places).contains(&id) => "place",
        true => "above N",
        false if old::decode(id, &given[..old::PLACE_BYTES]).is_some() => "old place",
        false => "nothing",
    })
}
