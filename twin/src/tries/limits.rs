//! Requests around the limits of gates and of booking clients (document 02, No. 6): every client around
//! the edge on either side, and draws.

use super::scene::{Kind, Scene, SERVER};
use crate::cluster::{Call, Cluster, Limits, Phase, Request, Shape};
use crate::cluster::{BOOKING, FIRST_BOOKING_CLIENT, GATE};
use crate::random::Random;

/// Both ends, and both sides of the edge.
pub const CLIENTS: [u32; 7] = [0, 1, 98, 99, 100, 101, u32::MAX];

/// Data bytes and locks: none, one, and what lies around the limits of either pair.
pub const DATA: [usize; 8] = [0, 1, 11, 12, 13, 27, 28, 29];
pub const LOCKS: [usize; 6] = [0, 1, 2, 3, 4, 5];

/// One request in this many that wants more than the client may have asks for it all the same.
const GREED: u64 = 12;

/// N of the scenes: marks lie on both sides of the edge too.
const PLACES: u64 = 110;

/// What refusal 12 looks at: a client, and how much it asks for.
#[derive(Clone, Copy, Debug)]
pub struct Wish {
    pub client: u32,
    pub data: usize,
    pub locks: usize,
}

impl Wish {
    /// A request that nothing else stands in the way of. Its other fields, and the server's session,
    /// generation and marks, the next ID too, lie on the other side of the edge than the client's number,
    /// so that it shows which one is looked at.
    pub fn scene(self) -> Scene {
        let mut cluster = Cluster::fresh(Shape::whole(1, PLACES)).expect("an allowed shape");
        let gate = self.client < FIRST_BOOKING_CLIENT;
        let (kind, other) = if gate { (Kind::GateIssue, 100) } else { (Kind::BookingIssue, 98) };
        let mark = u64::from(other);
        cluster.table_mut(SERVER).fill(mark);
        let server = &mut cluster.records.servers[SERVER];
        (server.phase, server.session, server.generation) = (Phase::Open, mark, other);
        (server.starting, server.issued, server.acknowledged) = (mark, mark, mark);
        let request = Request {
            client_mark: mark,
            client: self.client,
            generation: other,
            partition: other,
            sequence: mark,
            header: other,
            data: (1..=self.data as u8).collect(),
            locks: (1..=self.locks as u64).collect(),
        };
        Scene { kind, cluster, call: Call::Issue { server: SERVER as u64, request } }
    }
}

/// Gates and booking clients alike, often those at the edge and at the ends.
pub fn draw_client(random: &mut Random) -> u32 {
    let gate = random.below(FIRST_BOOKING_CLIENT.into()) as u32;
    let booking = random.word().max(FIRST_BOOKING_CLIENT);
    *random.pick(&[0, 99, gate, 100, u32::MAX, booking])
}

/// How much data the client sends: around its own limit or the other's, or any; now and then more than
/// it may.
pub fn draw_data(random: &mut Random, client: u32) -> Vec<u8> {
    let any = random.below(BOOKING.data as u64 + 2) as usize;
    let around = [GATE, BOOKING].map(|pair| *random.pick(&[pair.data, pair.data + 1]));
    let wanted = *random.pick(&[0, around[0], around[1], any]);
    let length = fit(random, wanted, Limits::of(client).data);
    random.bytes(length)
}

/// How many locks the client asks for if it wants so many; now and then more than it may.
pub fn draw_count(random: &mut Random, client: u32, wanted: usize) -> usize {
    fit(random, wanted, Limits::of(client).locks)
}

fn fit(random: &mut Random, wanted: usize, limit: usize) -> usize {
    if wanted > limit && random.chance(GREED) {
        wanted
    } else {
        wanted.min(limit)
    }
}
