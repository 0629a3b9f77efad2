//! Clients around the mark that their locks ask of them: every pair of marks on a short log, and draws.

use super::scene::{Kind, Scene, SERVER};
use crate::cluster::{Call, Cluster, Phase, Request, Shape};
use crate::locks::estimate;
use crate::random::Random;

/// N, and how much of it is issued and acknowledged.
const PLACES: u64 = 4;
const ISSUED: u64 = 3;

/// The lock that a scene's client asks for, and the ID that its request gets if it is granted.
pub const LOCK: u64 = 1;
pub const GRANTED: u64 = ISSUED + 1;

/// What refusal 15 looks at.
#[derive(Clone, Copy, Debug)]
pub struct Client {
    pub mark: u64,
    /// Of its lock.
    pub estimate: u64,
}

impl Client {
    /// Every mark that is acknowledged with every estimate up to N, and with the greatest there is,
    /// which no session has.
    pub fn all() -> impl Iterator<Item = Client> {
        let estimates = || (0..=PLACES).chain([u64::MAX]);
        (0..=ISSUED)
            .flat_map(move |mark| estimates().map(move |estimate| Client { mark, estimate }))
    }

    /// A request that nothing but its lock can stand in the way of.
    pub fn scene(self) -> Scene {
        let mut cluster = Cluster::fresh(Shape::whole(3, PLACES)).expect("an allowed shape");
        cluster.table_mut(SERVER).fill(self.estimate);
        let server = &mut cluster.records.servers[SERVER];
        server.phase = Phase::Open;
        (server.issued, server.acknowledged) = (ISSUED, ISSUED);
        let request = Request { client_mark: self.mark, locks: vec![LOCK], ..Request::default() };
        Scene {
            kind: Kind::GateIssue,
            cluster,
            call: Call::Issue { server: SERVER as u64, request },
        }
    }
}

/// The mark that a client needs for all these locks: their greatest estimate, if there is a lock.
pub fn needed_mark(table: &[u64], locks: &[u64]) -> Option<u64> {
    locks.iter().map(|&lock| estimate(table, lock)).max()
}

/// Mostly the mark that the client needs, one less or one more, now and then any. None is above the
/// acknowledged one, since 11 comes first.
pub fn draw_mark(random: &mut Random, cluster: &Cluster, server: u64, locks: &[u64]) -> u64 {
    let server = server as usize;
    let acknowledged = cluster.records.servers[server].acknowledged;
    let needed = needed_mark(cluster.table(server), locks).unwrap_or(acknowledged);
    let mark = match random.below(8) {
        0..=2 => needed,
        3 | 4 => needed.saturating_sub(1),
        5 | 6 => needed.saturating_add(1),
        _ => random.below(acknowledged + 1),
    };
    mark.min(acknowledged)
}
