//! issue on a short log, with every interval and every starting and issued mark.

use super::scene::{Kind, Scene, SERVER};
use crate::cluster::{Call, Cluster, Phase, Request, Shape};

/// N.
pub const PLACES: u64 = 4;

/// What refusals 14 and 23 look at beside N.
#[derive(Clone, Copy, Debug)]
pub struct Checkpoint {
    pub interval: u64,
    pub starting: u64,
    pub issued: u64,
}

impl Checkpoint {
    /// All of them, those with issued below the starting mark among them, which no session has.
    pub fn all() -> impl Iterator<Item = Checkpoint> {
        let pairs = || (0..=PLACES).flat_map(|one| (0..=PLACES).map(move |other| (one, other)));
        (1..=PLACES).flat_map(move |interval| {
            pairs().map(move |(starting, issued)| Checkpoint { interval, starting, issued })
        })
    }

    /// A request that nothing else stands in the way of: all that is issued is acknowledged, and it
    /// names no lock.
    pub fn scene(self) -> Scene {
        let Checkpoint { interval, starting, issued } = self;
        let shape = Shape { replicas: 3, places: PLACES, interval };
        let mut cluster = Cluster::fresh(shape).expect("an allowed shape");
        let server = &mut cluster.records.servers[SERVER];
        server.phase = Phase::Open;
        (server.starting, server.issued, server.acknowledged) = (starting, issued, issued);
        let request = Request::default();
        Scene {
            kind: Kind::GateIssue,
            cluster,
            call: Call::Issue { server: SERVER as u64, request },
        }
    }
}
