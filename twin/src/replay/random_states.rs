//! Random states that are handed in.

use super::list;
use super::recorder::Recorder;
use crate::cluster::{Closing, Cluster, Phase, Records, Shape, HELD};
use crate::medium;
use crate::random::Random;
use crate::tries::caller::Caller;
use crate::tries::scene::{record_bytes, SERVER};
use crate::tries::states::Draw;

/// Random states that are handed in, by N, and calls made on each.
const STATES: [(u64, u64); 3] = [(3, 24), (5, 20), (12, 6)];
const CALLS_ON_STATE: u64 = 12;

/// Calls on random states.
pub fn replay(recorder: &mut Recorder, random: &mut Random) {
    for places in STATES.into_iter().flat_map(|(places, count)| (0..count).map(move |_| places)) {
        let mut cluster = Draw { random, places }.cluster();
        agree(random, &mut cluster);
        corners(random, &mut cluster);
        recorder.hand_in(cluster);
        calls_on_state(recorder, random, places);
    }
}

/// Random calls and recoveries, and more of those that bring a cluster on.
fn calls_on_state(recorder: &mut Recorder, random: &mut Random, places: u64) {
    let caller = Caller::new(random);
    for _ in 0..CALLS_ON_STATE {
        match random.below(15) {
            0 => {
                let recovery = Draw { random, places }.recovery(recorder.cluster());
                let _ = recorder.recover(&recovery);
            }
            1..=5 => {
                let call = Draw { random, places }.call(recorder.cluster());
                let _ = recorder.call(&call);
            }
            _ => list::next(recorder, random, &caller),
        }
    }
}

/// Makes a server and most replicas agree on session and marks, so that its messages are accepted.
fn agree(random: &mut Random, cluster: &mut Cluster) {
    if !cluster.shape.is_allowed() || !cluster.has_exact_lengths() {
        return;
    }
    let Shape { replicas, places, .. } = cluster.shape;
    let mut server = cluster.records.servers[SERVER];
    for replica in (0..replicas as usize).filter(|_| !random.chance(5)) {
        let medium = cluster.medium(replica);
        server.marks[replica] = medium::mark(medium);
        server.session = medium::current(medium).map_or(server.session, |(_, slot)| slot.promise);
    }
    if random.chance(2) {
        // What follows replica 0's mark is held, unless it is just below or above all that is.
        let next = server.marks[0] + 1;
        let issued = next + random.below(HELD as u64 + 2);
        (server.starting, server.issued) = (random.below(next + 1), (issued - 1).min(places));
        if let Some(behind) = server.issued.checked_sub(next).filter(|&it| it < HELD as u64) {
            server.held[HELD - 1 - behind as usize] = record_bytes(next);
        }
    }
    if random.chance(2) {
        cluster.records.register.session = server.session;
    }
    server.phase = *random.pick(&[Phase::Opening, Phase::Open, Phase::Open]);
    cluster.records.servers[SERVER] = server;
}

/// What the drawn states have not: damage anywhere on a medium, a record held that passes as none,
/// lock marks at their top, and numbers from R up, which are never read.
fn corners(random: &mut Random, cluster: &mut Cluster) {
    if random.chance(3) {
        let at = random.below(cluster.media.len() as u64) as usize;
        cluster.media[at] ^= 1 << random.below(8);
    }
    if random.chance(4) {
        let server = &mut cluster.records.servers[random.below(4) as usize];
        server.held[random.below(HELD as u64) as usize][40] ^= 1;
    }
    if random.chance(4) {
        cluster.locks.fill(u64::MAX);
    }
    if cluster.shape.replicas < 7 && random.chance(2) {
        let Records { register, servers } = &mut cluster.records;
        register.entries[6].closing = Closing::Mark(u64::MAX);
        servers[0].entries[6].closing = Closing::Mark(u64::MAX);
        servers[0].marks[6] = u64::MAX;
    }
}
