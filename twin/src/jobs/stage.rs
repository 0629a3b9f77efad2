//! The cluster that the jobs work on: seven replicas of 1,000 places, which one session may fill,
//! driven by the calls.

use crate::cluster::{Answer, Call, Cluster, Message, Request, Shape};
use crate::fate::Fate;

const REPLICAS: u64 = 7;
const PLACES: u64 = 1000;

pub fn fresh() -> Cluster {
    Cluster::fresh(Shape::whole(REPLICAS, PLACES)).expect("an allowed shape")
}

pub fn message() -> Message {
    Message::new(Fate::Answered)
}

/// Makes a call; its value, 0 where it has none.
pub fn make(cluster: &mut Cluster, mut call: Call) -> u64 {
    match cluster.apply(&mut call) {
        Ok(Answer::Number(value)) => value,
        _ => 0,
    }
}

/// A server takes the next session and prepares every replica.
pub fn prepare_all(cluster: &mut Cluster, server: u64) {
    make(cluster, Call::Take { server, fate: Fate::Answered });
    for replica in 0..REPLICAS {
        make(cluster, Call::Prepare { server, replica, message: message() });
    }
}

/// Server 0 issues the next record: 28 bytes of data, which a booking client may send, and no lock; its
/// ID. Data differ from record to record, so that no scan profits from zeros.
pub fn issue(cluster: &mut Cluster) -> u64 {
    let first = cluster.records.servers[0].issued as u8;
    let request = Request {
        client: 100,
        partition: 2,
        sequence: 3,
        header: 4,
        data: (0..28).map(|byte| first.wrapping_add(byte)).collect(),
        ..Request::default()
    };
    make(cluster, Call::Issue { server: 0, request })
}

/// Server 0 has opened the first session and stored so many records on every replica.
pub fn filled(records: u64) -> Cluster {
    let mut cluster = fresh();
    prepare_all(&mut cluster, 0);
    make(&mut cluster, Call::Open { server: 0, fate: Fate::Answered });
    for _ in 0..records {
        issue(&mut cluster);
        for replica in 0..REPLICAS {
            make(&mut cluster, Call::Send { server: 0, replica, message: message() });
        }
    }
    cluster
}
