//! What the lists met of gates and booking clients (document 02, No. 6), which share a partition.

use twin::cluster::{Call, Cluster, Refusal, Reply, Request, HELD};
use twin::medium::Record;

/// By kind of client, gates first.
#[derive(Debug, Default)]
pub struct Clients {
    granted: [u64; 2],
    /// Those with a lock, and those with as much data or as many locks as the client may have.
    locked: [u64; 2],
    full: [u64; 2],
    declined: [u64; 2],
    /// Granted to booking clients what a gate may not have.
    beyond: u64,
    /// Declined gates that would have been granted it as booking clients.
    gates_alone: u64,
}

/// "numbers below 100 are gates" and "may send at most 12 data bytes and 1 lock".
fn limits(client: u32) -> (usize, usize) {
    if client < 100 {
        (12, 1)
    } else {
        (28, 4)
    }
}

impl Clients {
    /// Each record that was issued is within its client's pair, and 12 is met by nothing that is.
    pub fn check(&mut self, before: &Cluster, call: &Call, reply: &Reply, after: &Cluster) {
        let Call::Issue { server, request } = call else {
            return;
        };
        let (data, locks) = limits(request.client);
        let (length, count) = (request.data.len(), request.locks.len());
        let kind = usize::from(request.client >= 100);
        match reply {
            Ok(_) => {
                assert_held(&after.records.servers[*server as usize].held[HELD - 1], request);
                assert!(length <= data && count <= locks, "{request:?}");
                self.granted[kind] += 1;
                self.locked[kind] += u64::from(count > 0);
                self.full[kind] += u64::from(length == data || count == locks);
                self.beyond += u64::from(length > 12 || count > 1);
            }
            Err(Refusal::TooMuch) => {
                assert!(length > data || count > locks, "{request:?}");
                self.declined[kind] += 1;
                let booking = Request { client: 100, ..request.clone() };
                let granted = before.clone().issue(*server, &booking).is_ok();
                self.gates_alone += u64::from(kind == 0 && granted);
            }
            Err(_) => {}
        }
    }

    pub fn assert_met(&self, lists: u64) {
        let all_above = |counts: &[u64; 2], least: u64| counts.iter().all(|&count| count > least);
        assert!(all_above(&self.granted, 4 * lists), "{self:?}");
        assert!(all_above(&self.locked, lists), "{self:?}");
        assert!(all_above(&self.full, lists / 2), "{self:?}");
        assert!(all_above(&self.declined, lists / 10), "{self:?}");
        assert!(self.beyond > lists && self.gates_alone > lists / 10, "{self:?}");
    }
}

/// The newest record held has the request's client and data.
fn assert_held(bytes: &[u8], request: &Request) {
    let record = Record::of_valid(bytes);
    assert_eq!((record.client, record.data), (request.client, request.data.as_slice()));
}
