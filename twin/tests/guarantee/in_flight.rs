//! What the lists met of records in flight (document 02, No. 5): "A server stopped with records in flight
//! is one more case that the recovery guarantee has to cover, whichever of the eight reached whom."

use std::collections::BTreeSet;

use crate::history::History;
use twin::cluster::{Answer, Call, Cluster, Refusal, Reply, HELD};

#[derive(Debug, Default)]
pub struct InFlight {
    /// Requests granted, by how many records were in flight before.
    issued: [u64; HELD],
    /// Sends that were not declined, by the index of the record.
    sent: [u64; HELD],
    /// Sends to a member that are declined because what follows its mark is no longer held, and copies
    /// to one in this case.
    outrun: u64,
    lifted: u64,
    /// Sessions opened after one that left two or more in flight.
    left: u64,
    /// Those where these had reached different replicas: some one that others had not, or none.
    apart: u64,
    /// Those where two of them had reached some replica each, and not the same ones.
    spread: u64,
    /// Of those in flight none, some or all were found, where they were apart.
    found: [u64; 3],
}

impl InFlight {
    pub fn count_call(&mut self, before: &Cluster, call: &Call, reply: &Reply) {
        let behind = |server: &u64, replica: &u64| {
            let record = &before.records.servers[*server as usize];
            record.issued.checked_sub(record.marks[*replica as usize]).map_or(0, |it| it as usize)
        };
        match (call, reply) {
            (Call::Issue { server, .. }, Ok(_)) => {
                let count = before.records.servers[*server as usize].unacknowledged();
                self.issued[count as usize] += 1;
            }
            (Call::Send { server, replica, .. }, Ok(_)) => {
                self.sent[HELD - behind(server, replica)] += 1;
            }
            (Call::Send { server, replica, .. }, Err(Refusal::NothingToDo)) => {
                self.outrun += u64::from(behind(server, replica) > HELD);
            }
            (Call::Copy { server, to, .. }, Ok(Answer::Number(_))) => {
                self.lifted += u64::from(behind(server, to) > HELD);
            }
            _ => {}
        }
    }

    /// After the history has the call; before it this session was the newest that was opened.
    pub fn count_open(&mut self, history: &History, before: Option<u64>) {
        let newest = history.opened().iter().next_back();
        let (Some(earlier), Some((&session, opened))) = (before, newest) else {
            return;
        };
        let in_flight = history.in_flight(earlier);
        if session == earlier || in_flight.len() < 2 {
            return;
        }
        self.left += 1;
        let reached: BTreeSet<_> = in_flight.values().collect();
        self.spread += u64::from(reached.iter().filter(|it| !it.is_empty()).count() > 1);
        if reached.len() > 1 {
            self.apart += 1;
            let found = in_flight.keys().filter(|&&id| id <= opened.starting).count();
            let how = if found == in_flight.len() { 2 } else { found.min(1) };
            self.found[how] += 1;
        }
    }

    pub fn assert_met(&self, lists: u64) {
        assert!(self.issued.iter().all(|&count| count > lists / 10), "{self:?}");
        assert!(self.sent.iter().all(|&count| count > lists / 10), "{self:?}");
        assert!(self.outrun > lists / 100 && self.lifted > lists / 150, "{self:?}");
        assert!(self.left > lists / 2, "{self:?}");
        assert!(self.apart > lists / 2, "{self:?}");
        assert!(self.spread > lists / 6, "{self:?}");
        let [none, some, all] = self.found;
        assert!(none > lists / 6 && some > lists / 6 && all > lists / 100, "{self:?}");
    }
}
