//! Header 0 (document 02, No. 8): the releases before took it, so that lists begun under one of them hold and
//! store transactions with it. "Stored ones stay readable, are copied in recovery and exported", and the three
//! conclusions hold over the whole list.

use std::collections::BTreeMap;

use crate::{List, Met, CALLS};
use twin::cluster::{Call, Cluster, Refusal, Reply, Request, HELD};
use twin::random::Random;
use twin::tries::headers::{use_of_zero, with_header, USES};

/// The release before took header 0 as any other.
pub fn before(cluster: &mut Cluster, call: &mut Call) -> Reply {
    match call {
        Call::Issue { server, request } if request.header == 0 => {
            let reply = cluster.issue(*server, &Request { header: 1, ..request.clone() });
            if reply.is_ok() {
                let newest = &mut cluster.records.servers[*server as usize].held[HELD - 1];
                *newest = with_header(newest, 0);
            }
            reply
        }
        _ => cluster.apply(call),
    }
}

/// A call as clients made it then: half of the requests have header 0.
pub fn next_call_before(list: &List, random: &mut Random) -> Call {
    let mut call = list.next_call(random);
    if let Call::Issue { request, .. } = &mut call {
        request.header *= random.below(2) as u32;
    }
    call
}

/// What lists met of transactions with header 0: what was done with stored ones, and requests declined.
#[derive(Debug, Default)]
pub struct Zeros {
    uses: BTreeMap<&'static str, u64>,
    declined: u64,
}

impl Zeros {
    pub fn count_call(&mut self, before: &Cluster, call: &Call, reply: &Reply) {
        let used = use_of_zero(before, call, reply);
        used.into_iter().for_each(|name| *self.uses.entry(name).or_default() += 1);
        self.declined += u64::from(*reply == Err(Refusal::HeaderZero));
    }

    fn count(&self, name: &str) -> u64 {
        self.uses.get(name).copied().unwrap_or(0)
    }

    /// All but the sends of what was held, which there are none of once servers are stopped.
    pub fn assert_met(&self, lists: u64) {
        for name in USES.into_iter().filter(|&name| name != "sent") {
            assert!(self.count(name) > lists / 25, "{name}: {self:?}");
        }
        assert!(self.declined > lists / 10, "{self:?}");
    }

    pub fn sent(&self) -> u64 {
        self.count("sent")
    }
}

/// Nobody is stopped when the release changes: what is held and in flight is sent on.
#[test]
fn lists_go_on_with_what_the_release_before_took() {
    const LISTS: u64 = 300;
    let (mut earlier, mut met, mut held) = (Met::default(), Met::default(), 0);
    for seed in 0..LISTS {
        let random = &mut Random::new(3_000_000 + seed);
        let mut list = List::new(random);
        for _ in 0..20 + random.below(CALLS as u64 / 2) {
            let call = next_call_before(&list, random);
            list.call(call, before, &mut earlier);
        }
        held += u64::from(list.cluster.records.servers.iter().any(|it| it.unacknowledged() > 0));
        for _ in 0..CALLS / 2 {
            let call = list.next_call(random);
            list.call(call, Cluster::apply, &mut met);
        }
        list.history.check();
    }
    let zeros = met.zeros;
    println!("{zeros:?} {held}");
    zeros.assert_met(LISTS);
    assert!(zeros.sent() > LISTS / 10 && held > LISTS / 5, "{zeros:?} {held}");
}

/// The release before did for header 0 what ours does for any other: here it is declined, there it is taken.
#[test]
fn the_release_before_takes_it() {
    let (mut met, mut taken) = (Met::default(), 0);
    let random = &mut Random::new(4_000_000);
    let mut list = List::new(random);
    for _ in 0..CALLS {
        let call = next_call_before(&list, random);
        let zero = matches!(&call, Call::Issue { request, .. } if request.header == 0);
        let ours = list.cluster.clone().apply(&mut call.clone());
        let reply = list.reply_to(call, before, &mut met);
        taken += u64::from(zero && reply.is_ok());
        assert!(zero || ours == reply);
        assert!(!zero || ours.is_err());
    }
    assert!(taken > 0);
}
