//! "Stored ones stay readable, are copied in recovery and exported" (document 02, No. 8): but for what a record
//! has as its header, every call does with one whose header is 0 what it does with any other.

use std::collections::BTreeMap;

use crate::answered::{answered, Answered};
use twin::cluster::{Answer, Call, Cluster, Reply, Request, Shape, HELD};
use twin::medium::{medium_bytes, place, PlaceBytes, Record};
use twin::random::Random;
use twin::segment::{import, Pair};
use twin::tries::caller::Caller;
use twin::tries::exports::exact_lengths;
use twin::tries::headers::{draw_header, use_of_zero, with_header, with_headers, USES};
use twin::tries::imports::STAMP;
use twin::tries::states::Draw;
use twin::tries::useful;

/// The reply as if the record that it has, if any, had header 0.
fn without_header(reply: Reply) -> Reply {
    reply.map(|answer| match answer {
        Answer::Bytes(bytes) => Answer::Bytes(with_header(&bytes, 0)),
        other => other,
    })
}

/// The places that the files of an answered export bring into a wiped medium.
fn imported(places: u64, call: &Call, reply: Reply) -> Option<Vec<u8>> {
    let (Call::Export { files, stamp, .. }, Ok(Answer::Nothing)) = (call, reply) else {
        return None;
    };
    let mut medium = vec![0; medium_bytes(places as usize)];
    assert_eq!(import(places, &mut medium, *stamp, &files.data, &files.index), Ok(()));
    Some(medium)
}

/// An export's places are those of the member, header and all.
fn check_exported(before: &Cluster, call: &Call, reply: Reply) {
    let Some(medium) = imported(before.shape.places, call, reply) else {
        return;
    };
    let Call::Export { server, replica, .. } = call else { return };
    let record = &before.records.servers[*server as usize];
    let end = record.marks[*replica as usize].min(record.acknowledged);
    let stored = before.medium(*replica as usize);
    assert!((1..=end).all(|number| place(&medium, number) == place(stored, number)));
}

/// Two clusters that differ in the headers of what they store and hold: of the second, all are 0.
struct Two {
    any: Cluster,
    zero: Cluster,
}

impl Two {
    fn of(random: &mut Random, cluster: &Cluster) -> Two {
        let any = with_headers(cluster, |_| draw_header(random, 5));
        Two { any, zero: with_headers(cluster, |_| 0) }
    }

    /// Makes the call on both: replies and clusters are the same but for headers.
    fn call(&mut self, call: &Call) -> Option<&'static str> {
        let [mut call, mut other] = [call.clone(), call.clone()];
        let before = self.zero.clone();
        let [zero, any] = [self.zero.apply(&mut call), self.any.apply(&mut other)];
        assert_eq!(without_header(zero), without_header(any), "{call:?}");
        assert!(with_headers(&self.zero, |_| 0) == with_headers(&self.any, |_| 0), "{call:?}");
        check_exported(&before, &call, zero);
        use_of_zero(&before, &call, &zero)
    }
}

/// Lists of calls from clusters that store and hold as much as a list before has left.
#[test]
fn calls_do_the_same_with_header_0_and_with_any_other() {
    let mut random = Random::new(280);
    let mut met: BTreeMap<&str, u64> = BTreeMap::new();
    for _ in 0..120 {
        let shape = Shape::whole(*random.pick(&[1, 3, 3, 5]), 4 + random.below(10));
        let mut cluster = Cluster::fresh(shape).expect("an allowed shape");
        let caller = Caller::new(&mut random);
        for _ in 0..random.below(80) {
            let _ = cluster.apply(&mut useful::next_call(&mut random, &caller, &cluster));
        }
        let mut two = Two::of(&mut random, &cluster);
        for _ in 0..60 {
            let call = useful::next_call(&mut random, &caller, &two.any);
            two.call(&call).into_iter().for_each(|name| *met.entry(name).or_default() += 1);
        }
    }
    println!("{met:?}");
    assert!(USES.iter().all(|name| met.get(name).is_some_and(|&count| count > 10)), "{met:?}");
}

/// Random states with what no list leaves: records behind a gap, held ones of other IDs, torn ones.
#[test]
fn so_they_do_on_random_states() {
    let mut random = Random::new(281);
    let mut met: BTreeMap<&str, u64> = BTreeMap::new();
    for _ in 0..5_000 {
        let places = 1 + random.below(4);
        let mut draw = Draw { random: &mut random, places };
        let cluster = draw.cluster();
        let call = draw.call(&cluster);
        let used = Two::of(&mut random, &cluster).call(&call);
        used.into_iter().for_each(|name| *met.entry(name).or_default() += 1);
    }
    println!("{met:?}");
    // Most calls on such states are declined.
    assert!(met.values().sum::<u64>() > 10, "{met:?}");
}

/// A record as an earlier release stored it: header 0.
fn stored(id: u64, client: u32) -> PlaceBytes {
    let (generation, partition, sequence, header) = (0, 3, 1 << 33, 0);
    Record { id, client, generation, partition, sequence, header, data: b"box" }.encode()
}

fn read(cluster: &mut Answered, server: u64, replica: u64, id: u64) -> PlaceBytes {
    match cluster.0.read(server, replica, id, &answered()) {
        Ok(Answer::Bytes(bytes)) => bytes,
        other => panic!("{other:?}"),
    }
}

/// The server's export of the replica, imported into a wiped medium.
fn exported(cluster: &mut Answered, server: u64, replica: u64) -> Vec<u8> {
    let mut files = Pair::filled(exact_lengths(&cluster.0, server, replica), 0xAA);
    let reply = cluster.0.export(server, replica, STAMP, &mut files, &answered());
    assert_eq!(reply, Ok(Answer::Nothing));
    let mut medium = vec![0; medium_bytes(4)];
    assert_eq!(import(4, &mut medium, STAMP, &files.data, &files.index), Ok(()));
    medium
}

/// Three records with header 0 that a server holds: sent, noted and read; found by the next session, one of
/// them trimmed and one copied; read, exported and imported there. New ones are declined all the while.
#[test]
fn stored_records_call_by_call() {
    let records = [stored(1, 7), stored(2, 100), stored(3, 7)];
    let mut cluster = Answered::opened(4);
    let server = &mut cluster.0.records.servers[0];
    server.held[HELD - 3..].copy_from_slice(&records);
    server.issued = 3;
    let sent = [0, 0, 0, 1, 1].map(|replica| cluster.send_to(0, replica));
    assert_eq!(sent, [Ok(0), Ok(0), Ok(0), Ok(1), Ok(2)]);
    assert_eq!(cluster.copy(0, 0, 2), Ok(2));
    assert_eq!(cluster.0.note(0, 0, &answered()), Ok(Answer::Number(3)));
    assert_eq!([1, 2].map(|id| read(&mut cluster, 0, 1, id)), records[..2]);
    assert_eq!(cluster.take(1), Ok(2));
    assert_eq!([0, 1, 2].map(|replica| cluster.prepare(1, replica)), [Ok(3), Ok(2), Ok(1)]);
    assert_eq!(cluster.0.trim(1, 0, &answered()), Ok(Answer::Number(2)));
    assert_eq!(cluster.copy(1, 1, 2), Ok(2));
    assert_eq!(cluster.open(1), Ok(2));
    for replica in 0..3 {
        assert_eq!([1, 2].map(|id| read(&mut cluster, 1, replica, id)), records[..2]);
        let medium = exported(&mut cluster, 1, replica);
        assert_eq!([1, 2].map(|id| place(&medium, id)), records[..2]);
    }
    let zero = Request { header: 0, ..Request::default() };
    assert_eq!(cluster.0.issue(1, &zero).map_err(|refusal| refusal.number()), Err(28));
    assert_eq!(cluster.issue(1, 2, 0xCC), Ok(3));
}
