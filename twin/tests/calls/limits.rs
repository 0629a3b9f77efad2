//! Yard gates (document 02, No. 6): a gate may send 12 data bytes and 1 lock, the booking system what it
//! always could. "Refusal 12 reads the pair that belongs to the client", and no call but issue does.

use crate::answered::{answered, Answered};
use twin::cluster::{Answer, Refusal, Request, HELD};
use twin::locks::lock_places;
use twin::medium::{medium_bytes, place, PlaceBytes, Record};
use twin::segment::{import, Pair};
use twin::tries::exports::exact_lengths;
use twin::tries::faults::{faults_of, with_faults};
use twin::tries::imports::STAMP;
use twin::tries::limits::{Wish, CLIENTS, DATA, LOCKS};
use twin::tries::scene::{all_scenes, Kind, Scene, SERVER};

/// "numbers below 100 are gates" and "may send at most 12 data bytes and 1 lock"; of the others
/// "Data exceed 28 bytes, or locks exceed 4" holds as before.
fn is_too_much(client: u32, data: usize, locks: usize) -> bool {
    match client {
        0..=99 => data > 12 || locks > 1,
        100.. => data > 28 || locks > 4,
    }
}

/// A request by a client that has read nothing.
fn ask(cluster: &mut Answered, client: u32, data: usize, locks: &[u64]) -> Result<u64, u64> {
    let (data, locks) = (vec![0x5A; data], locks.to_vec());
    match cluster.0.issue(0, &Request { client, data, locks, ..Request::default() }) {
        Ok(Answer::Number(id)) => Ok(id),
        Ok(other) => panic!("{other:?}"),
        Err(refusal) => Err(refusal.number()),
    }
}

#[test]
fn gates_and_bookings_call_by_call() {
    let (first, others) = (1, [2, 3, 4, 5]);
    let places = others.map(lock_places).concat();
    assert!(lock_places(first).iter().all(|place| !places.contains(place)));
    let mut cluster = Answered::opened(4);
    assert_eq!(ask(&mut cluster, 99, 13, &[]), Err(12));
    assert_eq!(ask(&mut cluster, 99, 0, &[1, 2]), Err(12));
    assert_eq!(ask(&mut cluster, 99, 12, &[first]), Ok(1));
    assert_eq!(ask(&mut cluster, 100, 13, &others), Ok(2));
    assert_eq!(ask(&mut cluster, 0, 13, &[]), Err(12));
    assert_eq!(ask(&mut cluster, 4_294_967_295, 28, &[]), Ok(3));
    assert_eq!(ask(&mut cluster, 4_294_967_295, 29, &[]), Err(12));
}

/// Granted with the next ID and the record as it was asked for, or declined by 12 with nothing changed.
fn check(wish: Wish) {
    let mut scene = wish.scene();
    let before = scene.clone();
    let request = scene.request().clone();
    let reply = scene.apply();
    if is_too_much(wish.client, wish.data, wish.locks) {
        assert_eq!(reply, Err(Refusal::TooMuch), "{wish:?}");
        assert!(scene == before, "{wish:?}");
        return;
    }
    let id = before.cluster.records.servers[SERVER].issued + 1;
    assert_eq!(reply, Ok(Answer::Number(id)), "{wish:?}");
    let Request { client, generation, partition, sequence, header, data, .. } = &request;
    let [client, generation, partition, header] =
        [client, generation, partition, header].map(|word| *word);
    let record = Record { id, client, generation, partition, sequence: *sequence, header, data };
    let held = scene.cluster.records.servers[SERVER].held;
    assert_eq!(Record::decode(id, &held[HELD - 1]), Some(record), "{wish:?}");
}

/// All the edges with one another. The requests' other numbers lie on the other side of 100.
#[test]
fn issue_declines_exactly_what_exceeds_the_clients_pair() {
    let mut met = [0; 2];
    for client in CLIENTS {
        for (data, locks) in DATA.into_iter().flat_map(|data| LOCKS.map(|locks| (data, locks))) {
            check(Wish { client, data, locks });
            met[usize::from(is_too_much(client, data, locks))] += 1;
        }
    }
    // Four gates: 0, 1, 11 or 12 bytes with up to one lock. Three others: all but 29 bytes and 5 locks.
    let granted = 4 * (4 * 2) + 3 * (7 * 5);
    assert_eq!(met, [granted, 7 * 8 * 6 - granted]);
}

/// Each client's own limits, for every number up to 300 and every power of two with its neighbours.
#[test]
fn every_client_has_its_own_limits() {
    let powers = (0..32).map(|bit| 1u32 << bit).flat_map(|power| [power - 1, power, power + 1]);
    for client in (0..=300).chain(powers).chain([u32::MAX - 1, u32::MAX]) {
        let (data, locks) = if client < 100 { (12, 1) } else { (28, 4) };
        for (data, locks) in [(data, locks), (data + 1, locks), (data, locks + 1)] {
            check(Wish { client, data, locks });
        }
    }
}

/// Sets another number than the client's.
type Set = fn(&mut Scene, u32);

/// One at a time; in the scenes above all of them lie on the other side of the edge.
#[test]
fn no_other_number_chooses_the_pair() {
    let others: [Set; 5] = [
        |scene, other| scene.request().partition = other,
        |scene, other| scene.request().sequence = u64::from(other),
        // Not 0, which 28 declines.
        |scene, other| scene.request().header = other.max(1),
        |scene, other| {
            scene.request().generation = other;
            scene.cluster.records.servers[SERVER].generation = other;
        },
        |scene, other| scene.cluster.records.servers[SERVER].session = other.into(),
    ];
    let issues = |scene: &Scene| matches!(scene.kind, Kind::GateIssue | Kind::BookingIssue);
    for scene in all_scenes().into_iter().filter(issues) {
        for (set, other) in others.iter().flat_map(|set| [0, 99, 100, u32::MAX].map(|it| (set, it)))
        {
            let mut scene = scene.clone();
            set(&mut scene, other);
            scene.request().data = vec![0; 13];
            let expected = (scene.kind == Kind::GateIssue).then_some(12);
            assert_eq!(declined(&mut scene), expected, "{:?}", scene.call);
        }
    }
}

/// What issue looks at before 12 and behind it.
const BEFORE: [u64; 6] = [1, 2, 3, 5, 10, 11];
const BEHIND: [u64; 5] = [28, 13, 14, 23, 15];

/// For either kind of client and either limit: whatever comes first in the list is given. Without too much
/// data or locks what stands behind 12 is given, so that both conditions hold in the scene.
#[test]
fn twelve_stands_in_its_place_for_both() {
    let scenes = all_scenes();
    for (kind, data, locks) in [(Kind::GateIssue, 12, 1), (Kind::BookingIssue, 28, 4)] {
        let scene = scenes.iter().find(|scene| scene.kind == kind).expect("issue's scene");
        let faults = faults_of(scene);
        let (too_much, others): (Vec<_>, Vec<_>) =
            faults.iter().partition(|fault| fault.number() == 12);
        assert_eq!(too_much.len(), 2);
        let mut met = Vec::new();
        for (twelve, other) in too_much.iter().flat_map(|it| others.iter().map(move |ot| (it, ot)))
        {
            let mut scene = with_faults(scene, &[twelve, other]);
            let names = format!("{kind:?}: {} and {}", twelve.name, other.name);
            let first = if BEFORE.contains(&other.number()) { other.number() } else { 12 };
            assert_eq!(declined(&mut scene), Some(first), "{names}");
            scene.request().data.truncate(data);
            scene.request().locks.truncate(locks);
            assert_eq!(declined(&mut scene), Some(other.number()), "{names}");
            met.push(other.number());
        }
        assert!(BEFORE.iter().chain(&BEHIND).all(|number| met.contains(number)), "{met:?}");
    }
}

fn declined(scene: &mut Scene) -> Option<u64> {
    scene.apply().err().map(|refusal| refusal.number())
}

/// A gate's record, with more data than it may send if the length is above 12.
fn of_gate(id: u64, client: u32, length: usize) -> PlaceBytes {
    let data = &vec![0xB7; length];
    Record { id, client, generation: 0, partition: 3, sequence: 4, header: 5, data }.encode()
}

/// The server's export of the replica, imported into a wiped medium.
fn exported(cluster: &mut Answered, server: u64, replica: u64) -> Vec<u8> {
    let mut files = Pair::filled(exact_lengths(&cluster.0, server, replica), 0xAA);
    let reply = cluster.0.export(server, replica, STAMP, &mut files, &answered());
    assert_eq!(reply, Ok(Answer::Nothing));
    let mut medium = vec![0; medium_bytes(4)];
    assert_eq!(import(4, &mut medium, STAMP, &files.data, &files.index), Ok(()));
    medium
}

fn read(cluster: &mut Answered, server: u64, replica: u64, id: u64) -> PlaceBytes {
    match cluster.0.read(server, replica, id, &answered()) {
        Ok(Answer::Bytes(bytes)) => bytes,
        other => panic!("{other:?}"),
    }
}

/// "may send" is about issue: records of gates with data of any length that a server holds are sent and
/// copied, read, exported and imported, found by the next session and copied there.
#[test]
fn no_call_but_issue_knows_a_pair() {
    for (client, length) in [0, 1, 50, 99].into_iter().flat_map(|it| (0..=28).map(move |l| (it, l)))
    {
        let records = [of_gate(1, client, length), of_gate(2, client, 28 - length)];
        let mut cluster = Answered::opened(4);
        let server = &mut cluster.0.records.servers[0];
        server.held[HELD - 2..].copy_from_slice(&records);
        server.issued = 2;
        assert_eq!([0, 0, 1, 1].map(|to| cluster.send_to(0, to)), [Ok(0), Ok(0), Ok(1), Ok(2)]);
        assert_eq!(cluster.copy(0, 0, 2), Ok(2));
        assert_eq!([1, 2].map(|id| read(&mut cluster, 0, 1, id)), records);
        assert_eq!(cluster.take(1), Ok(2));
        assert_eq!([1, 2].map(|replica| cluster.prepare(1, replica)), [Ok(2), Ok(1)]);
        assert_eq!(cluster.copy(1, 1, 2), Ok(2));
        assert_eq!(cluster.open(1), Ok(2));
        assert_eq!([1, 2].map(|id| read(&mut cluster, 1, 2, id)), records);
        let medium = exported(&mut cluster, 1, 2);
        assert_eq!([1, 2].map(|id| place(&medium, id)), records);
    }
}

/// What is truncated goes by marks, and what is noted too.
#[test]
fn trim_and_note_know_no_pair() {
    let mut cluster = Answered::opened(4);
    let records = [of_gate(1, 99, 13), of_gate(2, 0, 28)];
    let server = &mut cluster.0.records.servers[0];
    server.held[HELD - 2..].copy_from_slice(&records);
    server.issued = 2;
    assert_eq!([0, 0, 1].map(|replica| cluster.send_to(0, replica)), [Ok(0), Ok(0), Ok(1)]);
    assert_eq!(cluster.0.note(0, 0, &answered()), Ok(Answer::Number(2)));
    assert_eq!(cluster.take(1), Ok(2));
    assert_eq!([0, 1, 2].map(|replica| cluster.prepare(1, replica)), [Ok(2), Ok(1), Ok(0)]);
    assert_eq!(cluster.0.trim(1, 0, &answered()), Ok(Answer::Number(1)));
    assert_eq!(cluster.open(1), Ok(1));
    assert_eq!(read(&mut cluster, 1, 0, 1), records[0]);
}
