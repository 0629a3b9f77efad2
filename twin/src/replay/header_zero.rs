//! Header zero (document 02, No. 8): requests that are declined by 28, among those that are not, and what is
//! stored and held of the releases before, which every call but issue treats as any other.

use super::calls::{check, copy, look, message, open, open_all, prepare, send, take};
use super::recorder::Recorder;
use super::scenes::try_scene;
use crate::cluster::{Answer, Call, Request, Shape, HELD};
use crate::medium::{PlaceBytes, Record};
use crate::tries::faults::{faults_of, with_faults};
use crate::tries::headers::TAKEN;
use crate::tries::scene::Scene;

/// Lists call by call.
pub fn list(recorder: &mut Recorder) {
    declined(recorder);
    taken(recorder);
    long_ago(recorder);
}

fn issue(server: u64, request: Request) -> Call {
    Call::Issue { server, request }
}

/// A request of this client with header 0 and so much data.
fn zero(client: u32, data: usize) -> Request {
    Request { client, header: 0, data: vec![0x5A; data], ..Request::default() }
}

/// Four places, open at 0: 10, 11 and 12 come before 28. A gate and the booking system, with as much as each
/// may have and with nothing at all; then the same with another header is granted.
fn declined(recorder: &mut Recorder) {
    recorder.fresh(Shape::whole(3, 4));
    open_all(recorder);
    let locks = vec![1, 2, 3, 4];
    let requests = [
        (zero(99, 13), Err(12)),
        (zero(99, 1), Err(28)),
        (Request { generation: 1, ..zero(99, 1) }, Err(10)),
        (Request { client_mark: 1, ..zero(99, 1) }, Err(11)),
        (Request { locks: vec![1], ..zero(99, 12) }, Err(28)),
        (zero(0, 0), Err(28)),
        (zero(100, 29), Err(12)),
        (Request { locks: vec![1, 2, 3, 4, 5], ..zero(100, 0) }, Err(12)),
        (Request { locks: locks.clone(), ..zero(100, 28) }, Err(28)),
        (zero(u32::MAX, 0), Err(28)),
        (Request { partition: u32::MAX, sequence: u64::MAX, ..zero(100, 1) }, Err(28)),
        (Request { header: 1, ..zero(99, 1) }, Ok(1)),
        (Request { header: u32::MAX, locks, ..zero(100, 28) }, Ok(2)),
    ];
    check(recorder, requests.map(|(request, reply)| (issue(0, request), reply)));
}

/// Headers that are not 0, in requests whose other fields are; each is stored.
fn taken(recorder: &mut Recorder) {
    recorder.fresh(Shape::whole(3, TAKEN.len() as u64));
    open_all(recorder);
    for (id, header) in (1..).zip(TAKEN) {
        let request = Request { header, ..zero(0, 0) };
        check(recorder, [(issue(0, zero(0, 0)), Err(28)), (issue(0, request), Ok(id))]);
        check(recorder, [(send(0, 0), Ok(id - 1)), (send(0, 1), Ok(id))]);
    }
}

/// As a release before issued it.
fn of_before(id: u64, client: u32, data: &[u8]) -> PlaceBytes {
    Record { id, client, generation: 0, partition: 7, sequence: 8, header: 0, data }.encode()
}

/// A server holds three records with header 0. They are sent, copied, read, noted and exported; found by the
/// next session, truncated and copied there, opened over, read and exported; issue alone declines their like,
/// before and after.
fn long_ago(recorder: &mut Recorder) {
    recorder.fresh(Shape::whole(3, 4));
    open_all(recorder);
    let records = [of_before(1, 99, b"gate"), of_before(2, 100, &[]), of_before(3, 0, &[0; 12])];
    let mut cluster = recorder.cluster().clone();
    let server = &mut cluster.records.servers[0];
    server.held[HELD - 3..].copy_from_slice(&records);
    server.issued = 3;
    recorder.hand_in(cluster);
    let sent = [(0, 0), (0, 0), (0, 0), (1, 1), (1, 2)];
    let sent = sent.map(|(replica, acknowledged)| (send(0, replica), Ok(acknowledged)));
    check(recorder, sent.into_iter().chain([(copy(0, 0, 2), Ok(2))]));
    look(recorder, 0, 0, &records[..2]);
    let note = Call::Note { server: 0, replica: 0, message: message() };
    check(recorder, [(note, Ok(3)), (issue(0, zero(99, 4)), Err(28))]);
    assert_eq!(recorder.call(&Call::Stop { server: 0 }), Ok(Answer::Nothing));
    let found = (0..3).zip([3, 2, 1]).map(|(replica, mark)| (prepare(1, replica), Ok(mark)));
    check(recorder, [(take(1), Ok(2))].into_iter().chain(found));
    let trim = Call::Trim { server: 1, replica: 0, message: message() };
    let rest = [(trim, 2), (copy(1, 1, 2), 2), (open(1), 2)].map(|(call, mark)| (call, Ok(mark)));
    check(recorder, rest);
    (0..3).for_each(|replica| look(recorder, 1, replica, &records[..2]));
    let again = Request { client_mark: 2, ..zero(99, 4) };
    let other = Request { header: 9, ..again.clone() };
    check(recorder, [(issue(1, again), Err(28)), (issue(1, other), Ok(3))]);
}

/// issue's scene of either kind of client with header 0, and with what is checked before 28 and behind it.
pub fn in_place(recorder: &mut Recorder, scene: &Scene) {
    let faults = faults_of(scene);
    let of = |number: u64| faults.iter().filter(move |fault| fault.number() == number);
    let others = [10, 11, 12, 13, 14, 23, 15].into_iter().flat_map(of);
    for (zero, other) in others.flat_map(|other| of(28).map(move |zero| (zero, other))) {
        try_scene(recorder, with_faults(scene, &[zero, other]));
    }
}
