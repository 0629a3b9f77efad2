//! Gates and booking clients (document 02, No. 6): a list call by call, requests around the limits of
//! either pair, and records that no gate may send any more and that no call but issue knows of.

use super::calls::{check, copy, look, message, open, open_all, prepare, send, take};
use super::recorder::Recorder;
use super::scenes::try_scene;
use crate::cluster::{Answer, Call, Limits, Refusal, Request, Shape, BOOKING, GATE, HELD};
use crate::medium::{PlaceBytes, Record};
use crate::tries::faults::{faults_of, with_faults};
use crate::tries::limits::{Wish, CLIENTS, DATA, LOCKS};
use crate::tries::scene::{Scene, SERVER};

/// Booking clients whose lower bytes are those of a gate, and the least with the top bit.
const BY_UPPER_BITS: [u32; 3] = [1 << 8, 1 << 16, 1 << 31];

/// Four places, open at 0: each request with its reply, an ID or a number. The booking client's locks
/// have no table place in common with the gate's.
pub fn list(recorder: &mut Recorder) {
    recorder.fresh(Shape::whole(3, 4));
    open_all(recorder);
    let requests = [
        (issue(0, 0, 99, 13, &[]), Err(12)),
        (issue(0, 0, 99, 0, &[1, 2]), Err(12)),
        (issue(0, 0, 99, 12, &[1]), Ok(1)),
        (issue(0, 0, 100, 13, &[2, 3, 4, 5]), Ok(2)),
        (issue(0, 0, 0, 13, &[]), Err(12)),
        (issue(0, 0, u32::MAX, 28, &[]), Ok(3)),
        (issue(0, 0, u32::MAX, 29, &[]), Err(12)),
    ];
    check(recorder, requests);
}

fn issue(server: u64, client_mark: u64, client: u32, data: usize, locks: &[u64]) -> Call {
    let (data, locks) = ((1..=data as u8).collect(), locks.to_vec());
    let request = Request { client_mark, client, header: 9, data, locks, ..Request::default() };
    Call::Issue { server, request }
}

/// States that are handed in.
pub fn replay(recorder: &mut Recorder) {
    CLIENTS.into_iter().for_each(|client| around_limits(recorder, client));
    for client in BY_UPPER_BITS {
        wish(recorder, client, BOOKING.data, BOOKING.locks);
    }
    long_ago(recorder);
}

/// Either amount around the limits of both pairs, the other one at the client's own; and too much of
/// both, by the gates' pair and by either.
fn around_limits(recorder: &mut Recorder, client: u32) {
    let own = Limits::of(client);
    DATA.into_iter().for_each(|data| wish(recorder, client, data, own.locks));
    for locks in LOCKS.into_iter().filter(|&locks| locks != own.locks) {
        wish(recorder, client, own.data, locks);
    }
    if matches!(client, 99 | 100) {
        let both = [(GATE.data + 1, GATE.locks + 1), (BOOKING.data + 1, BOOKING.locks + 1)];
        both.into_iter().for_each(|(data, locks)| wish(recorder, client, data, locks));
    }
}

/// What the server holds is left as it is: no check of a request looks at it, and its lines are long.
fn wish(recorder: &mut Recorder, client: u32, data: usize, locks: usize) {
    let Scene { mut cluster, call, .. } = Wish { client, data, locks }.scene();
    cluster.records.servers[SERVER].held = recorder.cluster().records.servers[SERVER].held;
    recorder.hand_in(cluster);
    if let Err(refusal) = recorder.call(&call) {
        assert_eq!(refusal, Refusal::TooMuch);
    }
}

/// issue's scene of either kind of client with either limit exceeded, and with what is checked just before
/// 12 or just after it.
pub fn in_place(recorder: &mut Recorder, scene: &Scene) {
    let faults = faults_of(scene);
    let of = |number: u64| faults.iter().filter(move |fault| fault.number() == number);
    for (too_much, other) in of(12).flat_map(|it| of(11).chain(of(13)).map(move |ot| (it, ot))) {
        try_scene(recorder, with_faults(scene, &[too_much, other]));
    }
}

/// A gate's record with so much data.
fn of_gate(id: u64, client: u32, length: u8) -> PlaceBytes {
    let data: &Vec<u8> = &(0..length).map(|at| 0xA0 + at).collect();
    Record { id, client, generation: 0, partition: 7, sequence: 8, header: 9, data }.encode()
}

/// A server holds records of gates with more data than issue would take. They are sent, copied, read and
/// exported, found by the next session, truncated and copied there; issue alone still declines their
/// like.
fn long_ago(recorder: &mut Recorder) {
    recorder.fresh(Shape::whole(3, 4));
    open_all(recorder);
    let records = [of_gate(1, 99, 13), of_gate(2, 0, 28), of_gate(3, 50, 20)];
    let mut cluster = recorder.cluster().clone();
    let server = &mut cluster.records.servers[0];
    server.held[HELD - 3..].copy_from_slice(&records);
    server.issued = 3;
    recorder.hand_in(cluster);
    let sent = [(0, 0), (0, 0), (0, 0), (1, 1), (1, 2)];
    let sent = sent.map(|(replica, acknowledged)| (send(0, replica), Ok(acknowledged)));
    check(recorder, sent.into_iter().chain([(copy(0, 0, 2), Ok(2))]));
    look(recorder, 0, 0, &records[..2]);
    let note = Call::Note { server: 0, replica: 0, message: message() };
    check(recorder, [(note, Ok(3)), (issue(0, 2, 99, 13, &[]), Err(12))]);
    assert_eq!(recorder.call(&Call::Stop { server: 0 }), Ok(Answer::Nothing));
    let found = (0..3).zip([3, 2, 1]).map(|(replica, mark)| (prepare(1, replica), Ok(mark)));
    check(recorder, [(take(1), Ok(2))].into_iter().chain(found));
    let trim = Call::Trim { server: 1, replica: 0, message: message() };
    let rest = [(trim, 2), (copy(1, 1, 2), 2), (open(1), 2)].map(|(call, mark)| (call, Ok(mark)));
    check(recorder, rest);
    look(recorder, 1, 2, &records[..2]);
    let requests = [(issue(1, 2, 50, 20, &[]), Err(12)), (issue(1, 2, 50, 12, &[6]), Ok(3))];
    check(recorder, requests);
}
