//! Eight in flight (document 02, No. 5): a list call by call, and states around what is held.

use super::calls::{check, copy, open, prepare, send, take};
use super::recorder::Recorder;
use super::scenes::try_scene;
use crate::cluster::{Answer, Call, Message, Phase, Request, Shape, HELD};
use crate::fate::Fate;
use crate::medium::WIPED;
use crate::tries::in_flight::InFlight;
use crate::tries::scene::{all_scenes, held_up_to, record_bytes, Kind, Scene, REPLICA, SERVER};

/// How much is issued in the states.
const ISSUED: u64 = 12;

/// Three replicas, twelve places: eight records in flight and no ninth, until one is acknowledged; a
/// member that is sent nothing any more and copied to; a server stopped with seven in flight, the first
/// of which stands on one replica. Each call with its reply: a value or a number.
pub fn list(recorder: &mut Recorder) {
    recorder.fresh(Shape::whole(3, 12));
    let prepares = |server| (0..3).map(move |replica| prepare(server, replica));
    let mut calls = vec![(take(0), Ok(1))];
    calls.extend(prepares(0).map(|call| (call, Ok(0))));
    calls.push((open(0), Ok(0)));
    calls.extend((1..=8).map(|id| (issue(0, 0, id as u8), Ok(id))));
    calls.push((issue(0, 0, 9), Err(13)));
    calls.extend((0..3).map(|_| (send(0, 0), Ok(0))));
    calls.extend([
        (send(0, 1), Ok(1)),
        (issue(0, 1, 9), Ok(9)),
        (issue(0, 1, 10), Err(13)),
        (send(0, 2), Err(16)),
        (copy(0, 0, 2), Ok(1)),
        (send(0, 2), Ok(2)),
        (send(0, 1), Ok(2)),
    ]);
    check(recorder, calls);
    assert_eq!(recorder.call(&Call::Stop { server: 0 }), Ok(Answer::Nothing));
    let marks = [3, 2, 2];
    let found = prepares(1).zip(marks).map(|(call, mark)| (call, Ok(mark)));
    check(recorder, [(take(1), Ok(2))].into_iter().chain(found).chain([(open(1), Ok(2))]));
}

fn issue(server: u64, client_mark: u64, byte: u8) -> Call {
    let request = Request { client_mark, header: 9, data: vec![byte], ..Request::default() };
    Call::Issue { server, request }
}

/// States that are handed in.
pub fn replay(recorder: &mut Recorder) {
    // The starting mark is above issued − 8, at it, and below it; then one ID is above it, and none.
    for starting in [6, 5, 4, 3, 0, ISSUED - 1, ISSUED, ISSUED + 1] {
        window(recorder, starting);
    }
    unfit(recorder);
    around_eight(recorder);
    below_the_starting_mark(recorder);
    left_or_zeroed(recorder);
}

fn state(starting: u64, acknowledged: u64, mark: u64) -> InFlight {
    InFlight { starting, issued: ISSUED, acknowledged, mark }
}

/// A send to a member at each mark from 0 to some above issued. Where it is not declined, the member
/// then stands at the next mark.
fn window(recorder: &mut Recorder, starting: u64) {
    let first = starting.max(ISSUED - HELD as u64).min(ISSUED);
    let scene = state(starting, first, first).send();
    for mark in (0..first).chain(ISSUED..=ISSUED + 2) {
        let mut scene = scene.clone();
        scene.cluster.records.servers[SERVER].marks[REPLICA] = mark;
        try_scene(recorder, scene);
    }
    recorder.hand_in(scene.cluster);
    for _ in first..=ISSUED {
        let _ = recorder.call(&scene.call);
    }
}

/// What is held is written as it is: a record of another ID, one whose check fails, zeros. The mark
/// stays, and the same is sent again.
fn unfit(recorder: &mut Recorder) {
    let mut spoilt = record_bytes(7);
    spoilt[40] ^= 1;
    for held in [record_bytes(8), spoilt, WIPED] {
        let mut scene = state(4, 6, 6).send();
        scene.cluster.records.servers[SERVER].held[2] = held;
        let again = scene.call.clone();
        try_scene(recorder, scene);
        recorder.call(&again).expect("the mark stays");
    }
}

/// As many unacknowledged as are allowed, one more and two more; and more acknowledged than issued. Where
/// issue is granted, a send shows what moved to the first index.
fn around_eight(recorder: &mut Recorder) {
    for acknowledged in [5, 4, 3, ISSUED, ISSUED + 1] {
        let scene = state(2, acknowledged, 5).issue();
        let granted = acknowledged + HELD as u64 > ISSUED;
        try_scene(recorder, scene);
        if granted {
            recorder.call(&send(SERVER as u64, REPLICA as u64)).expect("ID 6 is held");
        }
    }
}

/// Issued below the starting mark: two issues shift and append all the same; the second ID is above
/// that mark.
fn below_the_starting_mark(recorder: &mut Recorder) {
    let Scene { cluster, call, .. } = state(ISSUED + 1, ISSUED, ISSUED).issue();
    recorder.hand_in(cluster);
    recorder.call(&call).expect("one of eight");
    recorder.call(&call).expect("two of eight");
    let send = send(SERVER as u64, REPLICA as u64);
    recorder.call(&send).expect_err("the starting mark's ID");
    let mut cluster = recorder.cluster().clone();
    let next = InFlight { mark: ISSUED + 1, ..state(0, 0, 0) }.cluster();
    cluster.media = next.media;
    cluster.records.servers[SERVER].marks[REPLICA] = ISSUED + 1;
    recorder.hand_in(cluster);
    recorder.call(&send).expect("the newest");
    recorder.call(&send).expect_err("nothing above it");
}

/// Eight records that are handed in: open leaves them, and issue shifts them; take and stop, and a
/// register that is silent, leave zeros.
fn left_or_zeroed(recorder: &mut Recorder) {
    let wanted = [Kind::Open, Kind::Take, Kind::Stop];
    for mut scene in all_scenes().into_iter().filter(|scene| wanted.contains(&scene.kind)) {
        scene.cluster.records.servers[SERVER].held = held_up_to(ISSUED);
        try_scene(recorder, scene.clone());
        if recorder.cluster().records.servers[SERVER].phase == Phase::Open {
            let mut request = state(0, 0, 0).issue();
            request.request().client_mark = 4;
            recorder.call(&request.call).expect("nothing is in flight");
        }
        if scene.kind != Kind::Stop {
            scene.set_message(Message::new(Fate::AnswerLost));
            try_scene(recorder, scene);
        }
    }
}
