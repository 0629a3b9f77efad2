//! Longer sequences and the places that hold them (document 02, No. 7): a list call by call, places that
//! are near valid ones, and given bytes that pass as a place of the old layout alone.

use super::calls::{check, copy, message, open, prepare, send, take};
use super::recorder::Recorder;
use super::scenes::try_scene;
use crate::cluster::{Answer, Call, Message, Request, Shape};
use crate::fate::{Fate, Left};
use crate::medium::{place_at, put, PlaceBytes, Record};
use crate::old;
use crate::segment::Pair;
use crate::tries::exports::exact_lengths;
use crate::tries::imports::STAMP;
use crate::tries::records::SEQUENCES;
use crate::tries::scene::{record_bytes, Kind, Scene, PLACES, REPLICA, SERVER, SESSION, UNWRITTEN};
use crate::tries::unfit::{old_places, unfit_places, zeros_not_zero};

/// A record for each sequence is stored on two replicas and read from both; the next session finds all of
/// them, copies them to the third and exports them from there.
pub fn list(recorder: &mut Recorder) {
    let places = SEQUENCES.len() as u64;
    recorder.fresh(Shape::whole(3, places));
    open_with(recorder, 0, [0, 1], 0);
    for (id, sequence) in (1..).zip(SEQUENCES) {
        let stored = [(issue(0, sequence), Ok(id)), (send(0, 0), Ok(id - 1)), (send(0, 1), Ok(id))];
        check(recorder, stored);
        look(recorder, 0, 1, id);
    }
    check(recorder, [(take(1), Ok(2)), (prepare(1, 2), Ok(0)), (prepare(1, 1), Ok(places))]);
    check(recorder, (1..=places).map(|id| (copy(1, 1, 2), Ok(id))));
    check(recorder, [(open(1), Ok(places))]);
    (1..=places).for_each(|id| look(recorder, 1, 2, id));
    let files = Pair::filled(exact_lengths(recorder.cluster(), 1, 2), UNWRITTEN);
    let export = Call::Export { server: 1, replica: 2, stamp: STAMP, files, message: message() };
    assert_eq!(recorder.call(&export), Ok(Answer::Nothing));
    long_data(recorder);
}

/// The server opens the next session with these replicas, which all hold this mark.
fn open_with(recorder: &mut Recorder, server: u64, replicas: [u64; 2], mark: u64) {
    let session = recorder.cluster().records.register.session + 1;
    check(recorder, [(take(server), Ok(session))]);
    check(recorder, replicas.map(|replica| (prepare(server, replica), Ok(mark))));
    check(recorder, [(open(server), Ok(mark))]);
}

fn request(sequence: u64) -> Request {
    let (client, partition, header, data) = (258, 5, 9, b"ABCD".to_vec());
    Request { client, partition, sequence, header, data, ..Request::default() }
}

fn issue(server: u64, sequence: u64) -> Call {
    Call::Issue { server, request: request(sequence) }
}

/// The record is read back with its whole sequence.
fn look(recorder: &mut Recorder, server: u64, replica: u64, id: u64) {
    let read = Call::Read { server, replica, id, message: message() };
    let Ok(Answer::Bytes(bytes)) = recorder.call(&read) else {
        panic!("ID {id} is acknowledged");
    };
    let record = Record::decode(id, &bytes).expect("a valid place");
    assert_eq!(record.sequence, SEQUENCES[id as usize - 1]);
}

/// As much data as a line may have, which is a place's size and more than any client may send.
fn long_data(recorder: &mut Recorder) {
    recorder.fresh(Shape::whole(3, 4));
    open_with(recorder, 0, [0, 1], 0);
    let request = Request { data: vec![0x5A; 72], ..request(u64::MAX) };
    check(recorder, [(Call::Issue { server: 0, request }, Err(12))]);
}

/// What is worth trying of one call: places near valid ones on the medium that it reads, and given bytes
/// near a place, which a torn write may leave; and media of the old length.
pub fn replay(recorder: &mut Recorder, scene: &Scene) {
    if matches!(scene.kind, Kind::Prepare | Kind::Read) {
        unfit_places(3).into_iter().for_each(|bytes| with_place(recorder, scene, 3, bytes));
    }
    if matches!(scene.kind, Kind::Prepare | Kind::OpenCopy | Kind::Trim | Kind::Send | Kind::Note) {
        near_places(scene).into_iter().for_each(|given| torn(recorder, scene, given));
    }
    if matches!(scene.kind, Kind::Read | Kind::Reassign) {
        old_length(recorder, scene);
    }
}

fn with_place(recorder: &mut Recorder, scene: &Scene, number: u64, bytes: PlaceBytes) {
    let mut scene = scene.clone();
    put(scene.medium(), place_at(number), &bytes);
    try_scene(recorder, scene);
}

/// Valid old places, of the number that is written and of the last, and one whose zeros are not zero: they
/// pass as no place, so that 6 does not speak of them. It declines the last of these, which is a valid
/// place.
fn near_places(scene: &Scene) -> Vec<PlaceBytes> {
    let written = if scene.kind == Kind::Trim { 6 } else { 4 };
    let [old, old_other, old_sealed, ..] = old_places(written);
    let [.., old_bare] = old_places(PLACES);
    let [zeros, ..] = zeros_not_zero(record_bytes(written));
    vec![old, old_other, old_sealed, old_bare, zeros, record_bytes(written)]
}

/// The first write leaves the given bytes; a prepare behind it finds no place there.
fn torn(recorder: &mut Recorder, scene: &Scene, given: PlaceBytes) {
    let mut scene = scene.clone();
    scene.set_message(Message { fate: Fate::Cut(1, Left::Torn), given });
    recorder.hand_in(scene.cluster);
    if recorder.call(&scene.call).is_err() {
        return;
    }
    let replica = REPLICA as u64;
    match scene.kind {
        Kind::Trim => check(recorder, [(prepare(SERVER as u64, replica), Ok(5))]),
        Kind::Send => check(recorder, [(take(2), Ok(SESSION + 1)), (prepare(2, replica), Ok(3))]),
        _ => {}
    }
}

/// Media of the length that the old layout had.
fn old_length(recorder: &mut Recorder, scene: &Scene) {
    let mut scene = scene.clone();
    scene.cluster.media.truncate(3 * old::medium_bytes(PLACES as usize));
    try_scene(recorder, scene);
}

/// Lines of the old lengths, a sequence beyond 64 bits and other numbers beyond 32, data beyond a place's
/// size.
pub fn bad_lines(recorder: &mut Recorder) {
    let old = "5A".repeat(64);
    for word in ["given", "held\t0\t7"] {
        recorder.bad(&format!("{word}\t{old}"));
        recorder.bad(&format!("{word}\t{}", "5A".repeat(71)));
        recorder.bad(&format!("{word}\t{}", "5A".repeat(73)));
    }
    recorder.bad(&format!("data\t{}", "5A".repeat(73)));
    for numbers in [
        "0\t0\t0\t0\t0\t18446744073709551616\t0",
        "0\t0\t4294967296\t0\t0\t0\t0",
        "0\t0\t0\t4294967296\t0\t0\t0",
        "0\t0\t0\t0\t4294967296\t0\t0",
        "0\t0\t0\t0\t0\t0\t4294967296",
        "0\t0\t0\t0\t0\t0",
    ] {
        recorder.bad(&format!("issue\t{numbers}"));
    }
}
