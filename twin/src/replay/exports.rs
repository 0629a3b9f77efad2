//! Exports from fresh clusters: of an empty log, of a full one, and by two servers.

use super::recorder::Recorder;
use crate::cluster::{Call, Message, Request, Shape};
use crate::fate::Fate;
use crate::medium::DATA_LIMIT;
use crate::segment::{Pair, FRAME_BYTES, HEADER_BYTES, OFFSET_BYTES};
use crate::tries::imports::STAMP;
use crate::tries::scene::UNWRITTEN;

/// The lengths of the files of so many records with so much data each.
pub fn lengths(records: usize, data: usize) -> [usize; 2] {
    let file = |each: usize| HEADER_BYTES + records * each;
    [file(FRAME_BYTES + data), file(OFFSET_BYTES)]
}

fn export(server: u64, replica: u64, lengths: [usize; 2], fate: Fate) -> Call {
    let files = Pair::filled(lengths, UNWRITTEN);
    Call::Export { server, replica, stamp: STAMP, files, message: Message::new(fate) }
}

/// An empty log, one record, and wrong lengths under two fates: answered they are declined, and
/// otherwise the member is dropped. Then another server takes over; the old one is heard no more.
pub fn list(recorder: &mut Recorder) {
    recorder.fresh(Shape::whole(3, 4));
    open(recorder, 0, 2);
    recorder.call(&export(0, 0, lengths(0, 0), Fate::Answered)).expect("an empty log");
    book(recorder, 0, 2, vec![0x41, 0x42, 0x43, 0x44]);
    let [data, index] = lengths(1, 4);
    recorder.call(&export(0, 0, [data, index], Fate::Answered)).expect("exact lengths");
    recorder.call(&export(0, 0, [data - 1, index], Fate::Answered)).expect_err("a byte short");
    recorder.call(&export(0, 0, [data - 1, index], Fate::AnswerLost)).expect("silent");
    recorder.call(&export(0, 0, [data, index], Fate::Answered)).expect_err("dropped");
    recorder.call(&export(0, 1, [data, index], Fate::Answered)).expect("the other member");
    open(recorder, 1, 2);
    recorder.call(&export(0, 1, [data, index], Fate::Answered)).expect_err("another promise");
    recorder.call(&export(1, 1, [data, index], Fate::Answered)).expect("the new server");
    recorder.call(&export(0, 1, [data, index], Fate::Lost)).expect("silent");
    full_log(recorder);
}

/// A full log with as much data as there can be.
fn full_log(recorder: &mut Recorder) {
    const PLACES: usize = 14;
    recorder.fresh(Shape::whole(1, PLACES as u64));
    open(recorder, 0, 1);
    for id in 1..=PLACES {
        let data = (0..DATA_LIMIT).map(|at| (17 * id + at) as u8).collect();
        book(recorder, 0, 1, data);
    }
    let exact = lengths(PLACES, DATA_LIMIT);
    recorder.call(&export(0, 0, exact, Fate::Answered)).expect("exact lengths");
    recorder.call(&export(0, 0, [1200, 300], Fate::Answered)).expect_err("too long");
    recorder.call(&export(0, 0, exact, Fate::AnswerLost)).expect("silent");
}

/// The server opens the next session with so many replicas, from replica 0 on.
fn open(recorder: &mut Recorder, server: u64, replicas: u64) {
    let (fate, message) = (Fate::Answered, Message::new(Fate::Answered));
    recorder.call(&Call::Take { server, fate }).expect("an idle server");
    for replica in 0..replicas {
        recorder.call(&Call::Prepare { server, replica, message }).expect("a replica");
    }
    recorder.call(&Call::Open { server, fate }).expect("the mark is decided");
}

/// A record of partition 5, whose sequence 32 bits do not hold, sent to so many replicas.
fn book(recorder: &mut Recorder, server: u64, replicas: u64, data: Vec<u8>) {
    let (client, partition, sequence, header) = (258, 5, (1 << 32) + 77, 9);
    let request = Request { client, partition, sequence, header, data, ..Request::default() };
    recorder.call(&Call::Issue { server, request }).expect("nothing stands in the way");
    for replica in 0..replicas {
        let send = Call::Send { server, replica, message: Message::new(Fate::Answered) };
        recorder.call(&send).expect("the replica lacks it");
    }
}
