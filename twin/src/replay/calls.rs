//! Calls whose messages are answered, for the lists that are written out call by call.

use super::recorder::Recorder;
use crate::cluster::{Answer, Call, Message};
use crate::fate::Fate;
use crate::medium::PlaceBytes;
use crate::segment::Pair;
use crate::tries::exports::exact_lengths;
use crate::tries::imports::STAMP;
use crate::tries::scene::UNWRITTEN;

/// Makes a call that answers a number: the value, or the number that declines it.
pub fn number(recorder: &mut Recorder, call: &Call) -> Result<u64, u64> {
    match recorder.call(call) {
        Ok(Answer::Number(value)) => Ok(value),
        Ok(other) => panic!("{call:?}: {other:?}"),
        Err(refusal) => Err(refusal.number()),
    }
}

/// Each call with its reply, as `number` has it.
pub fn check(recorder: &mut Recorder, calls: impl IntoIterator<Item = (Call, Result<u64, u64>)>) {
    for (call, reply) in calls {
        assert_eq!(number(recorder, &call), reply, "{call:?}");
    }
}

pub fn message() -> Message {
    Message::new(Fate::Answered)
}

pub fn take(server: u64) -> Call {
    Call::Take { server, fate: Fate::Answered }
}

pub fn prepare(server: u64, replica: u64) -> Call {
    Call::Prepare { server, replica, message: message() }
}

pub fn copy(server: u64, from: u64, to: u64) -> Call {
    Call::Copy { server, from, to, message: message() }
}

pub fn open(server: u64) -> Call {
    Call::Open { server, fate: Fate::Answered }
}

pub fn send(server: u64, replica: u64) -> Call {
    Call::Send { server, replica, message: message() }
}

/// Server 0 opens session 1 with three empty replicas.
pub fn open_all(recorder: &mut Recorder) {
    assert_eq!(number(recorder, &take(0)), Ok(1));
    for replica in 0..3 {
        assert_eq!(number(recorder, &prepare(0, replica)), Ok(0));
    }
    assert_eq!(number(recorder, &open(0)), Ok(0));
}

/// These are read from the replica, and exported.
pub fn look(recorder: &mut Recorder, server: u64, replica: u64, records: &[PlaceBytes]) {
    for (id, record) in (1..).zip(records) {
        let read = Call::Read { server, replica, id, message: message() };
        assert_eq!(recorder.call(&read), Ok(Answer::Bytes(*record)));
    }
    let lengths = exact_lengths(recorder.cluster(), server, replica);
    let files = Pair::filled(lengths, UNWRITTEN);
    let export = Call::Export { server, replica, stamp: STAMP, files, message: message() };
    assert_eq!(recorder.call(&export), Ok(Answer::Nothing));
}
