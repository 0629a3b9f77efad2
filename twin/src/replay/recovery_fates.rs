//! Recoveries whose messages have other fates than answered: each at each call, torn bytes that pass, and
//! lists of fates of every length.

use super::recorder::Recorder;
use super::recoveries::{recover, rewind, rewound};
use crate::cluster::{Closing, Entry};
use crate::fate::{Fate, Left};
use crate::medium::{put, PlaceBytes, Slot, PLACE_BYTES, WIPED};
use crate::tries::recoveries::{Recovery, MOST_FATES};
use crate::tries::recovery_rows::{cluster, outcome, MARKS, SHAPE};
use crate::tries::scene::record_bytes;

const LISTED: [u64; 3] = [2, 0, 1];

/// How many calls a recovery with that list makes where every message is answered.
const CALLS: usize = 8;

const LEFT: [Left; 3] = [Left::Old, Left::New, Left::Torn];

pub fn replay(recorder: &mut Recorder) {
    recorder.hand_in(cluster());
    (0..CALLS).for_each(|index| at_each_call(recorder, index));
    torn_bytes(recorder);
    lengths(recorder);
    far_writes(recorder);
    truncations(recorder);
}

/// Every fate at this call, which makes one write at most. Where it leaves a write undone or an answer unheard,
/// another recovery follows.
fn at_each_call(recorder: &mut Recorder, index: usize) {
    for fate in fates(2) {
        rewind(recorder, &MARKS);
        with_one(recorder, 1, index, fate);
        if matches!(fate, Fate::Lost | Fate::AnswerLost | Fate::Cut(1, _)) {
            recover(recorder, 2, &[0, 1, 2], &[]);
        }
    }
}

/// Every fate, cut at each write from 0 to this one.
fn fates(writes: u64) -> impl Iterator<Item = Fate> {
    let cuts = (0..=writes).flat_map(|write| LEFT.map(|left| Fate::Cut(write, left)));
    [Fate::Answered, Fate::Lost, Fate::AnswerLost].into_iter().chain(cuts)
}

/// A recovery in which one message has this fate.
fn with_one(recorder: &mut Recorder, server: u64, index: usize, fate: Fate) {
    let mut fates = vec![Fate::Answered; index];
    fates.push(fate);
    let recovery = Recovery::new(server, &LISTED, &fates);
    let _ = recorder.recover(&recovery.with_bytes(index, [0x5A; PLACE_BYTES]));
}

/// Bytes that pass as a slot, as the first place and as the last.
fn passing() -> [PlaceBytes; 3] {
    let mut slot = WIPED;
    put(&mut slot, 0, &Slot { promise: 7, low: 0, local: 0 }.encode());
    [slot, record_bytes(1), record_bytes(SHAPE.places)]
}

/// Two writes, one after the other, are to be torn, and the bytes of one of them pass: this one's message is
/// declined by 6 and the other's is silent. So too where the bytes that pass are of a fate that is not cut, or
/// of one that is left over; and where they pass as the place behind the last, as nothing, both are silent.
fn torn_bytes(recorder: &mut Recorder) {
    let [slot, first, last] = passing();
    for (at, bytes) in (1..=5).zip([slot, first, last, slot, first]) {
        tear(recorder, [at, at + 1], at, bytes);
    }
    for (at, bytes) in (1..=5).zip([first, last, slot, first, last]) {
        tear(recorder, [at, at + 1], at + 1, bytes);
    }
    for (places, at) in [([1, 4], 0), ([1, 4], 2), ([2, 5], 7), ([3, 6], 12), ([0, 1], 1)] {
        tear(recorder, places, at, slot);
    }
    for (places, at) in [([1, 4], 1), ([2, 5], 5)] {
        tear(recorder, places, at, record_bytes(SHAPE.places + 1));
    }
    // The bytes of the last fate that a line may have; then they lie behind those that are lent.
    tear(recorder, [1, 3], MOST_FATES - 1, last);
    rewind(recorder, &MARKS);
    let fates = [Fate::Answered, Fate::Cut(1, Left::Torn)];
    let recovery = Recovery::new(3, &LISTED, &fates).with_bytes(MOST_FATES - 1, last);
    assert_eq!(outcome(recorder.recover(&recovery)), "ok 3, 6");
}

/// A recovery with two writes to be torn; one fate has given bytes that are not zeros.
fn tear(recorder: &mut Recorder, places: [usize; 2], at: usize, bytes: PlaceBytes) {
    rewind(recorder, &MARKS);
    let mut fates = vec![Fate::Answered; (places[1] + 1).max(at + 1)];
    places.iter().for_each(|&place| fates[place] = Fate::Cut(1, Left::Torn));
    let _ = recorder.recover(&Recovery::new(3, &LISTED, &fates).with_bytes(at, bytes));
}

/// As many fates as calls, one less, one more and as many as a line may have. What is left over is not read,
/// though a message that had it would be declined by 6.
fn lengths(recorder: &mut Recorder) {
    let unfit = Fate::Cut(0, Left::Torn);
    for (count, rest) in [(7, 0), (8, 0), (8, 1), (9, 0), (8, MOST_FATES - 8), (MOST_FATES, 0)] {
        rewind(recorder, &MARKS);
        let fates = [vec![Fate::Answered; count], vec![unfit; rest]].concat();
        assert_eq!(recover(recorder, 1, &LISTED, &fates), "ok 3, 8");
    }
    rewind(recorder, &MARKS);
    assert_eq!(recover(recorder, 1, &LISTED, &[Fate::Lost, unfit, Fate::Lost]), "silent, 1");
}

/// Writes far beyond those that are made, up to the greatest code.
fn far_writes(recorder: &mut Recorder) {
    for code in [9, 60, 1 << 32, 1 << 63, u64::MAX - 2, u64::MAX - 1, u64::MAX] {
        rewind(recorder, &MARKS);
        with_one(recorder, 2, 2 + code as usize % 2 * 2, Fate::of_code(code));
    }
}

/// The prepare that promises and then wipes two places, under every fate, cut at each write and behind the
/// last. Another recovery follows.
fn truncations(recorder: &mut Recorder) {
    for fate in fates(4) {
        let mut cluster = rewound(recorder, &[1, 1, 2]);
        cluster.records.register.entries[2] = Entry { session: 1, closing: Closing::Mark(0) };
        recorder.hand_in(cluster);
        with_one(recorder, 2, 1, fate);
        recover(recorder, 3, &[0, 2, 1], &[]);
    }
}
