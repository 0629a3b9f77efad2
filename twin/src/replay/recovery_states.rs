//! Recoveries on states that are handed in: valid places above a mark, damaged slots, promises above the
//! session, numbers at their tops, closing marks, records that are not zeros; and what the driver declines.

use super::recorder::Recorder;
use super::recoveries::{recover, rewound, row};
use crate::cluster::{Closing, Phase, Records, Shape, Standing};
use crate::fate::{Fate, Left};
use crate::medium::SLOT_BYTES;
use crate::tries::recovery_faults::{faults, sound, with_faults, Fault, Try, OWN};
use crate::tries::recovery_rows::SHAPE;
use crate::tries::scene::{held_up_to, set_place, set_promise};

pub fn replay(recorder: &mut Recorder) {
    declined(recorder);
    recorder.fresh(SHAPE);
    jumps(recorder);
    several_jumps(recorder);
    slots(recorder);
    promises(recorder);
    closing_marks(recorder);
    any_records(recorder);
    ends(recorder);
    tops(recorder);
    small(recorder);
}

/// Each fault alone, two of each pair of numbers, and of 4 and 29 more pairs: the first number is given.
fn declined(recorder: &mut Recorder) {
    let (sound, faults) = (sound(), faults());
    let of = |number: u64| faults.iter().filter(move |fault| fault.number == number);
    for fault in &faults {
        decline(recorder, with_faults(&sound, &[fault]), fault.number);
    }
    for (at, &first) in OWN.iter().enumerate() {
        for &second in &OWN[at + 1..] {
            let pair =
                [of(first).next_back(), of(second).next()].map(|fault| fault.expect("a fault"));
            decline(recorder, with_faults(&sound, &pair), first);
        }
    }
    let lists: Vec<&Fault> = of(29).collect();
    for (four, list) in of(4).take(2).flat_map(|four| lists.iter().map(move |it| (four, *it))) {
        decline(recorder, with_faults(&sound, &[four, list]), 4);
    }
}

fn decline(recorder: &mut Recorder, Try { cluster, recovery }: Try, number: u64) {
    recorder.hand_in(cluster);
    let (reply, count) = recorder.recover(&recovery);
    assert_eq!((reply.map_err(|refusal| refusal.number()), count), (Err(number), 0));
}

/// Replica 0 holds 3, 1 and 2 hold less, and behind a gap replica 1 has more: a copy joins it. The mark then is
/// below the highest, at it or above it.
fn jumps(recorder: &mut Recorder) {
    let joined: [&[u64]; 5] = [&[3], &[4], &[3, 4], &[3, 4, 5, 6], &[4, 6]];
    for above in joined {
        for listed in [[0, 1, 2].as_slice(), &[1, 0]] {
            let mut cluster = rewound(recorder, &[3, 1, 0]);
            above.iter().for_each(|&id| set_place(cluster.medium_mut(1), id));
            recorder.hand_in(cluster);
            recover(recorder, 1, listed, &[]);
        }
    }
}

/// The source has more behind a gap too; two replicas end above the highest mark, or one below it.
fn several_jumps(recorder: &mut Recorder) {
    for text in [
        "drive 3 [1,2,0] [] → no 9, 7",
        "drive 3 [0,2] [] → no 8, 5",
        "drive 3 [2,0,1] [0,0,0,0,0, c 0 old] → no 9, 7",
        "drive 3 [1,0] [0,0,0, c 1 old] → no 8, 5",
    ] {
        let mut cluster = rewound(recorder, &[2, 1, 1]);
        for (replica, id) in [(0, 4), (1, 3), (1, 4), (2, 3)] {
            set_place(cluster.medium_mut(replica), id);
        }
        recorder.hand_in(cluster);
        row(recorder, text);
        recover(recorder, 2, &[0, 1, 2], &[]);
    }
}

/// No valid slot on some replicas, and one on each.
fn slots(recorder: &mut Recorder) {
    for damaged in [[0].as_slice(), &[1], &[2], &[0, 2], &[0, 1, 2]] {
        let mut cluster = rewound(recorder, &[1, 2, 2]);
        for at in damaged.iter().flat_map(|&replica| [(replica, 0), (replica, SLOT_BYTES)]) {
            cluster.medium_mut(at.0)[at.1] ^= 1;
        }
        recorder.hand_in(cluster);
        recover(recorder, 1, &[0, 1, 2], &[]);
    }
    for at in [0, SLOT_BYTES] {
        let mut cluster = rewound(recorder, &[2, 1, 2]);
        (0..3).for_each(|replica| cluster.medium_mut(replica)[at] ^= 1);
        recorder.hand_in(cluster);
        row(recorder, "drive 0 [1,2] [] → ok 2, 5");
    }
}

/// One above the session, at its top, and just that of the session to come: then no slot is written, so that
/// the first write of a prepare that truncates is a wipe.
fn promises(recorder: &mut Recorder) {
    for (above, end) in [([1].as_slice(), "ok 1, 5"), (&[1, 2], "no 8, 5"), (&[0], "ok 3, 7")] {
        for more in [2, u64::MAX] {
            let mut cluster = rewound(recorder, &[1, 3, 1]);
            let promise = cluster.records.register.session.saturating_add(more);
            above.iter().for_each(|&replica| set_promise(cluster.medium_mut(replica), promise));
            recorder.hand_in(cluster);
            assert_eq!(recover(recorder, 1, &[0, 1, 2], &[]), end, "{above:?}");
        }
    }
    let cuts = [Left::Old, Left::New, Left::Torn].map(|left| Fate::Cut(1, left));
    for fate in [Fate::Answered, Fate::AnswerLost].into_iter().chain(cuts) {
        let mut cluster = rewound(recorder, &[2, 3, 1]);
        let promise = cluster.records.register.session + 1;
        set_promise(cluster.medium_mut(1), promise);
        cluster.records.register.entries[1].closing = Closing::Mark(1);
        recorder.hand_in(cluster);
        recover(recorder, 1, &[0, 1, 2], &[Fate::Answered, Fate::Answered, fate]);
        recover(recorder, 2, &[2, 1, 0], &[]);
    }
}

/// Of each replica: at its mark, below it and above it; and of all.
fn closing_marks(recorder: &mut Recorder) {
    let rows = [
        ([Some(0), None, None], "drive 1 [0,1,2] [] → ok 4, 12"),
        ([None, Some(2), None], "drive 1 [0,1,2] [] → ok 2, 6"),
        ([None, Some(0), None], "drive 1 [2,1,0] [] → ok 2, 8"),
        ([Some(2), Some(4), Some(1)], "drive 1 [1,2,0] [] → ok 4, 10"),
        ([Some(6), Some(6), Some(6)], "drive 1 [1,0] [] → ok 4, 6"),
        ([Some(1), Some(1), Some(1)], "drive 1 [1,0,2] [] → ok 1, 5"),
        ([Some(0), Some(0), Some(0)], "drive 1 [1,0,2] [] → ok 0, 5"),
    ];
    for (closing, text) in rows {
        let mut cluster = rewound(recorder, &[2, 4, 1]);
        for (entry, closing) in cluster.records.register.entries.iter_mut().zip(closing) {
            entry.closing = closing.map_or(Closing::Unresolved, Closing::Mark);
        }
        recorder.hand_in(cluster);
        row(recorder, text);
    }
}

/// An idle server whose record is not zeros, others that are busy with marks of their own, and numbers from R
/// up, which are never read.
fn any_records(recorder: &mut Recorder) {
    let mut cluster = rewound(recorder, &[0, 2, 1]);
    let Records { register, servers } = &mut cluster.records;
    register.entries[3].closing = Closing::Mark(u64::MAX);
    for (server, phase) in servers.iter_mut().zip([Phase::Open, Phase::Idle, Phase::Opening]) {
        (server.phase, server.session, server.generation) = (phase, register.session, 3);
        server.entries[1].closing = Closing::Mark(0);
        server.standings.fill(Standing::In);
        server.marks = [6, 5, 4, u64::MAX, 0, 1, u64::MAX];
        (server.starting, server.issued, server.acknowledged) = (1, 6, 2);
    }
    servers[1].held = held_up_to(6);
    cluster.locks.fill(9);
    recorder.hand_in(cluster);
    row(recorder, "drive 0 [0,1,2] [] → no 5, 0");
    row(recorder, "drive 2 [0,1,2] [] → no 5, 0");
    row(recorder, "drive 1 [0,2] [0,1] → no 8, 4");
    row(recorder, "drive 3 [0,2,1] [] → ok 2, 8");
}

/// Nothing to copy, and as much as there can be.
fn ends(recorder: &mut Recorder) {
    for (marks, text) in [
        ([0, 0, 0], "drive 2 [1,0,2] [] → ok 0, 5"),
        ([0, 6, 0], "drive 2 [2,0,1] [] → ok 6, 17"),
        ([6, 6, 6], "drive 2 [1,0,2] [] → ok 6, 5"),
    ] {
        let cluster = rewound(recorder, &marks);
        recorder.hand_in(cluster);
        row(recorder, text);
    }
}

/// The session cannot be raised, which is seen only if the take is answered; or just once more.
fn tops(recorder: &mut Recorder) {
    let mut cluster = rewound(recorder, &[1, 2, 0]);
    cluster.records.register.session = u64::MAX;
    for text in [
        "drive 1 [0,1,2] [] → no 21, 1",
        "drive 1 [0,1,2] [0,1] → no 21, 1",
        "drive 1 [0,1,2] [1] → silent, 1",
        "drive 1 [0,1,2] [2] → silent, 1",
        "drive 1 [0,1,2] [c 1 old] → no 6, 1",
        "drive 1 [1,1] [] → no 29, 0",
    ] {
        recorder.hand_in(cluster.clone());
        row(recorder, text);
    }
    cluster.records.register.session = u64::MAX - 1;
    cluster.records.register.generation = u32::MAX;
    recorder.hand_in(cluster);
    row(recorder, "drive 1 [0,1,2] [] → ok 2, 8");
    row(recorder, "drive 2 [0,1,2] [] → no 21, 1");
}

/// One replica, one place or two.
fn small(recorder: &mut Recorder) {
    for places in [1, 2] {
        recorder.fresh(Shape { replicas: 1, places, interval: 1 });
        row(recorder, "drive 3 [0] [] → ok 0, 3");
        row(recorder, "drive 2 [0] [0,0,2] → silent, 3");
        row(recorder, "drive 2 [0] [0,1] → no 8, 3");
        row(recorder, "drive 1 [1] [] → no 4, 0");
    }
}
