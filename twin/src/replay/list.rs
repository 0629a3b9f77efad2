//! The list of states and calls of a run.

use super::recorder::Recorder;
use super::{
    exports, header_zero, in_flight, limits, locks, random_states, recoveries, recovery_fates,
    recovery_lists, recovery_states, restore_states, restores, scenes, sequences, Run,
};
use crate::cluster::{Call, Cluster, Shape};
use crate::fate::Fate;
use crate::hex;
use crate::random::Random;
use crate::tries::caller::Caller;
use crate::tries::headers::with_headers;
use crate::tries::recoveries::draw_recovery;
use crate::tries::restores::draw_restorable;
use crate::tries::scene::record_bytes;
use crate::tries::useful;

/// R, N and K of the fresh clusters.
const SHAPES: [(u64, u64, u64); 12] = [
    (1, 3, 2),
    (3, 1, 1),
    (3, 4, 2),
    (5, 2, 1),
    (3, 14, 1),
    (7, 3, 3),
    (5, 6, 2),
    (1, 14, 2),
    (3, 14, 14),
    (3, 13, 9),
    (5, 12, 12),
    (7, 14, 10),
];

/// Lists of calls from a fresh cluster of each shape.
const LISTS: u64 = 3;

/// One take in this many is that of a recovery.
const RECOVERIES: u64 = 5;

/// Before one call in this many a medium is kept or restored.
const RESTORES: u64 = 9;

pub fn replay(random: &mut Random) -> Run {
    let mut recorder = Recorder::new();
    bad_lines(&mut recorder);
    recoveries::bad_lines(&mut recorder);
    restores::bad_lines(&mut recorder);
    any_interval(&mut recorder);
    locks::list(&mut recorder);
    exports::list(&mut recorder);
    in_flight::list(&mut recorder);
    limits::list(&mut recorder);
    sequences::list(&mut recorder);
    header_zero::list(&mut recorder);
    recoveries::list(&mut recorder);
    recovery_fates::replay(&mut recorder);
    recovery_lists::replay(&mut recorder, random);
    recovery_states::replay(&mut recorder);
    restores::list(&mut recorder);
    restore_states::replay(&mut recorder, random);
    limits::replay(&mut recorder);
    scenes::replay(&mut recorder, random);
    in_flight::replay(&mut recorder);
    for number in 0..LISTS {
        for (replicas, places, interval) in SHAPES {
            let shape = Shape { replicas, places, interval };
            list(&mut recorder, random, shape, number == 0);
        }
    }
    random_states::replay(&mut recorder, random);
    recorder.finish()
}

/// Calls before anything is handed in, and lines that fit no form.
fn bad_lines(recorder: &mut Recorder) {
    recorder.call(&Call::Reassign).expect_err("no shape yet");
    let lines = [
        "",
        "stop",
        "stop\t0\t0",
        "stop\t18446744073709551616",
        "take\t0\t4\t0\t0",
        "take\t0\t3\t1\t3",
        "register\t1\t4294967296",
        "entry\t7\t1\t0\t0",
        "server\t4\t0\t0\t0\t0\t0\t0",
        "given\t00",
        "data\tA",
        "lend\t8009\t4096",
        "fresh\t3\t4",
        "fresh\t3\t4\t4\t4",
        "shape\t3\t4",
        "shape\t3\t4\t4\t4",
        "shape\t3\t4\t18446744073709551616",
        "Stop\t0",
        "export\t0\t0\t0\t0\t0\t7\t128\t128",
        "export\t0\t0\t0\t0\t0\t7\t128\t00112233445566778899AABBCCDDEEFF",
        "export\t0\t0\t0\t0\t0\t7\t128\t128\t00112233445566778899AABBCCDDEE",
        "export\t0\t0\t0\t0\t0\t7\t128\t128\t00112233445566778899AABBCCDDEEF",
        "export\t0\t0\t0\t0\t0\t7\t128\t128\t00112233445566778899AABBCCDDEEFF00",
        "export\t0\t0\t0\t0\t0\t7\t128\t128\t00112233445566778899AABBCCDDEEFG",
        "export\t0\t0\t0\t0\t0\t7\t128\t128\t00112233445566778899AABBCCDDEEFF\t0",
        "export\t0\t0\t0\t0\t0\t7\t1201\t128\t00112233445566778899AABBCCDDEEFF",
        "export\t0\t0\t0\t0\t0\t7\t128\t301\t00112233445566778899AABBCCDDEEFF",
        "export\t0\t0\t0\t0\t0\t18446744073709551616\t128\t128\t00112233445566778899AABBCCDDEEFF",
        "export\t0\t0\t4\t0\t0\t7\t128\t128\t00112233445566778899AABBCCDDEEFF",
        "export\t0\t0\t3\t1\t3\t7\t128\t128\t00112233445566778899AABBCCDDEEFF",
    ];
    lines.iter().for_each(|line| recorder.bad(line));
    bad_held_lines(recorder);
    sequences::bad_lines(recorder);
    recorder.call(&Call::Reassign).expect_err("still no shape");
}

/// Held records at no index, or of another length.
fn bad_held_lines(recorder: &mut Recorder) {
    let record = hex::encode(&record_bytes(1));
    for numbers in ["0\t8", "0\t18446744073709551615", "0\t18446744073709551616", "4\t7", "0"] {
        recorder.bad(&format!("held\t{numbers}\t{record}"));
    }
    for bytes in [&record[2..], &record[1..], &format!("{record}00")] {
        recorder.bad(&format!("held\t0\t7\t{bytes}"));
    }
    recorder.bad(&format!("held\t0\t7\t{record}\t0"));
}

/// Fresh clusters with a K that the calls decline, until another is handed in.
fn any_interval(recorder: &mut Recorder) {
    let take = Call::Take { server: 0, fate: Fate::Answered };
    for interval in [0, 5, u64::MAX] {
        let (replicas, places) = (3, 4);
        recorder.fresh(Shape { replicas, places, interval });
        recorder.call(&take).expect_err("K is outside 1 to N");
        let shape = Shape::whole(replicas, places);
        recorder.hand_in(Cluster { shape, ..recorder.cluster().clone() });
        recorder.call(&take).expect("K fits");
    }
}

/// Calls that get somewhere, from a fresh cluster; fewer where the log is soon full. Under a release before,
/// a part of what the first half stored and held had header 0. Media are kept and restored, at the end also the
/// last that make up a majority.
fn list(recorder: &mut Recorder, random: &mut Random, shape: Shape, begun_before: bool) {
    recorder.fresh(shape);
    let caller = Caller::new(random);
    let calls = if shape.places < 5 { 70 } else { 130 };
    let mut kept = None;
    for number in 0..calls {
        if random.chance(RESTORES) {
            restore(recorder, random, &mut kept, calls - number < 12);
        }
        if begun_before && number == calls / 2 {
            recorder.hand_in(with_headers(recorder.cluster(), |record| {
                if record.id % 2 == 0 {
                    0
                } else {
                    record.header
                }
            }));
        }
        next(recorder, random, &caller);
    }
}

/// Restores the medium that was kept, if a majority of others is left or it may be the last; often another is
/// kept then.
fn restore(
    recorder: &mut Recorder,
    random: &mut Random,
    kept: &mut Option<(u64, Vec<u8>)>,
    last: bool,
) {
    let fit = draw_restorable(random, recorder.cluster());
    if let Some((replica, backup)) = kept.take_if(|(it, _)| last || fit == Some(*it)) {
        let _ = recorder.call(&Call::Restore { replica, backup });
    }
    if kept.is_none() || random.chance(2) {
        let replica = fit.unwrap_or(0);
        recorder.keep(replica);
        *kept = Some((replica, recorder.cluster().medium(replica as usize).to_vec()));
    }
}

/// A call that gets somewhere, or in place of some takes a recovery.
pub fn next(recorder: &mut Recorder, random: &mut Random, caller: &Caller) {
    let call = useful::next_call(random, caller, recorder.cluster());
    match call {
        Call::Take { server, .. } if random.chance(RECOVERIES) => {
            let recovery = draw_recovery(random, caller, recorder.cluster(), server);
            let _ = recorder.recover(&recovery);
        }
        _ => {
            let _ = recorder.call(&call);
        }
    }
}
