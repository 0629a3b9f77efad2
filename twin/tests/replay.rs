//! The stored run of the replay program is what this implementation gives, and it meets every call,
//! refusal, fate and kind of interval, gates and booking clients on both sides of their limits, locks on
//! both sides of the client's mark, every end of an exported log, every number of records in flight,
//! sequences on both sides of what 32 bits hold, header 0 in requests and in records, recoveries with every
//! reply, every fate at every kind of call, and every way to pass over a replica, and media restored from every
//! kind of bytes.

mod stored;

use twin::cluster::{first_row, FILES_ROW, ORDER};
use twin::replay::{self, AMOUNTS, CALLS, CLIENTS, ENDS, ESTIMATES, FATES, INTERVALS, UNSENT};
use twin::replay::{AFTER, BESIDE, FEATURES, GIVEN, PASSED, REPLIES, RESTORES, SEQUENCES, STEPS};
use twin::tries::headers::USES;

/// Calls without a message, and those whose message goes to the register.
const LOCAL: [&str; 4] = ["issue", "stop", "reassign", "restore"];
const TO_REGISTER: [&str; 2] = ["take", "open"];

/// The calls that each row of the list of documents 01 and 02 can decline.
const DECLINED: [(u64, &[&str]); ORDER.len()] = [
    (1, &CALLS),
    (2, &CALLS),
    // reassign and restore name no server.
    (3, CALLS.split_at(CALLS.len() - 2).0),
    (4, &["prepare", "copy", "trim", "send", "note", "read", "export", "restore"]),
    (5, &["take", "prepare", "copy", "trim", "open", "issue", "send", "note", "read", "export"]),
    // The driver of recoveries alone.
    (29, &[]),
    (6, &["take", "prepare", "copy", "trim", "open", "send", "note", "read", "export"]),
    (7, &["copy", "trim", "send", "note", "read", "export"]),
    (8, &["trim", "open"]),
    (9, &["open"]),
    (10, &["issue"]),
    (11, &["issue"]),
    (12, &["issue"]),
    (28, &["issue"]),
    (13, &["issue"]),
    (14, &["issue"]),
    (23, &["issue"]),
    (15, &["issue"]),
    (16, &["copy", "trim", "send", "read"]),
    (17, &["copy"]),
    (18, &["prepare", "copy", "trim", "send", "note", "read", "export"]),
    (19, &["prepare", "copy", "trim", "send", "note", "read", "export"]),
    (20, &["copy", "trim", "send", "note", "read", "export"]),
    (1, &["export"]),
    (21, &["take", "reassign", "restore"]),
    (22, &["open"]),
    (30, &["restore"]),
];

#[test]
fn stored_files_are_what_the_seed_gives() {
    let run = replay::run();
    stored::assert_same_lines(&stored::text("crates/replay/stdin"), &run.input);
    stored::assert_same_lines(&stored::text("crates/replay/stdout"), &run.output);
}

#[test]
fn every_call_meets_just_the_refusals_of_the_list() {
    let counts = replay::run().counts;
    println!("{counts}");
    assert_eq!(DECLINED.map(|(number, _)| number), ORDER);
    for (row, (number, declined)) in DECLINED.into_iter().enumerate() {
        for call in CALLS {
            let met = counts.refused(call, row) > 0;
            assert_eq!(met, declined.contains(&call), "{call}, number {number}");
        }
    }
}

#[test]
fn every_call_is_done_and_silent_where_it_has_a_fate() {
    let counts = replay::run().counts;
    for call in CALLS {
        assert!(counts.ok(call) > 0, "{call}");
        assert_eq!(counts.silent(call) > 0, !LOCAL.contains(&call), "{call}");
        for fate in FATES {
            let cut = fate.starts_with("cut");
            let has = !(LOCAL.contains(&call) || cut && TO_REGISTER.contains(&call));
            assert_eq!(counts.fate(call, fate) > 0, has, "{call}, {fate}");
        }
    }
}

#[test]
fn messages_are_cut_at_the_first_and_at_later_writes() {
    let counts = replay::run().counts;
    for fate in &FATES[3..] {
        assert!((1..=6).all(|write| counts.writes(fate).contains(&write)), "{fate}");
    }
}

/// Of 0, N and N + 1 among them, where nothing else that refusal 1 speaks of is outside, so that K
/// alone decides about it.
#[test]
fn every_call_gets_every_kind_of_interval() {
    let counts = replay::run().counts;
    for call in CALLS {
        for interval in INTERVALS {
            assert!(counts.interval(call, interval) > 0, "{call}, K {interval}");
        }
    }
}

/// Lists that come to 23 and go on with another session.
#[test]
fn sessions_are_opened_after_the_interval_asks_for_one() {
    let counts = replay::run().counts;
    assert!(counts.refused("issue", first_row(23)) > 50);
    assert!(counts.forced() > 20);
}

/// Each kind of client asks for all that either pair tells apart: of data, of locks and of both. What lies
/// between the pairs, a gate is declined and a booking client is granted.
#[test]
fn gates_and_booking_clients_ask_for_what_either_may_have() {
    let counts = replay::run().counts;
    let met = CLIENTS.map(|client| AMOUNTS.map(|amount| counts.amount(client, amount)));
    assert!(met.iter().flatten().all(|&count| count > 0), "{met:?}");
    let [gate, booking] = met;
    assert!(gate[0] > 50 && booking[..4].iter().sum::<u64>() > 100, "{met:?}");
    assert!(gate[1] > 10 && gate[2] > 10 && booking[1] > 10 && booking[2] > 10, "{met:?}");
    let declined = gate[1..].iter().chain(&booking[4..]).sum::<u64>();
    assert_eq!(declined, counts.refused("issue", first_row(12)));
    let granted = gate[0] + booking[..4].iter().sum::<u64>();
    assert_eq!(granted, counts.ok("issue"));
}

/// One way or the other, most of these requests are decided by one.
#[test]
fn locks_are_asked_for_around_the_clients_mark() {
    let counts = replay::run().counts;
    let met = ESTIMATES.map(|name| counts.estimate(name));
    let [below, one_below, at, one_above, above] = met;
    assert!(below > 0 && one_below > 10 && at > 80 && one_above > 30 && above > 10, "{met:?}");
    assert_eq!(one_above + above, counts.refused("issue", first_row(15)));
}

/// The lesser of two marks is the one or the other; and files of another length are met too.
#[test]
fn logs_are_exported_up_to_either_mark() {
    let counts = replay::run().counts;
    let met = ENDS.map(|name| counts.end(name));
    assert!(met.iter().all(|&count| count > 10), "{met:?}");
    assert_eq!(met.iter().sum::<u64>(), counts.ok("export"));
    assert!(counts.refused("export", FILES_ROW) > 20);
}

/// Each number in flight, each index of what is held, and each edge of what is held for itself.
#[test]
fn records_are_in_flight() {
    let counts = replay::run().counts;
    let (in_flight, sent) = (counts.in_flight(), counts.sent());
    assert!(in_flight.iter().chain(&sent).all(|&count| count > 3), "{in_flight:?} {sent:?}");
    assert_eq!(in_flight.iter().sum::<u64>(), counts.ok("issue"));
    assert_eq!(sent.iter().sum::<u64>(), counts.ok("send") + counts.silent("send"));
    let unsent = UNSENT.map(|name| counts.unsent(name));
    assert!(unsent.iter().all(|&count| count > 5), "{unsent:?}");
    assert_eq!(unsent.iter().sum::<u64>(), counts.refused("send", first_row(16)));
    assert!(counts.refused("issue", first_row(13)) > 10);
}

/// Below, at and above the edge of 32 bits, and at the ends.
#[test]
fn sequences_of_either_width_are_issued() {
    let counts = replay::run().counts;
    let met = SEQUENCES.map(|name| counts.sequence(name));
    assert!(met.iter().all(|&count| count > 5), "{met:?}");
    assert_eq!(met.iter().sum::<u64>(), counts.ok("issue"));
}

/// What passes as a slot or place is declined by 6; what would pass as a place of the old layout alone is
/// not.
#[test]
fn given_bytes_pass_as_either_layout() {
    let counts = replay::run().counts;
    let met = GIVEN.map(|name| counts.given(name));
    let [slot, place, above, old, nothing] = met;
    assert!(slot > 10 && place > 10 && above > 0 && old > 15 && nothing > 100, "{met:?}");
}

/// Requests with header 0 are declined by 28, of gates and of the booking system, also where what stands behind
/// it declines them too; where what stands before it does, that is given. Records with it are found,
/// copied, trimmed, opened over, sent, noted, read and exported.
#[test]
fn header_0_is_declined_in_requests_alone() {
    let counts = replay::run().counts;
    let declined = CLIENTS.map(|client| counts.zero(client));
    assert!(declined.iter().all(|&count| count > 15), "{declined:?}");
    assert_eq!(declined.iter().sum::<u64>(), counts.refused("issue", first_row(28)));
    let beside = BESIDE.map(|number| counts.beside(number));
    assert!(beside.iter().all(|&count| count > 1), "{beside:?}");
    let met = USES.map(|name| counts.use_of_zero(name));
    assert!(met.iter().all(|&count| count > 5), "{met:?}");
}

/// What a recovery replies, how many calls it made, and of each R lists of every length.
#[test]
fn recoveries_end_in_every_way() {
    let counts = replay::run().counts;
    let recoveries = counts.recoveries();
    assert!((300..=800).contains(&recoveries.all()));
    for name in REPLIES {
        assert!(recoveries.replied(name) > 3, "{name}");
    }
    assert!(recoveries.replied("ok") > recoveries.all() / 2);
    let made = recoveries.counts();
    // A take alone, or with a prepare and an open.
    assert!((0..=14).all(|count| made.contains(&count) != (count == 2)), "{made:?}");
    assert!(made.last() > Some(&30), "{made:?}");
    for replicas in [1, 3, 5, 7] {
        for count in 1..=replicas as usize {
            assert!(recoveries.listed(replicas, count) > 1, "R = {replicas}, {count} listed");
        }
    }
}

/// Answered, lost, with the answer lost, and cut at writes 0, 1 and 2: take, prepare, copy and open. A prepare
/// also at later ones, of which it makes more, and a prepare or a copy at the greatest that a code has.
#[test]
fn every_call_of_a_recovery_has_every_fate() {
    let counts = replay::run().counts;
    let recoveries = counts.recoveries();
    for (step, fate) in STEPS.iter().flat_map(|step| FATES.map(|fate| (step, fate))) {
        let writes = if fate.starts_with("cut") { 0..=2 } else { 0..=0 };
        for write in writes {
            assert!(recoveries.fate(step, fate, write) > 0, "{step}, {fate} {write}");
        }
    }
    for (fate, write) in FATES[3..].iter().flat_map(|fate| [3, 4].map(|write| (fate, write))) {
        assert!(recoveries.fate("prepare", fate, write) > 0, "{fate} {write}");
    }
    let greatest = (u64::MAX - 3) / 3;
    assert!(recoveries.fate("copy", "cut old", greatest) > 0);
    assert!(recoveries.fate("prepare", "cut torn", greatest - 1) > 0);
}

/// For each reason that there is; and what else there is to a recovery, and comes after one.
#[test]
fn recoveries_pass_over_replicas_and_go_on() {
    let counts = replay::run().counts;
    let recoveries = counts.recoveries();
    for name in PASSED {
        assert!(recoveries.passed(name) > 5, "{name}");
    }
    for name in FEATURES {
        assert!(recoveries.met(name) > 0, "{name}");
    }
    let often = ["not lowest", "source shows", "above majority", "jump", "past highest"];
    for name in often.into_iter().chain(["truncated", "restart"]) {
        assert!(recoveries.met(name) > 10, "{name}");
    }
}

/// Of clusters of each size and with bytes of every kind, and each call on a replica that was restored: every
/// fate of its prepare, cut at each write, with the promise to be written and written already.
#[test]
fn media_are_restored() {
    let counts = replay::run().counts;
    let restores = counts.restores();
    assert_eq!(restores.made(), counts.ok("restore"));
    assert!((150..=500).contains(&restores.made()), "{}", restores.made());
    for replicas in [1, 3, 5, 7] {
        assert!(restores.of(replicas) > 5, "R = {replicas}");
    }
    for name in RESTORES.into_iter().chain(AFTER) {
        assert!(restores.met(name) > 0, "{name}");
    }
    for (promised, fate) in [false, true].into_iter().flat_map(|it| FATES.map(|fate| (it, fate))) {
        let writes = if fate.starts_with("cut") { 1..=4 } else { 0..=0 };
        for write in writes {
            assert!(restores.fate(promised, fate, write) > 0, "{promised}, {fate} {write}");
        }
    }
}

#[test]
fn lines_and_files_are_small() {
    let run = replay::run();
    assert!(run.input.len() + run.output.len() < 1_150_000);
    assert!(run.input.lines().all(|line| line.len() <= 2_000));
    assert!(run.input.is_ascii() && run.input.ends_with('\n'));
    assert!((3_000..=7_500).contains(&run.counts.calls()));
}
