//! Random states and calls: what a call does not name it leaves alone, and only answered calls
//! answer.

use std::collections::BTreeSet;

use twin::cluster::{Answer, Call, Cluster, LIST_ROW, ORDER, SERVERS};
use twin::fate::Fate;
use twin::random::Random;
use twin::tries::states::Draw;

const CALLS: u64 = 200_000;

/// The server that makes a call, the replica that gets its message and that message's fate.
fn parties(call: &Call) -> (Option<u64>, Option<u64>, Option<Fate>) {
    match *call {
        Call::Take { server, fate } | Call::Open { server, fate } => {
            (Some(server), None, Some(fate))
        }
        Call::Copy { server, to: replica, message, .. }
        | Call::Prepare { server, replica, message }
        | Call::Trim { server, replica, message }
        | Call::Send { server, replica, message }
        | Call::Note { server, replica, message }
        | Call::Read { server, replica, message, .. }
        | Call::Export { server, replica, message, .. } => {
            (Some(server), Some(replica), Some(message.fate))
        }
        Call::Issue { server, .. } | Call::Stop { server } => (Some(server), None, None),
        Call::Reassign => (None, None, None),
        Call::Restore { replica, .. } => (None, Some(replica), None),
    }
}

/// Compares all but the named server's record and table and the named replica's medium.
fn assert_rest_unchanged(before: &Cluster, call: &Call, after: &Cluster) {
    let (server, replica, _) = parties(call);
    for other in (0..SERVERS).filter(|&other| Some(other as u64) != server) {
        assert_eq!(before.records.servers[other], after.records.servers[other]);
        assert_eq!(before.table(other), after.table(other));
    }
    for other in (0..before.shape.replicas).filter(|&other| Some(other) != replica) {
        assert_eq!(before.medium(other as usize), after.medium(other as usize));
    }
    if !matches!(call, Call::Issue { .. } | Call::Open { .. }) {
        assert_eq!(before.locks, after.locks);
    }
    if !matches!(
        call,
        Call::Take { .. } | Call::Open { .. } | Call::Reassign | Call::Restore { .. }
    ) {
        assert_eq!(before.records.register, after.records.register);
    }
    let upper = before.shape.replicas as usize..;
    let (before, after) = (&before.records.register, &after.records.register);
    assert_eq!(before.entries[upper.clone()], after.entries[upper]);
}

#[test]
fn calls_leave_alone_what_they_do_not_name() {
    let mut random = Random::new(9);
    let mut met = BTreeSet::new();
    for _ in 0..CALLS {
        let most = *random.pick(&[4, 4, 4, 12]);
        let places = 1 + random.below(most);
        let mut draw = Draw { random: &mut random, places };
        let before = draw.cluster();
        let call = draw.call(&before);
        let (mut after, mut call_after) = (before.clone(), call.clone());
        let reply = after.apply(&mut call_after);
        // Export's files change with ok alone.
        let exported = matches!(call, Call::Export { .. }) && reply == Ok(Answer::Nothing);
        assert_eq!(call_after != call, exported, "{call:?}");
        match reply {
            Err(refusal) => {
                met.insert(refusal.row());
                assert!(before == after, "a declined call changes something: {call:?}");
            }
            Ok(answer) => {
                let (_, _, fate) = parties(&call);
                let answered = fate.is_none_or(|fate| fate == Fate::Answered);
                assert_eq!(answer != Answer::Silent, answered, "{call:?}");
                assert_rest_unchanged(&before, &call, &after);
            }
        }
    }
    // 29 is the driver's of recoveries, and no call's.
    assert_eq!(met, (0..ORDER.len()).filter(|row| *row != LIST_ROW).collect());
}
