//! Media from a backup (document 02, No. 10): worked examples step by step, what restore changes, and what the
//! calls after it make of an entry that is restored.

use twin::cluster::{Answer, Closing, Cluster, Entry, Message, Phase, Reply, Shape, Standing};
use twin::fate::{Fate, Left};
use twin::medium::{
    current, mark, place, place_at, put, Slot, PLACE_BYTES, SLOTS_BYTES, SLOT_BYTES, WIPED,
};
use twin::random::Random;
use twin::tries::faults::{faults_of, with_faults, Fault};
use twin::tries::recovery_rows::outcome;
use twin::tries::restore_rows::{diverged, examples, play, EXAMPLE_1, EXAMPLE_2};
use twin::tries::scene::*;

const SERVER_NUMBER: u64 = SERVER as u64;

fn fresh() -> Cluster {
    Cluster::fresh(Shape::whole(3, 4)).expect("an allowed shape")
}

fn scene(kind: Kind) -> Scene {
    all_scenes().into_iter().find(|scene| scene.kind == kind).expect("a scene")
}

fn answered() -> Message {
    Message::new(Fate::Answered)
}

#[test]
fn the_worked_examples() {
    examples().iter().for_each(|example| play(&mut fresh(), example));
}

/// The register's session and one entry, and one medium; nothing else.
#[test]
fn restore_changes_just_this() {
    let mut random = Random::new(10);
    for closing in [Closing::Unresolved, Closing::Mark(4), Closing::Restored] {
        let mut scene = scene(Kind::Restore);
        scene.cluster.records.register.entries[REPLICA] = Entry { session: 3, closing };
        scene.cluster.locks.fill(7);
        let before = scene.cluster.clone();
        // Any places will do, valid ones or not.
        put(scene.backup(), place_at(5), &random.bytes(PLACE_BYTES));
        let backup = scene.backup().clone();
        assert_eq!(scene.apply(), Ok(Answer::Number(SESSION + 1)));
        let mut expected = before;
        let register = &mut expected.records.register;
        register.session = SESSION + 1;
        register.entries[REPLICA].closing = Closing::Restored;
        let slot = Slot { promise: SESSION + 1, low: 1, local: 2 }.encode();
        let medium = expected.medium_mut(REPLICA);
        medium.copy_from_slice(&backup);
        put(medium, 0, &slot);
        put(medium, SLOT_BYTES, &slot);
        assert!(scene.cluster == expected, "{closing:?}");
        assert_eq!(*scene.backup(), backup);
    }
}

/// "with the current slot's low-water marks": of the bytes, whichever slot that is, and both marks.
#[test]
fn the_current_slot_of_the_bytes_gives_the_marks() {
    let slot = |promise, low, local| Slot { promise, low, local }.encode();
    let spoilt = |mut bytes: [u8; SLOT_BYTES]| {
        bytes[0] ^= 1;
        bytes
    };
    for (slots, low, local) in [
        ([slot(2, 1, 3), slot(3, 2, 0)], 2, 0),
        ([slot(3, 1, 3), slot(2, 2, 0)], 1, 3),
        ([slot(3, 1, 3), slot(3, 2, 0)], 2, 0),
        // Of two alike the first is current.
        ([slot(3, 2, 3), slot(3, 2, 0)], 2, 3),
        ([spoilt(slot(9, 1, 3)), slot(3, 2, 0)], 2, 0),
        ([slot(3, 1, 3), spoilt(slot(9, 2, 0))], 1, 3),
        ([slot(0, u64::MAX, 0), slot(0, 0, 0)], u64::MAX, 0),
        ([slot(u64::MAX, 5, u64::MAX), slot(7, 9, 9)], 5, u64::MAX),
    ] {
        let mut scene = scene(Kind::Restore);
        slots.iter().zip([0, SLOT_BYTES]).for_each(|(slot, at)| put(scene.backup(), at, slot));
        let places = scene.backup()[SLOTS_BYTES..].to_vec();
        assert_eq!(scene.apply(), Ok(Answer::Number(SESSION + 1)));
        let both = [Slot { promise: SESSION + 1, low, local }.encode(); 2].concat();
        assert_eq!(*scene.medium(), [both, places].concat());
    }
}

/// What the medium holds now is not looked at: it may have no valid slot, and its promise may be any.
#[test]
fn the_medium_is_replaced_whatever_it_holds() {
    for fill in [0, 0xFF] {
        let mut scene = scene(Kind::Restore);
        let mut whole = scene.clone();
        scene.medium().fill(fill);
        assert_eq!(scene.apply(), whole.apply());
        assert!(scene.cluster == whole.cluster);
    }
    let mut scene = scene(Kind::Restore);
    set_promise(scene.medium(), u64::MAX);
    assert_eq!(scene.apply(), Ok(Answer::Number(SESSION + 1)));
}

/// Open servers keep the replica's mark and go on counting it; it declines them, and changes nothing.
#[test]
fn a_server_from_before_is_not_heard() {
    for kind in [Kind::OpenCopy, Kind::Send, Kind::Note, Kind::Read, Kind::Export] {
        let mut scene = scene(kind);
        let servers = scene.cluster.records.servers;
        let reply = scene.cluster.restore(REPLICA as u64, &backup());
        assert_eq!(reply, Ok(Answer::Number(SESSION + 1)));
        assert_eq!(scene.cluster.records.servers, servers);
        let before = scene.clone();
        assert_eq!(number(scene.apply()), Err(19), "{kind:?}");
        assert!(scene == before, "{kind:?}");
    }
    for kind in [Kind::Prepare, Kind::OpeningCopy, Kind::Trim] {
        let mut scene = scene(kind);
        scene.cluster.restore(REPLICA as u64, &backup()).expect("nothing is in the way");
        assert_eq!(number(scene.apply()), Err(19), "{kind:?}");
    }
    // The others are heard as before, but the register's session is another.
    let mut scene = scene(Kind::Open);
    scene.cluster.restore(REPLICA as u64, &backup()).expect("nothing is in the way");
    assert_eq!(number(scene.apply()), Err(22));
}

fn number(reply: Reply) -> Result<u64, u64> {
    match reply {
        Ok(Answer::Number(value)) => Ok(value),
        Ok(other) => panic!("{other:?}"),
        Err(refusal) => Err(refusal.number()),
    }
}

/// The declining number of a restore with these faults, each of another number.
fn declined(faults: &[&Fault]) -> Option<u64> {
    let mut scene = with_faults(&scene(Kind::Restore), faults);
    let before = scene.clone();
    let number = number(scene.apply()).err();
    assert!(number.is_none() || scene == before, "a declined restore changes something");
    number
}

/// 1, 2, 4, 21, 30: each fault alone, and beside each of every later number.
#[test]
fn what_declines_a_restore_in_its_order() {
    let faults = faults_of(&scene(Kind::Restore));
    let mut numbers: Vec<u64> = faults.iter().map(Fault::number).collect();
    numbers.dedup();
    numbers.sort_unstable();
    numbers.dedup();
    assert_eq!(numbers, [1, 2, 4, 21, 30]);
    for first in &faults {
        assert_eq!(declined(&[first]), Some(first.number()), "{}", first.name);
        for second in faults.iter().filter(|it| it.number() > first.number()) {
            let names = [first.name, second.name];
            assert_eq!(declined(&[first, second]), Some(first.number()), "{names:?}");
        }
    }
}

/// Its bytes' length is looked at before any mark; with another N it is another length.
#[test]
fn the_length_of_the_bytes_is_that_of_a_medium() {
    for places in [1, 2, 1000] {
        let mut cluster = Cluster::fresh(Shape::whole(1, places)).expect("an allowed shape");
        let exact = 64 + 72 * places as usize;
        for length in [0, 32, 64, exact - 72, exact - 1, exact + 1, exact + 72] {
            let mut backup = vec![0; length.max(SLOTS_BYTES)];
            put(&mut backup, 0, &Slot::default().encode());
            backup.truncate(length);
            assert_eq!(number(cluster.restore(0, &backup)), Err(1), "{places}, {length}");
        }
        assert_eq!(number(cluster.restore(0, &vec![0; exact])), Err(30));
        let own = cluster.medium(0).to_vec();
        assert_eq!(number(cluster.restore(0, &own)), Ok(1));
    }
}

/// An opening server whose take handed replica 0 over as restored; it has this slot and four records.
fn restored(kind: Kind, slot: Slot) -> Cluster {
    let mut cluster = scene(kind).cluster;
    cluster.records.servers[SERVER].entries[REPLICA] =
        Entry { session: 3, closing: Closing::Restored };
    let medium = cluster.medium_mut(REPLICA);
    [0, SLOT_BYTES].into_iter().for_each(|at| put(medium, at, &slot.encode()));
    cluster
}

/// "truncates to its low-water mark": not the local one, also if the promise is equal, and to none above the
/// log's mark.
#[test]
fn prepare_truncates_to_the_low_water_mark() {
    let lows = [(0, 0), (1, 1), (3, 3), (4, 4), (5, 4), (PLACES, 4), (u64::MAX, 4)];
    for ((low, left), local) in lows.into_iter().flat_map(|it| [0, 2, 9].map(|local| (it, local))) {
        for promise in [SESSION - 1, SESSION] {
            let mut cluster = restored(Kind::Prepare, Slot { promise, low, local });
            let reply = cluster.prepare(SERVER_NUMBER, REPLICA as u64, &answered());
            assert_eq!(number(reply), Ok(left));
            let medium = cluster.medium(REPLICA);
            assert_eq!(mark(medium), left);
            assert!((left + 1..=4).all(|id| place(medium, id) == WIPED));
            let (_, slot) = current(medium).expect("a slot");
            assert_eq!(slot, Slot { promise: SESSION, low, local });
        }
    }
}

/// Cut at any write: the slot is the first of them, unless the promise is equal.
#[test]
fn prepare_of_a_restored_replica_is_cut() {
    for (promise, slots) in [(SESSION - 1, 1), (SESSION, 0)] {
        for (write, left) in (1..=6).flat_map(|write| [Left::Old, Left::New].map(|it| (write, it)))
        {
            let mut cluster = restored(Kind::Prepare, Slot { promise, low: 1, local: 3 });
            let message = Message::new(Fate::Cut(write, left));
            let reply = cluster.prepare(SERVER_NUMBER, REPLICA as u64, &message);
            assert_eq!(reply, Ok(Answer::Silent));
            let made = if left == Left::New { write } else { write - 1 };
            let wiped = made.saturating_sub(slots).min(3);
            assert_eq!(mark(cluster.medium(REPLICA)), 4 - wiped, "{promise} {write} {left:?}");
            // Once more, with the promise as it is by now.
            let again = cluster.prepare(SERVER_NUMBER, REPLICA as u64, &answered());
            assert_eq!(number(again), Ok(1));
        }
    }
}

/// What counts is the entry that take handed over, not the register's of now.
#[test]
fn the_entry_handed_over_counts() {
    let slot = Slot { promise: SESSION, low: 1, local: 1 };
    let mut cluster = restored(Kind::Prepare, slot);
    cluster.records.servers[SERVER].entries[REPLICA].closing = Closing::Unresolved;
    cluster.records.register.entries[REPLICA].closing = Closing::Restored;
    assert_eq!(number(cluster.prepare(SERVER_NUMBER, REPLICA as u64, &answered())), Ok(4));
    // Three replicas: take, prepares answer 2, 1, 1, restore 1; trim 0 is answered, and open meets 22.
    play(
        &mut fresh(),
        "cluster 3 4
        drive 0 [0,1,2] [] → ok 0, 5; keep 1
        issue 0 0 0 9 01 → ok 1; issue 0 0 0 9 02 → ok 2
        send 0 0 0 → ok 0; send 0 0 0 → ok 0; send 0 1 0 → ok 1; send 0 2 0 → ok 1
        take 1 0 → ok 2; prep 1 0 0 → ok 2; prep 1 1 0 → ok 1; prep 1 2 0 → ok 1
        restore 1 → ok 3; trim 1 0 0 → ok 1; open 1 0 → no 22; copy 1 0 1 0 → no 16",
    );
}

/// The server's record with these marks, `None` for those that are not known.
fn known(cluster: &mut Cluster, marks: [Option<u64>; 3]) {
    let server = &mut cluster.records.servers[SERVER];
    for (replica, mark) in marks.into_iter().enumerate() {
        server.standings[replica] = if mark.is_some() { Standing::In } else { Standing::Out };
        server.marks[replica] = mark.unwrap_or(0);
    }
}

/// "counts as absent in the vote": its mark and its being known. Replica 0 is restored.
#[test]
fn a_restored_replica_has_no_vote() {
    for (marks, reply) in [
        // The other two agree, and it is clean or not.
        ([Some(4), Some(4), Some(4)], Ok(4)),
        ([Some(2), Some(4), Some(4)], Ok(4)),
        ([Some(6), Some(4), Some(4)], Ok(4)),
        ([None, Some(4), Some(4)], Ok(4)),
        // With its vote these would be decided.
        ([Some(4), Some(4), Some(3)], Err(8)),
        ([Some(4), Some(3), Some(4)], Err(8)),
        ([Some(4), Some(4), None], Err(8)),
        ([Some(0), Some(4), None], Err(8)),
        ([Some(4), None, None], Err(8)),
    ] {
        let mut cluster = scene(Kind::Open).cluster;
        cluster.records.servers[SERVER].entries[REPLICA].closing = Closing::Restored;
        known(&mut cluster, marks);
        assert_eq!(number(cluster.clone().open(SERVER_NUMBER, Fate::Answered)), reply, "{marks:?}");
        if reply.is_err() {
            let trim = cluster.trim(SERVER_NUMBER, REPLICA as u64, &answered());
            assert_eq!(number(trim), Err(8), "{marks:?}");
        }
    }
}

/// "If it stands at the decided mark at open it counts as clean and the entry is ordinary; otherwise it stays
/// restored."
#[test]
fn open_makes_a_clean_one_ordinary() {
    let kept = Entry { session: 3, closing: Closing::Restored };
    let clean = Entry { session: SESSION, closing: Closing::Unresolved };
    for (marks, entry) in [
        ([Some(4), Some(4), Some(4)], clean),
        ([Some(2), Some(4), Some(4)], kept),
        ([Some(6), Some(4), Some(4)], kept),
        ([None, Some(4), Some(4)], kept),
        // Not known is not clean, though its recorded mark is 0.
        ([None, Some(0), Some(0)], kept),
        ([Some(0), Some(0), Some(0)], clean),
    ] {
        let mut cluster = scene(Kind::Open).cluster;
        cluster.records.servers[SERVER].entries[REPLICA] = kept;
        cluster.records.register.entries[REPLICA] = kept;
        known(&mut cluster, marks);
        cluster.open(SERVER_NUMBER, Fate::Answered).expect("the others agree");
        assert_eq!(cluster.records.register.entries[REPLICA], entry, "{marks:?}");
        let standing = cluster.records.servers[SERVER].standings[REPLICA];
        assert_eq!(standing == Standing::In, entry == clean, "{marks:?}");
    }
}

/// "copying from it meets refusal 17", whatever the fate, and 16 comes first; copies to it are like others. Once
/// open it is a member like any other.
#[test]
fn copies_go_to_it_and_not_from_it() {
    let fates = [Fate::Answered, Fate::Lost, Fate::AnswerLost, Fate::Cut(1, Left::New)];
    for (kind, fate) in
        [Kind::OpeningCopy, Kind::OpenCopy].iter().flat_map(|kind| fates.map(|fate| (*kind, fate)))
    {
        let mut from = scene(kind);
        from.set_message(Message::new(fate));
        let mut to = from.clone();
        from.cluster.records.servers[SERVER].entries[SOURCE].closing = Closing::Restored;
        to.cluster.records.servers[SERVER].entries[REPLICA].closing = Closing::Restored;
        let mut expected = to.clone();
        expected.cluster.records.servers[SERVER].entries[REPLICA].closing = Closing::Unresolved;
        let reply = expected.apply();
        assert_eq!(to.apply(), reply);
        assert_eq!(to.cluster.media, expected.cluster.media);
        let mut equal = from.clone();
        equal.cluster.records.servers[SERVER].marks[REPLICA] = 4;
        assert_eq!(equal.apply().map_err(|refusal| refusal.number()), Err(16));
        let declined = from.apply().map_err(|refusal| refusal.number());
        match from.cluster.records.servers[SERVER].phase {
            Phase::Opening => assert_eq!(declined, Err(17)),
            _ => assert_eq!(declined.map_err(|_| ()), reply.map_err(|_| ())),
        }
    }
}

/// It may be trimmed, like any that is known, to the mark that the others have.
#[test]
fn one_above_the_majority_mark_is_trimmed() {
    let mut scene = scene(Kind::Trim);
    scene.cluster.records.servers[SERVER].entries[REPLICA].closing = Closing::Restored;
    assert_eq!(number(scene.apply()), Ok(4));
    assert_eq!(mark(scene.medium()), 4);
}

/// Restoring again keeps the entry's session, and raises the register's once more.
#[test]
fn restored_again() {
    play(
        &mut fresh(),
        &format!(
            "{EXAMPLE_2}
        entry 1 4 unresolved; restore 1 → ok 5; restore 1 → ok 6; slots 1 6,0,0 6,0,0
        entry 1 4 restored; drive 3 [1,0,2] [] → ok 1, 6; entry 1 7 unresolved"
        ),
    );
}

/// "As soon as Q replicas are restored at once nothing is decided any more": restoring again is no way out.
#[test]
fn with_q_restored_nothing_opens() {
    play(&mut fresh(), "cluster 1 4
        drive 0 [0] [] → ok 0, 3; issue 0 0 0 9 AA → ok 1; send 0 0 0 → ok 1; keep 0
        restore 0 → ok 2; drive 1 [0] [] → no 8, 3; keep 0; restore 0 → ok 4; drive 2 [0] [] → no 8, 3");
    play(
        &mut fresh(),
        &format!(
            "{EXAMPLE_1}
        keep 0; restore 0 → ok 4; keep 2; restore 2 → ok 5
        drive 2 [0,1,2] [] → no 8, 7; keep 1; restore 1 → ok 7; drive 3 [0,1,2] [] → no 8, 5"
        ),
    );
}

/// The driver's highest mark and its source are of the others; it copies to restored ones as to others, and one
/// above the highest mark lacks nothing.
#[test]
fn recoveries_with_restored_replicas() {
    // Replica 0 is restored and holds the most, all of it below its low-water mark.
    let cluster = |closing: [Closing; 3], lows: [u64; 3], marks: [u64; 3]| {
        let mut cluster = fresh();
        for replica in 0..3 {
            cluster.records.register.entries[replica].closing = closing[replica];
            let slot = Slot { promise: 0, low: lows[replica], local: 0 }.encode();
            let medium = cluster.medium_mut(replica);
            [0, SLOT_BYTES].into_iter().for_each(|at| put(medium, at, &slot));
            (1..=marks[replica]).for_each(|id| set_place(medium, id));
        }
        cluster
    };
    let (unresolved, back) = (Closing::Unresolved, Closing::Restored);
    let first = [back, unresolved, unresolved];
    for (closing, lows, marks, listed, expected) in [
        (first, [0, 0, 0], [3, 2, 1], [0, 1, 2].as_slice(), "ok 2, 8"),
        (first, [4, 0, 0], [3, 2, 1], &[0, 1, 2], "ok 2, 6"),
        (first, [2, 0, 0], [3, 2, 1], &[0, 1, 2], "ok 2, 6"),
        (first, [1, 0, 0], [3, 2, 1], &[2, 1, 0], "ok 2, 7"),
        (first, [4, 0, 0], [3, 2, 1], &[0, 1], "no 8, 4"),
        (first, [0, 0, 0], [3, 2, 1], &[1, 0], "no 8, 6"),
        (first, [0, 0, 0], [3, 2, 1], &[0], "no 8, 3"),
        (first, [0, 0, 0], [0, 0, 0], &[0, 2, 1], "ok 0, 5"),
        ([back, back, unresolved], [4, 4, 0], [3, 2, 1], &[0, 1, 2], "no 8, 5"),
        ([back, back, unresolved], [0, 0, 0], [0, 0, 4], &[0, 1, 2], "no 8, 13"),
        ([back; 3], [4, 4, 4], [3, 2, 1], &[0, 1, 2], "no 8, 5"),
    ] {
        let mut cluster = cluster(closing, lows, marks);
        let end = cluster.recover(1, listed, &[], &[]);
        assert_eq!(outcome(end), expected, "{closing:?} {lows:?} {marks:?} {listed:?}");
    }
}

/// A restored one that holds the highest mark is passed by: what others get is another's.
#[test]
fn the_source_is_not_restored() {
    play(
        &mut fresh(),
        &diverged(
            "restore 2 → ok 3
        take 2 0 → ok 4; prep 2 2 1 → silent; stop 2 → ok
        drive 3 [2,0,1] [] → ok 1, 6; place 2 1 BB; entry 2 5 unresolved",
        ),
    );
}
