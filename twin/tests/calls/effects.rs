//! What calls do, at the points where handed-in states tell readings of document 01 apart.

use twin::cluster::{
    Answer, Closing, Cluster, Entry, Message, Phase, Refusal, Register, Request, Server, Standing,
    HELD,
};
use twin::fate::{Fate, Left};
use twin::locks::{lock_places, TABLE_MARKS};
use twin::medium::{
    current, is_place, mark, place, place_at, put, Slot, DATA_AT, PLACE_BYTES, SLOT_BYTES, WIPED,
};
use twin::tries::scene::*;

const UNHEARD: [Fate; 3] = [Fate::Lost, Fate::AnswerLost, Fate::Cut(9, Left::Old)];

fn cluster_for(kind: Kind) -> Cluster {
    all_scenes().into_iter().find(|scene| scene.kind == kind).expect("a scene").cluster
}

fn answered() -> Message {
    Message::new(Fate::Answered)
}

fn cut(write: u64, left: Left) -> Message {
    Message::new(Fate::Cut(write, left))
}

const SERVER_NUMBER: u64 = SERVER as u64;

/// The record of the server that makes the calls.
fn record(cluster: &mut Cluster) -> &mut Server {
    &mut cluster.records.servers[SERVER]
}

#[test]
fn take_starts_from_a_zero_record() {
    let mut cluster = cluster_for(Kind::Take);
    let register = &mut cluster.records.register;
    (register.session, register.generation) = (8, 3);
    register.entries[1] = Entry { session: 7, closing: Closing::Mark(4) };
    register.entries[6] = Entry { session: 9, closing: Closing::Mark(u64::MAX) };
    let register = *register;
    (record(&mut cluster).starting, record(&mut cluster).marks[6]) = (4, 77);
    record(&mut cluster).held = held_up_to(12);
    assert_eq!(cluster.take(SERVER_NUMBER, Fate::Answered), Ok(Answer::Number(9)));
    let expected = Server {
        phase: Phase::Opening,
        session: 9,
        generation: 3,
        entries: register.entries,
        ..Server::default()
    };
    assert_eq!(*record(&mut cluster), expected);
    assert_eq!(cluster.records.register, Register { session: 9, ..register });
}

#[test]
fn take_without_answer_leaves_the_server_idle() {
    for (fate, session) in [(Fate::Lost, SESSION), (Fate::AnswerLost, SESSION + 1)] {
        let mut cluster = cluster_for(Kind::Take);
        record(&mut cluster).held = held_up_to(12);
        assert_eq!(cluster.take(SERVER_NUMBER, fate), Ok(Answer::Silent));
        assert_eq!(*record(&mut cluster), Server::default());
        assert_eq!(cluster.records.register.session, session);
    }
}

#[test]
fn prepare_goes_by_the_entry_handed_over() {
    let mut cluster = cluster_for(Kind::Prepare);
    cluster.records.register.entries[REPLICA].closing = Closing::Mark(1);
    record(&mut cluster).entries[REPLICA].closing = Closing::Mark(2);
    record(&mut cluster).standings[REPLICA] = Standing::Out;
    // The promise stands already; the truncation follows all the same.
    assert_eq!(cluster.prepare(SERVER_NUMBER, REPLICA as u64, &answered()), Ok(Answer::Number(2)));
    assert_eq!(record(&mut cluster).standings[REPLICA], Standing::In);
    assert_eq!(record(&mut cluster).marks[REPLICA], 2);
    assert_eq!(mark(cluster.medium(REPLICA)), 2);
}

/// With an equal promise the first write is the first wipe.
#[test]
fn prepare_numbers_the_writes_that_it_makes() {
    for (promise, mark_left) in [(SESSION, 3), (SESSION - 1, 4)] {
        let mut cluster = cluster_for(Kind::Prepare);
        set_promise(cluster.medium_mut(REPLICA), promise);
        record(&mut cluster).entries[REPLICA].closing = Closing::Mark(0);
        let message = cut(1, Left::New);
        assert_eq!(cluster.prepare(SERVER_NUMBER, REPLICA as u64, &message), Ok(Answer::Silent));
        let medium = cluster.medium(REPLICA);
        assert_eq!(
            (mark(medium), current(medium).expect("a slot").1.promise),
            (mark_left, SESSION)
        );
    }
}

#[test]
fn truncation_starts_at_the_end_of_the_run() {
    let mut cluster = cluster_for(Kind::Prepare);
    let medium = cluster.medium_mut(REPLICA);
    put(medium, place_at(3), &WIPED);
    let behind = place(medium, 4);
    record(&mut cluster).entries[REPLICA].closing = Closing::Mark(1);
    assert_eq!(cluster.prepare(SERVER_NUMBER, REPLICA as u64, &answered()), Ok(Answer::Number(1)));
    assert_eq!(place(cluster.medium(REPLICA), 2), WIPED);
    assert_eq!(place(cluster.medium(REPLICA), 4), behind);
}

#[test]
fn an_opening_server_forgets_a_silent_replica() {
    for fate in UNHEARD {
        let message = Message::new(fate);
        for kind in [Kind::Prepare, Kind::OpeningCopy, Kind::Trim] {
            let mut cluster = cluster_for(kind);
            let before = *record(&mut cluster);
            let reply = match kind {
                Kind::Prepare => cluster.prepare(SERVER_NUMBER, REPLICA as u64, &message),
                Kind::Trim => cluster.trim(SERVER_NUMBER, REPLICA as u64, &message),
                _ => cluster.copy(SERVER_NUMBER, SOURCE as u64, REPLICA as u64, &message),
            };
            assert_eq!(reply, Ok(Answer::Silent));
            let mut expected = before;
            expected.standings[REPLICA] = Standing::Out;
            expected.marks[REPLICA] = 0;
            assert_eq!(*record(&mut cluster), expected, "{kind:?}");
        }
    }
}

#[test]
fn an_open_server_drops_a_silent_replica_and_keeps_its_mark() {
    for fate in UNHEARD {
        let message = Message::new(fate);
        for kind in [Kind::OpenCopy, Kind::Send, Kind::Note, Kind::Read] {
            let mut cluster = cluster_for(kind);
            let before = *record(&mut cluster);
            let reply = match kind {
                Kind::OpenCopy => {
                    cluster.copy(SERVER_NUMBER, SOURCE as u64, REPLICA as u64, &message)
                }
                Kind::Send => cluster.send(SERVER_NUMBER, REPLICA as u64, &message),
                Kind::Note => cluster.note(SERVER_NUMBER, REPLICA as u64, &message),
                _ => cluster.read(SERVER_NUMBER, REPLICA as u64, 4, &message),
            };
            assert_eq!(reply, Ok(Answer::Silent));
            let mut expected = before;
            expected.standings[REPLICA] = Standing::Dropped;
            assert_eq!(*record(&mut cluster), expected, "{kind:?}");
        }
    }
}

/// The replica's mark is counted anew after the write: it may jump over a record behind the gap, or
/// stay.
#[test]
fn the_mark_after_an_append_is_counted_anew() {
    let mut cluster = cluster_for(Kind::OpeningCopy);
    set_place(cluster.medium_mut(REPLICA), 5);
    let reply = cluster.copy(SERVER_NUMBER, SOURCE as u64, REPLICA as u64, &answered());
    assert_eq!(reply, Ok(Answer::Number(5)));
    assert_eq!(record(&mut cluster).marks[REPLICA], 5);

    let mut cluster = cluster_for(Kind::Send);
    record(&mut cluster).held[HELD - 2] = [7; PLACE_BYTES];
    assert_eq!(cluster.send(SERVER_NUMBER, REPLICA as u64, &answered()), Ok(Answer::Number(3)));
    assert_eq!(record(&mut cluster).marks[REPLICA], 3);
    assert_eq!(place(cluster.medium(REPLICA), 4), [7; PLACE_BYTES]);
}

#[test]
fn copy_writes_the_place_as_it_is() {
    for kind in [Kind::OpeningCopy, Kind::OpenCopy] {
        let mut cluster = cluster_for(kind);
        let reply = cluster.copy(SERVER_NUMBER, SOURCE as u64, REPLICA as u64, &answered());
        assert_eq!(reply, Ok(Answer::Number(4)));
        assert_eq!(place(cluster.medium(REPLICA), 4), place(cluster.medium(SOURCE), 4));
    }
}

/// The acknowledged mark is computed anew, also after silence, and may fall.
#[test]
fn the_acknowledged_mark_is_no_maximum() {
    for fate in [Fate::Answered, Fate::Lost] {
        let mut cluster = cluster_for(Kind::Send);
        record(&mut cluster).acknowledged = 9;
        record(&mut cluster).marks[1] = 1;
        record(&mut cluster).standings[2] = Standing::Dropped;
        let reply = cluster.send(SERVER_NUMBER, REPLICA as u64, &Message::new(fate));
        // The marks are 4 if answered, else 3; 1; and 3 of the dropped member.
        assert_eq!(record(&mut cluster).acknowledged, 3);
        let answer = if fate == Fate::Answered { Answer::Number(3) } else { Answer::Silent };
        assert_eq!(reply, Ok(answer));
    }
}

#[test]
fn fewer_members_than_a_quorum_acknowledge_nothing() {
    let mut cluster = cluster_for(Kind::Send);
    record(&mut cluster).standings[1..].fill(Standing::Out);
    record(&mut cluster).standings[3..].fill(Standing::In);
    assert_eq!(cluster.send(SERVER_NUMBER, REPLICA as u64, &answered()), Ok(Answer::Number(0)));
    assert_eq!(record(&mut cluster).acknowledged, 0);
}

/// Recorded marks 4, 4 and 6, entries of every kind, and things from R up that must not count.
fn about_to_open() -> Cluster {
    let mut cluster = cluster_for(Kind::Open);
    let entries = &mut cluster.records.register.entries;
    entries[0] = Entry { session: 3, closing: Closing::Mark(2) };
    entries[1] = Entry { session: 2, closing: Closing::Unresolved };
    entries[2] = Entry { session: 4, closing: Closing::Unresolved };
    entries[5] = Entry { session: 1, closing: Closing::Unresolved };
    let server = record(&mut cluster);
    server.entries[4] = Entry { session: 6, closing: Closing::Mark(1) };
    server.standings[6] = Standing::In;
    server.marks[6] = 4;
    server.held = std::array::from_fn(|index| [9 + index as u8; PLACE_BYTES]);
    cluster.locks.fill(1);
    cluster
}

#[test]
fn open_sets_register_record_and_lock_table() {
    let mut cluster = about_to_open();
    let before = cluster.clone();
    assert_eq!(cluster.open(SERVER_NUMBER, Fate::Answered), Ok(Answer::Number(4)));
    let mut register = before.records.register;
    register.entries[0] = Entry { session: SESSION, closing: Closing::Unresolved };
    register.entries[1] = Entry { session: SESSION, closing: Closing::Unresolved };
    register.entries[2] = Entry { session: 4, closing: Closing::Mark(4) };
    assert_eq!(cluster.records.register, register);
    let mut server = before.records.servers[SERVER];
    server.phase = Phase::Open;
    (server.starting, server.issued, server.acknowledged) = (4, 4, 4);
    server.standings = [Standing::Out; 7];
    server.standings[..2].fill(Standing::In);
    server.marks = [4, 4, 0, 0, 0, 0, 0];
    assert_eq!(*record(&mut cluster), server);
    let mut locks = before.locks;
    locks[SERVER * TABLE_MARKS..(SERVER + 1) * TABLE_MARKS].fill(4);
    assert_eq!(cluster.locks, locks);
    assert_eq!(cluster.media, before.media);
}

#[test]
fn every_known_replica_at_the_mark_is_clean() {
    let mut cluster = about_to_open();
    record(&mut cluster).marks[2] = 4;
    assert_eq!(cluster.open(SERVER_NUMBER, Fate::Answered), Ok(Answer::Number(4)));
    assert_eq!(record(&mut cluster).standings[..3], [Standing::In; 3]);
    assert!(cluster.records.register.entries[..3].iter().all(|entry| entry.session == SESSION));
}

#[test]
fn open_without_answer_leaves_the_server_idle_and_its_table() {
    for fate in [Fate::Lost, Fate::AnswerLost] {
        let mut cluster = about_to_open();
        let before = cluster.clone();
        assert_eq!(cluster.open(SERVER_NUMBER, fate), Ok(Answer::Silent));
        assert_eq!(*record(&mut cluster), Server::default());
        assert_eq!(cluster.locks, before.locks);
        let changed = cluster.records.register != before.records.register;
        assert_eq!(changed, fate == Fate::AnswerLost);
    }
}

fn ask(cluster: &mut Cluster, client_mark: u64, locks: &[u64]) -> Result<Answer, Refusal> {
    let request = Request {
        client_mark,
        client: 100,
        generation: GENERATION,
        header: 9,
        data: vec![0xAB],
        locks: locks.to_vec(),
        ..Request::default()
    };
    cluster.issue(SERVER_NUMBER, &request)
}

#[test]
fn issue_takes_the_least_of_three_entries() {
    let places = lock_places(77).map(|place| SERVER * TABLE_MARKS + place);
    for least in 0..3 {
        let mut cluster = cluster_for(Kind::BookingIssue);
        for place in places {
            cluster.locks[place] = 9;
        }
        cluster.locks[places[least]] = 2;
        assert_eq!(ask(&mut cluster, 1, &[77]), Err(Refusal::Locked { lock: 77, estimate: 2 }));
        let mut written = cluster.locks.clone();
        assert_eq!(ask(&mut cluster, 2, &[77]), Ok(Answer::Number(6)));
        // The ID is written over greater marks too, and nowhere else.
        places.iter().for_each(|&place| written[place] = 6);
        assert!(cluster.locks == written);
    }
}

#[test]
fn issue_judges_all_locks_before_it_writes_any() {
    let mut cluster = cluster_for(Kind::BookingIssue);
    assert_eq!(ask(&mut cluster, CLIENT_MARK, &[5, 5]), Ok(Answer::Number(6)));
    let mut cluster = cluster_for(Kind::BookingIssue);
    for place in lock_places(8) {
        cluster.locks[SERVER * TABLE_MARKS + place] = 4;
    }
    let before = cluster.clone();
    let declined = Refusal::Locked { lock: 8, estimate: 4 };
    assert_eq!(ask(&mut cluster, CLIENT_MARK, &[5, 8, 8]), Err(declined));
    assert!(cluster == before);
}

/// Only records that are not acknowledged yet stand in the way.
#[test]
fn issue_goes_on_when_more_is_acknowledged_than_issued() {
    let mut cluster = cluster_for(Kind::BookingIssue);
    record(&mut cluster).acknowledged = 8;
    assert_eq!(ask(&mut cluster, 8, &[]), Ok(Answer::Number(6)));
}

#[test]
fn issue_holds_a_valid_record() {
    let mut cluster = cluster_for(Kind::BookingIssue);
    assert_eq!(ask(&mut cluster, 1, &[]), Ok(Answer::Number(6)));
    assert_eq!(record(&mut cluster).issued, 6);
    let [.., newest] = record(&mut cluster).held;
    assert!(is_place(6, &newest));
    assert_eq!(newest[DATA_AT], 0xAB);
}

#[test]
fn note_keeps_the_promise_and_may_leave_its_slot_second() {
    for (low_before, current_after) in [(0, 1), (2, 0)] {
        let mut cluster = cluster_for(Kind::Note);
        let medium = cluster.medium_mut(REPLICA);
        put(medium, 0, &Slot { promise: SESSION, low: low_before, local: 0 }.encode());
        assert_eq!(cluster.note(SERVER_NUMBER, REPLICA as u64, &answered()), Ok(Answer::Number(4)));
        let medium = cluster.medium(REPLICA);
        let noted = Slot { promise: SESSION, low: 2, local: 4 };
        assert_eq!(Slot::decode(&medium[SLOT_BYTES..2 * SLOT_BYTES]), Some(noted));
        assert_eq!(current(medium).expect("a slot").0, current_after);
    }
}

#[test]
fn read_gives_the_places_bytes() {
    let mut cluster = cluster_for(Kind::Read);
    for id in 1..=4 {
        let expected = place(cluster.medium(REPLICA), id);
        let reply = cluster.read(SERVER_NUMBER, REPLICA as u64, id, &answered());
        assert_eq!(reply, Ok(Answer::Bytes(expected)));
    }
}

#[test]
fn stop_and_reassign() {
    for kind in [Kind::Take, Kind::Open, Kind::Send] {
        let mut cluster = cluster_for(kind);
        cluster.locks.fill(3);
        record(&mut cluster).held = held_up_to(12);
        let before = cluster.clone();
        assert_eq!(cluster.stop(SERVER_NUMBER), Ok(Answer::Nothing));
        assert_eq!(*record(&mut cluster), Server::default());
        assert!(cluster.locks == before.locks && cluster.media == before.media);
        assert_eq!(cluster.reassign(), Ok(Answer::Number(1)));
        assert_eq!(cluster.records.register.generation, 1);
    }
}

/// Bytes are judged only where a torn write is left, and only as places that the medium has.
#[test]
fn given_bytes_that_may_pass() {
    let mut slot = WIPED;
    put(&mut slot, 0, &Slot::default().encode());
    let mut cluster = cluster_for(Kind::Send);
    let messages = [
        Message { fate: Fate::Cut(1, Left::Old), given: slot },
        Message { fate: Fate::Cut(2, Left::New), given: slot },
        Message { fate: Fate::Lost, given: slot },
        Message { fate: Fate::Cut(1, Left::Torn), given: record_bytes(PLACES + 1) },
    ];
    for message in messages {
        let mut cluster = cluster.clone();
        assert_eq!(cluster.send(SERVER_NUMBER, REPLICA as u64, &message), Ok(Answer::Silent));
    }
    let torn = Message { fate: Fate::Cut(5, Left::Torn), given: slot };
    assert_eq!(cluster.send(SERVER_NUMBER, REPLICA as u64, &torn), Err(Refusal::UnfitFate));
    let read = cluster.read(SERVER_NUMBER, REPLICA as u64, 1, &torn);
    assert_eq!(read, Err(Refusal::UnfitFate));
}

/// What stands from R up is never looked at by refusal 2.
#[test]
fn marks_from_r_up_are_not_read() {
    for mut scene in all_scenes() {
        let records = &mut scene.cluster.records;
        records.register.entries[3].closing = Closing::Mark(u64::MAX);
        records.servers[SERVER].marks[4] = u64::MAX;
        records.servers[2].entries[6].closing = Closing::Mark(u64::MAX);
        scene.cluster.locks[5] = u64::MAX;
        assert!(scene.apply().is_ok(), "{:?}", scene.kind);
    }
}
