//! Eight in flight (document 02, No. 5).

use crate::answered::Answered;
use twin::cluster::{Answer, Cluster, Message, Refusal, Server, Standing};
use twin::fate::Fate;
use twin::medium::{mark, place, PlaceBytes, Record, PLACE_BYTES, WIPED};
use twin::tries::faults::{faults_of, with_faults};
use twin::tries::in_flight::{InFlight, PLACES};
use twin::tries::scene::{
    all_scenes, held_up_to, record_bytes, Kind, Scene, GENERATION, REPLICA, SERVER,
};

/// Eight records in flight and no ninth; a member that is sent nothing any more and copied to; a server
/// stopped with records in flight.
#[test]
fn eight_in_flight_call_by_call() {
    let mut cluster = Answered::opened(12);
    for id in 1..=8 {
        assert_eq!(cluster.issue(0, 0, id as u8), Ok(id));
    }
    assert_eq!(cluster.issue(0, 0, 9), Err(13));
    assert_eq!([(); 3].map(|_| cluster.send_to(0, 0)), [Ok(0); 3]);
    assert_eq!(cluster.send_to(0, 1), Ok(1));
    assert_eq!(cluster.issue(0, 1, 9), Ok(9));
    assert_eq!(cluster.issue(0, 1, 10), Err(13));
    // ID 1 is no longer held.
    assert_eq!(cluster.send_to(0, 2), Err(16));
    assert_eq!(cluster.copy(0, 0, 2), Ok(1));
    assert_eq!(cluster.send_to(0, 2), Ok(2));
    assert_eq!(cluster.send_to(0, 1), Ok(2));
    assert_eq!(cluster.0.stop(0), Ok(Answer::Nothing));
    assert_eq!(cluster.take(1), Ok(2));
    assert_eq!([0, 1, 2].map(|replica| cluster.prepare(1, replica)), [Ok(3), Ok(2), Ok(2)]);
    assert_eq!(cluster.open(1), Ok(2));
    assert_eq!([1, 2].map(|id| cluster.read(1, 1, id)), [1, 2]);
}

/// N = K = 20, starting mark 6, issued 12.
#[test]
fn the_handed_in_example() {
    let state = |mark| InFlight { starting: 6, issued: 12, acknowledged: 6, mark };
    for mark in [12, 5, 3] {
        assert_eq!(state(mark).send().apply(), Err(Refusal::NothingToDo), "mark {mark}");
    }
    for (mark, index) in (6..=11).zip(2..=7) {
        let mut scene = state(mark).send();
        let held = scene.cluster.records.servers[SERVER].held[index];
        // The other members' marks are 12 and 0.
        assert_eq!(scene.apply(), Ok(Answer::Number(mark + 1)));
        assert_eq!(place(scene.medium(), mark + 1), held);
    }
    let issue = |acknowledged| InFlight { acknowledged, ..state(6) }.issue().apply();
    assert_eq!(issue(5), Ok(Answer::Number(13)));
    assert_eq!(issue(4), Err(Refusal::Unacknowledged));
}

/// "Held are the IDs above the starting mark and above issued − 8, up to issued": every starting, issued
/// and recorded mark. They lie oldest first and the newest always last.
#[test]
fn send_delivers_what_follows_the_mark_exactly_if_it_is_held() {
    let all = || 0..=PLACES;
    let states = all().flat_map(|starting| all().map(move |issued| (starting, issued)));
    let mut sent = [0; 8];
    for (starting, issued) in states {
        for mark in all() {
            let number = i128::from(mark) + 1;
            let held = number > starting.into()
                && number > i128::from(issued) - 8
                && number <= issued.into();
            let state = InFlight { starting, issued, acknowledged: issued, mark };
            if held {
                let index = (7 - (i128::from(issued) - number)) as usize;
                sent[index] += 1;
                check_sent(state, index);
            } else {
                check_unsent(state);
            }
        }
    }
    // The newest: each ID with each starting mark below it; the one before it likewise; and so on.
    let all_above = |least: u64| (least..=PLACES).sum::<u64>();
    let expected: Vec<u64> =
        (0..8).rev().map(|behind| all_above(1 + behind) - behind * (PLACES - behind)).collect();
    assert_eq!(sent.to_vec(), expected);
}

/// A send writes behind the mark what lies at this index of the eight.
fn check_sent(state: InFlight, index: usize) {
    let mut scene = state.send();
    let mut expected = scene.cluster.records.servers[SERVER];
    let number = state.mark + 1;
    assert_eq!(scene.apply(), Ok(Answer::Number(number)), "{state:?}");
    assert_eq!(place(scene.medium(), number), expected.held[index], "{state:?}");
    (expected.marks[REPLICA], expected.acknowledged) = (number, number);
    assert_eq!(scene.cluster.records.servers[SERVER], expected, "{state:?}");
}

/// A send has nothing to do. 16 comes before the medium is looked at, which holds no record.
fn check_unsent(state: InFlight) {
    let mut scene = InFlight { mark: 0, ..state }.send();
    scene.cluster.records.servers[SERVER].marks[REPLICA] = state.mark;
    let before = scene.clone();
    assert_eq!(scene.apply(), Err(Refusal::NothingToDo), "{state:?}");
    assert!(scene == before, "{state:?}");
}

/// "eight or more unacknowledged", counted from the acknowledged mark: every acknowledged and issued
/// mark, also with a starting mark above both.
#[test]
fn issue_declines_exactly_if_eight_or_more_are_unacknowledged() {
    for starting in [0, 3, PLACES] {
        for (acknowledged, issued) in
            (0..=PLACES).flat_map(|one| (0..PLACES).map(move |other| (one, other)))
        {
            let many = i128::from(issued) - i128::from(acknowledged) >= 8;
            let reply = InFlight { starting, issued, acknowledged, mark: 0 }.issue().apply();
            let names = format!("acknowledged {acknowledged}, issued {issued}");
            match many {
                true => assert_eq!(reply, Err(Refusal::Unacknowledged), "{names}"),
                false => assert_eq!(reply, Ok(Answer::Number(issued + 1)), "{names}"),
            }
        }
    }
}

/// The record that the scene's issue makes under this ID.
fn issued_bytes(id: u64) -> PlaceBytes {
    let (client, generation, partition, sequence, header) = (0, GENERATION, 0, 0, 1);
    let data = &[0xF1];
    Record { id, client, generation, partition, sequence, header, data }.encode()
}

/// Whatever was held, also with issued below the starting mark.
#[test]
fn issue_drops_the_first_and_appends() {
    for (starting, issued) in [(2, 12), (0, 0), (0, 3), (12, 12), (15, 12), (20, 0)] {
        let mut scene = InFlight { starting, issued, acknowledged: issued, mark: 0 }.issue();
        let before = scene.cluster.clone();
        let mut held = before.records.servers[SERVER].held.to_vec();
        for id in issued + 1..=issued + 2 {
            assert_eq!(scene.apply(), Ok(Answer::Number(id)));
            held.remove(0);
            held.push(issued_bytes(id));
        }
        let mut expected = before;
        let server = &mut expected.records.servers[SERVER];
        (server.held, server.issued) = (held.try_into().expect("eight"), issued + 2);
        assert!(scene.cluster == expected, "starting mark {starting}, issued {issued}");
    }
}

/// Issued one below the starting mark: the first ID is not above it and is never sent, the second is.
#[test]
fn what_is_issued_up_to_the_starting_mark_is_not_held() {
    let state = InFlight { starting: 6, issued: 5, acknowledged: 5, mark: 5 };
    let mut cluster = state.cluster();
    let mut call = state.issue().call;
    let replies = [(); 2].map(|_| cluster.apply(&mut call));
    assert_eq!(replies, [6, 7].map(|id| Ok(Answer::Number(id))));
    let mut send = state.send().call;
    assert_eq!(cluster.apply(&mut send), Err(Refusal::NothingToDo));
    let higher = InFlight { mark: 6, ..state }.cluster();
    cluster.media = higher.media;
    cluster.records.servers[SERVER].marks[REPLICA] = 6;
    // The other members' marks are 5 and 0.
    assert_eq!(cluster.apply(&mut send), Ok(Answer::Number(5)));
    assert_eq!(place(cluster.medium(REPLICA), 7), issued_bytes(7));
    assert_eq!(cluster.apply(&mut send), Err(Refusal::NothingToDo));
}

/// What is held is written as it is, also bytes that are not valid in that place: the mark then stays,
/// and the acknowledged mark is computed anew.
#[test]
fn what_is_held_is_written_as_it_is() {
    let mut spoilt = record_bytes(7);
    spoilt[40] ^= 1;
    for held in [WIPED, [0xA5; PLACE_BYTES], spoilt, record_bytes(6), record_bytes(8)] {
        let mut scene = InFlight { starting: 2, issued: 12, acknowledged: 11, mark: 6 }.send();
        scene.cluster.records.servers[SERVER].held[2] = held;
        for _ in 0..2 {
            assert_eq!(scene.apply(), Ok(Answer::Number(6)));
            assert_eq!(place(scene.medium(), 7), held);
            assert_eq!(mark(scene.medium()), 6);
            let Server { marks, acknowledged, .. } = scene.cluster.records.servers[SERVER];
            assert_eq!((marks[REPLICA], acknowledged), (6, 6));
        }
    }
}

/// Eight records that are handed in with an opening server: nothing of them is held, as none was issued;
/// but they are still there, and an issue drops the first of them alone.
#[test]
fn open_leaves_the_eight_as_they_are() {
    let scenes = all_scenes();
    let open = scenes.into_iter().find(|scene| scene.kind == Kind::Open).expect("open's scene");
    let mut cluster = open.cluster.clone();
    cluster.records.servers[SERVER].held = held_up_to(12);
    assert_eq!(cluster.open(SERVER as u64, Fate::Answered), Ok(Answer::Number(4)));
    assert_eq!(cluster.records.servers[SERVER].held, held_up_to(12));
    for replica in 0..2 {
        let reply = cluster.send(SERVER as u64, replica, &Message::new(Fate::Answered));
        assert_eq!(reply, Err(Refusal::NothingToDo));
    }
    let mut issue = InFlight { starting: 4, issued: 4, acknowledged: 4, mark: 4 }.issue().call;
    assert_eq!(cluster.apply(&mut issue), Ok(Answer::Number(5)));
    let held = cluster.records.servers[SERVER].held;
    assert_eq!(held[..7], held_up_to(12)[1..]);
    assert_eq!(held[7], issued_bytes(5));
}

/// A call, two numbers next to each other in its order, and what undoes the first.
type Pair = (Kind, [u64; 2], fn(&mut Scene));

/// Pairs of numbers next to each other in a call's order: the first is given, and where it is undone
/// the second, so that both conditions hold in the scene.
#[test]
fn thirteen_and_sixteen_stand_in_their_places() {
    let scenes = all_scenes();
    let pairs: [Pair; 4] = [
        (Kind::BookingIssue, [12, 13], |scene| {
            scene.request().data.truncate(28);
            scene.request().locks.truncate(4);
        }),
        (Kind::BookingIssue, [13, 14], |scene| {
            scene.cluster.records.servers[SERVER].acknowledged = scene.cluster.shape.places
        }),
        (Kind::Send, [7, 16], |scene| {
            scene.cluster.records.servers[SERVER].standings[REPLICA] = Standing::In
        }),
        (Kind::Send, [16, 18], |scene| {
            let server = &mut scene.cluster.records.servers[SERVER];
            (server.starting, server.issued) = (2, 5);
        }),
    ];
    for (kind, [first, second], undo) in pairs {
        let scene = scenes.iter().find(|scene| scene.kind == kind).expect("a scene");
        let faults = faults_of(scene);
        let of = |number: u64| faults.iter().filter(move |fault| fault.number() == number);
        let mut tried = 0;
        for (one, other) in of(first).flat_map(|one| of(second).map(move |other| (one, other))) {
            let mut scene = with_faults(scene, &[one, other]);
            let names = format!("{} and {}", one.name, other.name);
            assert_eq!(scene.clone().apply().map_err(|it| it.number()), Err(first), "{names}");
            undo(&mut scene);
            assert_eq!(scene.apply().map_err(|it| it.number()), Err(second), "{names}");
            tried += 1;
        }
        assert!(tried >= 2, "{first} and {second}");
    }
}

/// "if it is still held": a member more than eight behind is sent nothing for ever. With nobody left to
/// copy from, issue comes to 13 and stays there until another session.
#[test]
fn a_member_that_is_outrun_waits_for_a_copy_or_another_session() {
    let mut cluster = Answered::opened(20);
    for id in 1..=9 {
        assert_eq!(cluster.issue(0, 0, id as u8), Ok(id));
        if id == 1 {
            assert_eq!(cluster.send(0), [Ok(0), Ok(1)]);
        }
    }
    // Eight are in flight, and replica 2 holds nothing.
    assert_eq!(cluster.send_to(0, 2), Err(16));
    let lost = Message::new(Fate::Lost);
    for replica in 0..2 {
        assert_eq!(cluster.0.send(0, replica, &lost), Ok(Answer::Silent));
    }
    let stuck = cluster.0.clone();
    for _ in 0..2 {
        assert_eq!(cluster.copy(0, 0, 2), Err(7));
        assert_eq!(cluster.send_to(0, 2), Err(16));
        assert_eq!(cluster.issue(0, 1, 10), Err(13));
    }
    assert!(cluster.0 == stuck);
    cluster.recover(1, 2, 1);
    assert_eq!(cluster.issue(1, 1, 10), Ok(2));
}

/// How far a replica was sent the eight records, and what a session then finds there.
fn deliver(cluster: &mut Answered, counts: [u64; 3]) {
    for (replica, count) in (0..).zip(counts) {
        for _ in 0..count {
            cluster.send_to(0, replica).expect("held and not there yet");
        }
    }
}

/// Server 1 opens with these replicas, those behind lifted to the highest where nothing is decided.
fn recover(cluster: &mut Answered, replicas: &[u64]) -> u64 {
    assert_eq!(cluster.take(1), Ok(2));
    for &replica in replicas {
        cluster.prepare(1, replica).expect("an answer");
    }
    if replicas.len() == 2 {
        let marks = cluster.0.records.servers[1].marks;
        let [one, other] = [replicas[0], replicas[1]];
        let (low, high) =
            if marks[one as usize] < marks[other as usize] { (one, other) } else { (other, one) };
        for _ in marks[low as usize]..marks[high as usize] {
            cluster.copy(1, high, low).expect("a copy");
        }
    }
    let mark = majority(&cluster.0, replicas);
    for &replica in replicas {
        // A third one above the mark counts against nothing; one below is lifted.
        while cluster.0.records.servers[1].marks[replica as usize] < mark {
            let from = replicas
                .iter()
                .copied()
                .find(|&other| cluster.0.records.servers[1].marks[other as usize] >= mark)
                .expect("one at the mark");
            cluster.copy(1, from, replica).expect("a copy");
        }
    }
    for &replica in replicas {
        if cluster.0.records.servers[1].marks[replica as usize] > mark {
            let message = Message::new(Fate::Answered);
            assert_eq!(cluster.0.trim(1, replica, &message), Ok(Answer::Number(mark)));
        }
    }
    cluster.open(1).expect("the mark is decided")
}

/// The highest mark that two of the known replicas reach.
fn majority(cluster: &Cluster, replicas: &[u64]) -> u64 {
    let mut marks: Vec<u64> = replicas
        .iter()
        .map(|&replica| cluster.records.servers[1].marks[replica as usize])
        .collect();
    marks.sort_unstable();
    marks[marks.len() - 2]
}

/// "A server stopped with records in flight is one more case that the recovery guarantee has to cover,
/// whichever of the eight reached whom": every way in which the eight reach three replicas, and every
/// choice of replicas to recover with.
#[test]
fn whichever_of_the_eight_reached_whom() {
    let mut issued = Answered::opened(8);
    for id in 1..=8 {
        assert_eq!(issued.issue(0, 0, 0x10 + id as u8), Ok(id));
    }
    let counts = (0..9u64.pow(3)).map(|number| [number / 81, number / 9 % 9, number % 9]);
    for counts in counts {
        let mut sent = issued.clone();
        deliver(&mut sent, counts);
        let acknowledged = sent.0.records.servers[0].acknowledged;
        let mut sorted = counts;
        sorted.sort_unstable();
        assert_eq!(acknowledged, sorted[1]);
        for replicas in [&[0, 1][..], &[0, 2], &[1, 2], &[0, 1, 2]] {
            let mut cluster = sent.clone();
            let starting = recover(&mut cluster, replicas);
            assert!(starting >= acknowledged, "{counts:?}, {replicas:?}");
            for &replica in replicas {
                for id in 1..=starting {
                    assert_eq!(cluster.read(1, replica, id), 0x10 + id as u8);
                }
            }
        }
    }
}
