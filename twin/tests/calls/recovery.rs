//! Recoveries (document 02, No. 9): outcomes row by row, what the driver declines, and which calls it makes.

use std::collections::BTreeSet;

use twin::cluster::{Answer, Call, Cluster, Message, Phase, Refusal, Reply, Shape};
use twin::fate::{Fate, Left};
use twin::medium::{mark, place, Record, PLACE_BYTES};
use twin::random::Random;
use twin::tries::caller::Caller;
use twin::tries::headers::{draw_header, with_headers};
use twin::tries::recoveries::{draw_idle, draw_recovery, Recovery};
use twin::tries::recovery_faults::{faults, sound, with_faults, Fault, Try, OWN};
use twin::tries::recovery_rows::{cluster, issue, outcome, parse, MARKS, ROWS};
use twin::tries::scene::record_bytes;
use twin::tries::states::Draw;
use twin::tries::useful;

fn marks(cluster: &Cluster) -> Vec<u64> {
    (0..cluster.shape.replicas as usize).map(|replica| mark(cluster.medium(replica))).collect()
}

/// The outcome of the recovery that a row begins with.
fn drive(cluster: &mut Cluster, call: &str) -> String {
    let (recovery, _) = parse(&format!("{call} →")).expect("a row");
    outcome(recovery.apply(cluster))
}

fn number(cluster: &mut Cluster, mut call: Call) -> Result<u64, u64> {
    match cluster.apply(&mut call) {
        Ok(Answer::Number(value)) => Ok(value),
        Ok(other) => panic!("{other:?}"),
        Err(refusal) => Err(refusal.number()),
    }
}

fn send(server: u64, replica: u64) -> Call {
    Call::Send { server, replica, message: Message::new(Fate::Answered) }
}

fn take(server: u64) -> Call {
    Call::Take { server, fate: Fate::Answered }
}

#[test]
fn every_row_of_the_table() {
    assert_eq!(marks(&cluster()), MARKS);
    for row in ROWS {
        let (recovery, expected) = parse(row).expect("a row");
        let mut after = cluster();
        assert_eq!(outcome(recovery.apply(&mut after)), expected, "{row}");
        if expected.ends_with(", 0") {
            assert!(after == cluster(), "{row}");
        }
    }
}

/// "the next take answers": a session is used up if the register was reached.
#[test]
fn a_silent_recovery_leaves_the_server_idle() {
    for (call, session) in [
        ("drive 1 [2,0,1] [0,0,0,0,0,0,0,2]", 3),
        ("drive 1 [2,0,1] [1]", 2),
        ("drive 1 [0] [2]", 3),
    ] {
        let mut cluster = cluster();
        assert!(drive(&mut cluster, call).starts_with("silent"), "{call}");
        assert_eq!(cluster.records.servers[1], Default::default());
        assert_eq!(number(&mut cluster, take(1)), Ok(session), "{call}");
    }
}

/// "No stop": after 8, 9 or an open that is cut the server is opening, and the rest can be done by hand.
#[test]
fn a_declined_open_leaves_the_server_opening() {
    for call in ["drive 1 [2] []", "drive 1 [0,2,1] [0,0,0,0,6,7]", "drive 1 [0] [0,0,9]"] {
        let mut cluster = cluster();
        let end = drive(&mut cluster, call);
        assert!(end.starts_with("no "), "{call}: {end}");
        assert_eq!(cluster.records.servers[1].phase, Phase::Opening);
        assert_eq!(drive(&mut cluster, "drive 1 [0,1,2] []"), "no 5, 0");
        assert_eq!(number(&mut cluster, take(2)), Ok(3));
    }
    let mut cluster = cluster();
    assert_eq!(drive(&mut cluster, "drive 1 [2] []"), "no 8, 3");
    let (server, message) = (1, Message::new(Fate::Answered));
    assert_eq!(number(&mut cluster, Call::Prepare { server, replica: 1, message }), Ok(3));
    for mark in [2, 3] {
        let copy = Call::Copy { server, from: 1, to: 2, message };
        assert_eq!(number(&mut cluster, copy), Ok(mark));
    }
    assert_eq!(number(&mut cluster, Call::Open { server, fate: Fate::Answered }), Ok(3));
}

/// A call in few words.
fn words(call: &Call, reply: Reply) -> String {
    let call = match call {
        Call::Take { .. } => "take".to_string(),
        Call::Prepare { replica, .. } => format!("prepare {replica}"),
        Call::Copy { from, to, .. } => format!("copy {from} to {to}"),
        Call::Open { .. } => "open".to_string(),
        other => panic!("{other:?}"),
    };
    match reply {
        Ok(Answer::Number(value)) => format!("{call} → {value}"),
        Ok(_) => format!("{call} → silent"),
        Err(refusal) => format!("{call} → no {}", refusal.number()),
    }
}

/// The recovery's calls by hand, in few words, and what they leave.
fn trace(before: &Cluster, recovery: &Recovery) -> (Vec<String>, (Reply, u64), Cluster) {
    let (mut after, mut calls) = (before.clone(), Vec::new());
    let end = recovery.by_hand(&before.records.register, |mut call| {
        let reply = after.apply(&mut call);
        calls.push(words(&call, reply));
        reply
    });
    (calls, end, after)
}

fn trace_of(call: &str) -> Vec<String> {
    let (recovery, _) = parse(&format!("{call} →")).expect("a row");
    trace(&cluster(), &recovery).0
}

/// One source for all, in list order, one replica to the end before the next.
#[test]
fn the_calls_one_after_another() {
    let all = [
        "take → 2",
        "prepare 2 → 1",
        "prepare 0 → 2",
        "prepare 1 → 3",
        "copy 1 to 2 → 2",
        "copy 1 to 2 → 3",
        "copy 1 to 0 → 3",
        "open → 3",
    ];
    assert_eq!(trace_of("drive 1 [2,0,1] []"), all);
    // The copy that is lost was replica 2's first: it is forgotten, and the next fate is replica 0's.
    let lost = trace_of("drive 1 [2,0,1] [0,0,0,0,1]");
    assert_eq!(lost[4..], ["copy 1 to 2 → silent", "copy 1 to 0 → 3", "open → 3"]);
    let declined = trace_of("drive 1 [2,0,1] [0,3,0,0,4]");
    assert_eq!(declined[1], "prepare 2 → no 6");
    assert_eq!(declined[4..], ["copy 1 to 0 → no 6", "open → no 8"]);
}

/// "from the first that then had it": by the list, not by the number. The records of the two that have it
/// differ, so that it shows in what replica 2 gets.
#[test]
fn the_source_is_the_first_of_the_list_at_the_highest_mark() {
    let mut even = cluster();
    assert_eq!(number(&mut even, send(0, 0)), Ok(3));
    let mut header = 0;
    let even = with_headers(&even, |_| {
        header += 1;
        header
    });
    for (listed, source) in [([2, 1, 0], 1), ([2, 0, 1], 0), ([0, 2, 1], 0), ([1, 2, 0], 1)] {
        let mut after = even.clone();
        let (reply, count) = after.recover(1, &listed, &[], &[]);
        assert_eq!(outcome((reply, count)), "ok 3, 7");
        for id in [2, 3] {
            let [got, other] = [2, source].map(|replica| place(after.medium(replica), id));
            assert!(got == other && got != place(after.medium(1 - source), id), "{listed:?}");
        }
        let (calls, end, _) = trace(&even, &Recovery::new(1, &listed, &[]));
        let copies: Vec<&String> = calls.iter().filter(|it| it.starts_with("copy")).collect();
        assert_eq!(
            copies,
            [&format!("copy {source} to 2 → 2"), &format!("copy {source} to 2 → 3")]
        );
        assert_eq!(outcome(end), "ok 3, 7");
    }
}

/// The second worked list: a prepare cuts a replica to its closing mark.
#[test]
fn with_truncation_call_by_call() {
    let mut cluster = Cluster::fresh(Shape::whole(3, 6)).expect("an allowed shape");
    assert_eq!(drive(&mut cluster, "drive 0 [0,1,2] []"), "ok 0, 5");
    assert_eq!([1, 2].map(|byte| number(&mut cluster, issue(0, 0, byte))), [Ok(1), Ok(2)]);
    assert_eq!([(); 2].map(|_| number(&mut cluster, send(0, 2))), [Ok(0); 2]);
    assert_eq!(drive(&mut cluster, "drive 1 [0,1] []"), "ok 0, 4");
    assert_eq!(number(&mut cluster, issue(1, 0, 3)), Ok(1));
    assert_eq!([1, 0].map(|replica| number(&mut cluster, send(1, replica))), [Ok(0), Ok(1)]);
    assert_eq!(drive(&mut cluster, "drive 2 [2,1,0] []"), "ok 1, 6");
    assert_eq!(marks(&cluster), [1, 1, 1]);
    let bytes = place(cluster.medium(2), 1);
    assert_eq!(Record::decode(1, &bytes).expect("a record").data, [3]);
}

/// The number that the driver declines with; nothing changes then, and no call is made.
fn declined(it: &Try) -> Option<u64> {
    let mut after = it.cluster.clone();
    let (reply, count) = it.recovery.apply(&mut after);
    let number = reply.err().map(|refusal| refusal.number()).filter(|_| count == 0)?;
    assert!(after == it.cluster, "{number} changes something");
    Some(number)
}

#[test]
fn each_fault_alone_gives_its_number() {
    let sound = sound();
    assert_eq!(declined(&sound), None);
    let mut met = BTreeSet::new();
    for fault in faults() {
        assert_eq!(declined(&with_faults(&sound, &[&fault])), Some(fault.number), "{}", fault.name);
        met.insert(fault.number);
    }
    assert_eq!(met, BTreeSet::from(OWN));
}

/// 1, 2, 3, 4, 5, 29. The faults of a list replace one another, so that one of them alone is taken.
#[test]
fn of_several_faults_the_first_is_given() {
    let mut random = Random::new(29);
    let (sound, faults) = (sound(), faults());
    let rank = |number: u64| OWN.iter().position(|&other| other == number);
    for _ in 0..3_000 {
        let rate = 1 + random.below(12);
        let mut some: Vec<&Fault> = faults.iter().filter(|_| random.chance(rate)).collect();
        let of_lists = |fault: &&Fault| matches!(fault.number, 4 | 29);
        let kept = some.iter().copied().find(of_lists).map(|fault| fault.name);
        some.retain(|fault| !of_lists(fault) || Some(fault.name) == kept);
        let first = some.iter().map(|fault| fault.number).min_by_key(|&number| rank(number));
        let names: Vec<&str> = some.iter().map(|fault| fault.name).collect();
        assert_eq!(declined(&with_faults(&sound, &some)), first, "{names:?}");
    }
}

/// 4 comes before 5 and 29, and a repeated replica is 29 and not 4.
#[test]
fn numbers_beside_each_other() {
    let cluster = cluster();
    for (call, end) in [
        ("drive 1 [0,0,3] []", "no 4, 0"),
        ("drive 1 [3,3] []", "no 4, 0"),
        ("drive 0 [3] []", "no 4, 0"),
        ("drive 4 [3,3] []", "no 3, 0"),
        ("drive 0 [] []", "no 5, 0"),
        ("drive 0 [1,1] []", "no 5, 0"),
        ("drive 1 [1,0,1] [0]", "no 29, 0"),
        ("drive 1 [] [6]", "no 29, 0"),
        // 6 is the take's, and so comes after 29.
        ("drive 1 [1,1] [6]", "no 29, 0"),
        ("drive 1 [1] [6]", "no 6, 1"),
    ] {
        assert_eq!(drive(&mut cluster.clone(), call), end, "{call}");
    }
}

/// What one recovery does, by the driver and by hand: reply, count and all that is left are the same.
fn check_by_hand(before: &Cluster, recovery: &Recovery) -> (Reply, u64, BTreeSet<String>) {
    let mut after = before.clone();
    let (reply, count) = recovery.apply(&mut after);
    let Shape { replicas, places, .. } = before.shape;
    if count == 0 {
        let number = reply.expect_err("no call was made").number();
        assert!(OWN.contains(&number) && after == *before, "{number}");
        return (reply, 0, BTreeSet::new());
    }
    let (calls, end, by_hand) = trace(before, recovery);
    assert!(end == (reply, count), "{recovery:?}: {calls:?}");
    assert!(by_hand == after, "{recovery:?}: {calls:?}");
    assert!(count <= 2 + replicas + replicas * places, "{count}");
    let kinds = calls.iter().filter_map(|call| {
        let (call, reply) = call.split_once(" → ")?;
        let kind = if reply.parse::<u64>().is_ok() { "ok" } else { reply };
        Some(format!("{} {kind}", call.split(' ').next()?))
    });
    (reply, count, kinds.collect())
}

/// "its last call's": which replies each kind of call has in a recovery, on whatever state.
const KINDS: [&str; 16] = [
    "copy no 6",
    "copy ok",
    "copy silent",
    "open no 6",
    "open no 8",
    "open no 9",
    "open ok",
    "open silent",
    "prepare no 18",
    "prepare no 19",
    "prepare no 6",
    "prepare ok",
    "prepare silent",
    "take no 21",
    "take no 6",
    "take ok",
];

/// Random states, whose records all differ, and lists of any kind. "another number is its last call's": 6 or 21 of the take, 6, 8 or 9 of
/// the open. No prepare or copy is declined for another reason than these, so that nobody meets 1 to 5 twice.
#[test]
fn the_driver_leaves_what_its_calls_leave() {
    let mut random = Random::new(9);
    let (mut kinds, mut ends, mut longest) = (BTreeSet::new(), BTreeSet::new(), 0);
    for _ in 0..40_000 {
        let most = *random.pick(&[4, 4, 4, 12]);
        let places = 1 + random.below(most);
        let mut draw = Draw { random: &mut random, places };
        let cluster = draw.cluster();
        let recovery = draw.recovery(&cluster);
        let before = with_headers(&cluster, |_| draw_header(&mut random, 5));
        let (reply, count, met) = check_by_hand(&before, &recovery);
        ends.insert((reply.map_err(|refusal| refusal.number()).err(), count == 0));
        kinds.extend(met);
        longest = longest.max(count);
    }
    kinds.remove("take silent");
    assert_eq!(kinds.iter().map(String::as_str).collect::<Vec<_>>(), KINDS);
    let numbers = |own: bool| ends.iter().filter(move |it| it.1 == own).filter_map(|it| it.0);
    assert_eq!(numbers(true).collect::<Vec<_>>(), [1, 2, 3, 4, 5, 29]);
    assert_eq!(numbers(false).collect::<Vec<_>>(), [6, 8, 9, 21]);
    assert!(longest > 30, "{longest}");
}

/// On what lists of calls leave, recoveries among them.
#[test]
fn so_it_does_in_lists() {
    let mut random = Random::new(90);
    let (mut opened, mut made) = (0, 0);
    for _ in 0..300 {
        let shape = Shape::whole(*random.pick(&[1, 3, 3, 5, 7]), 1 + random.below(12));
        let mut cluster = Cluster::fresh(shape).expect("an allowed shape");
        let caller = Caller::new(&mut random);
        for _ in 0..150 {
            let mut call = useful::next_call(&mut random, &caller, &cluster);
            if let (Call::Take { server, .. }, true) = (&call, random.chance(2)) {
                let recovery = draw_recovery(&mut random, &caller, &cluster, *server);
                let (reply, count, _) = check_by_hand(&cluster, &recovery);
                opened += u64::from(matches!(reply, Ok(Answer::Number(_))));
                made += u64::from(count > 0);
                let _ = recovery.apply(&mut cluster);
            } else {
                let _ = cluster.apply(&mut call);
            }
        }
    }
    assert!(made > 1_000 && opened > made / 3, "{opened} of {made}");
}

/// "fates left over are never read, not even by 6"; nor are given bytes but those of a write that is torn.
#[test]
fn only_the_fates_of_calls_that_are_made_are_read() {
    let mut random = Random::new(91);
    let (mut left, mut torn) = (0, 0);
    for _ in 0..10_000 {
        let places = 1 + random.below(4);
        let mut draw = Draw { random: &mut random, places };
        let before = draw.cluster();
        let recovery = draw.recovery(&before);
        let mut expected = before.clone();
        let (reply, count) = recovery.apply(&mut expected);
        if count == 0 {
            continue;
        }
        let mut fates = recovery.fates.clone();
        let mut given = recovery.given();
        fates.resize(count as usize + random.below(3) as usize, Fate::Answered);
        given.resize(fates.len() * PLACE_BYTES, 0);
        for (at, fate) in fates.iter_mut().enumerate() {
            let bytes = &mut given[at * PLACE_BYTES..][..PLACE_BYTES];
            match *fate {
                _ if at >= count as usize => {
                    (*fate, left) = (Fate::of_code(random.below(12)), left + 1);
                    bytes.copy_from_slice(&record_bytes(1));
                }
                Fate::Cut(_, Left::Torn) => torn += 1,
                _ => bytes.copy_from_slice(&record_bytes(1)),
            }
        }
        let mut after = before.clone();
        let end = after.recover(recovery.server, &recovery.listed, &fates, &given);
        assert!(end == (reply, count) && after == expected, "{recovery:?}");
    }
    assert!(left > 1_000 && torn > 300, "{left} {torn}");
}

/// A list that is longer than any line has, of any kind of fates.
#[test]
fn lists_have_any_length() {
    let (mut before, mut after) = (cluster(), cluster());
    let fates = [vec![Fate::Answered; 8], vec![Fate::Cut(0, Left::Torn); 992]].concat();
    let end = after.recover(1, &[2, 0, 1], &fates, &vec![0xFF; 72_000]);
    assert!(end == before.recover(1, &[2, 0, 1], &[], &[]) && after == before);
    let listed: Vec<u64> = (0..3).cycle().take(3_000).collect();
    let (reply, count) = after.recover(2, &listed, &[], &[]);
    assert_eq!((reply, count), (Err(Refusal::UnfitList), 0));
}

/// On what lists of calls leave, with cuts and losses: "no valid place lies above a listed mark", and no promise
/// is above the session, so that it opens if nobody is left out and everything is answered.
#[test]
fn after_any_list_a_recovery_arrives() {
    let mut random = Random::new(92);
    let mut copied = 0;
    for _ in 0..400 {
        let shape = Shape::whole(*random.pick(&[1, 3, 3, 5, 7]), 1 + random.below(12));
        let mut cluster = Cluster::fresh(shape).expect("an allowed shape");
        let caller = Caller::new(&mut random);
        for _ in 0..random.below(150) {
            let server = draw_idle(&mut random, &cluster);
            if random.chance(30) {
                let _ = draw_recovery(&mut random, &caller, &cluster, server).apply(&mut cluster);
            } else {
                let _ = cluster.apply(&mut useful::next_call(&mut random, &caller, &cluster));
            }
        }
        let server = random.below(4);
        assert_eq!(cluster.stop(server), Ok(Answer::Nothing));
        let listed: Vec<u64> = (0..shape.replicas).collect();
        let (reply, count) = cluster.recover(server, &listed, &[], &[]);
        assert!(matches!(reply, Ok(Answer::Number(_))), "{reply:?}");
        copied += count - 2 - shape.replicas;
        let highest = marks(&cluster);
        assert!(highest.iter().all(|mark| Ok(Answer::Number(*mark)) == reply), "{highest:?}");
    }
    assert!(copied > 300, "{copied}");
}
