//! Media from a backup on states that are handed in: why a restore is declined, bytes of every kind, entries
//! that are restored in the register and handed over, and recoveries among them.

use super::calls::{prepare, take};
use super::recorder::Recorder;
use super::recoveries::{recover, rewound};
use super::scenes::{try_scene, under_every_fate};
use crate::cluster::{Call, Closing, Cluster, Entry, Message, Records, Shape, Standing};
use crate::fate::{Fate, Left};
use crate::medium::{place_at, put, Slot, PLACE_BYTES, SLOTS_BYTES, SLOT_BYTES};
use crate::random::Random;
use crate::tries::faults::{faults_of, with_faults, Fault};
use crate::tries::headers::with_header;
use crate::tries::recoveries::Recovery;
use crate::tries::restores::MOST_BACKUP;
use crate::tries::scene::{
    all_scenes, record_bytes, set_place, Kind, Scene, REPLICA, SERVER, SESSION, SOURCE,
};
use crate::votes::quorum;

const LEFT: [Left; 3] = [Left::Old, Left::New, Left::Torn];

pub fn replay(recorder: &mut Recorder, random: &mut Random) {
    declined(recorder);
    lengths(recorder);
    bytes(recorder, random);
    entries(recorder);
    copies(recorder);
    old_servers(recorder);
    votes(recorder);
    recoveries(recorder);
    recovery_fates(recorder);
    kept(recorder);
}

fn scene(kind: Kind) -> Scene {
    all_scenes().into_iter().find(|scene| scene.kind == kind).expect("a scene")
}

/// Two of each pair of numbers: the first is given, with the bytes left as they are.
fn declined(recorder: &mut Recorder) {
    let scene = scene(Kind::Restore);
    let faults = faults_of(&scene);
    let of = |number: u64| faults.iter().filter(move |fault| fault.number() == number);
    let numbers = [1, 2, 4, 21, 30];
    for (at, &first) in numbers.iter().enumerate() {
        for &second in &numbers[at + 1..] {
            for pair in [
                (of(first).next(), of(second).next_back()),
                (of(first).next_back(), of(second).next()),
            ] {
                let faults: [&Fault; 2] = [pair.0, pair.1].map(|fault| fault.expect("a fault"));
                let Scene { cluster, call, .. } = with_faults(&scene, &faults);
                recorder.hand_in(cluster);
                let reply = recorder.call(&call).map_err(|refusal| refusal.number());
                assert_eq!(reply, Err(first), "{} {}", faults[0].name, faults[1].name);
            }
        }
    }
}

/// The lengths beside that of a medium, up to the most that a line lends, and bytes at either end of it.
fn lengths(recorder: &mut Recorder) {
    recorder.fresh(Shape::whole(1, 1));
    let exact = SLOTS_BYTES + PLACE_BYTES;
    let own = recorder.cluster().medium(0).to_vec();
    for length in [0, 1, SLOT_BYTES, SLOTS_BYTES, exact - 1, exact + 1, 2 * exact, MOST_BACKUP] {
        let mut backup = own.clone();
        backup.resize(length, 0xEE);
        let reply = recorder.call(&Call::Restore { replica: 0, backup });
        assert_eq!(reply.map_err(|refusal| refusal.number()), Err(1), "{length}");
    }
    let mut backup = own.clone();
    backup[exact - 1] = 0x77;
    recorder.call(&Call::Restore { replica: 0, backup }).expect("a valid slot");
    recorder.call(&Call::Restore { replica: 0, backup: own }).expect("a valid slot");
}

/// Slots of a backup, one of which may be spoilt: promises at either end, low-water marks below the log's mark,
/// at it and above it, and local ones that differ.
fn slot_pairs() -> Vec<[Vec<u8>; 2]> {
    let slot = |promise, low, local| Slot { promise, low, local }.encode().to_vec();
    let spoilt = |mut bytes: Vec<u8>| {
        bytes[SLOT_BYTES - 1] ^= 1;
        bytes
    };
    let mut pairs = vec![
        [spoilt(slot(9, 3, 3)), slot(3, 2, 0)],
        [slot(3, 1, 3), spoilt(slot(9, 0, 0))],
        [slot(3, 1, 3), slot(3, 2, 0)],
        [slot(3, 2, 3), slot(3, 2, 0)],
        [slot(u64::MAX, 1, 0), slot(7, 3, 3)],
        [slot(0, 0, 0), slot(0, 0, 0)],
    ];
    let lows = [0, 1, 2, 3, 4, 13, 14, u64::MAX - 1, u64::MAX];
    pairs.extend(lows.map(|low| [slot(4, low, u64::MAX - low), slot(2, 0, 0)]));
    pairs
}

/// Each is restored and prepared by the next session. So are bytes with damaged places, a gap in the log, and
/// places that are full of anything.
fn bytes(recorder: &mut Recorder, random: &mut Random) {
    for [first, second] in slot_pairs() {
        let mut scene = scene(Kind::Restore);
        put(scene.backup(), 0, &first);
        put(scene.backup(), SLOT_BYTES, &second);
        prepared(recorder, scene);
    }
    for at in [place_at(1), place_at(2) + 9, place_at(3) + PLACE_BYTES - 1] {
        let mut scene = scene(Kind::Restore);
        scene.backup()[at] ^= 0x10;
        prepared(recorder, scene);
    }
    for low in [0, 2, 5] {
        let mut scene = scene(Kind::Restore);
        put(scene.backup(), 0, &Slot { promise: 4, low, local: 1 }.encode());
        set_place(scene.backup(), 5);
        put(scene.backup(), place_at(4), &random.bytes(PLACE_BYTES));
        prepared(recorder, scene);
    }
}

/// The scene's restore, on a medium without a valid slot, and a prepare of the next session.
fn prepared(recorder: &mut Recorder, mut scene: Scene) {
    scene.medium()[0] ^= 1;
    scene.medium()[SLOT_BYTES] ^= 1;
    recorder.hand_in(scene.cluster);
    recorder.call(&scene.call).expect("a valid slot");
    recorder.call(&take(0)).expect("an idle server");
    recorder.call(&prepare(0, REPLICA as u64)).expect("a promise below");
}

/// Each kind of entry becomes restored, with any session; one of a replica from R up stays what it is. The third
/// number of an entry that is restored says nothing.
fn entries(recorder: &mut Recorder) {
    for closing in [Closing::Unresolved, Closing::Mark(0), Closing::Mark(13), Closing::Restored] {
        for session in [0, SESSION, u64::MAX] {
            let mut scene = scene(Kind::Restore);
            let entries = &mut scene.cluster.records.register.entries;
            entries.fill(Entry { session, closing });
            try_scene(recorder, scene);
        }
    }
    let mut cluster = recorder.cluster().clone();
    let entry = Entry { session: 7, closing: Closing::Restored };
    cluster.records.register.entries[1] = entry;
    cluster.records.servers[2].entries[2] = entry;
    recorder.hand_in(cluster);
    recorder.same(&format!("entry\t1\t7\t2\t{}", u64::MAX));
    recorder.same("handed\t2\t2\t7\t2\t14");
    recorder.call(&Call::Reassign).expect("a generation below the top");
}

/// The scene with this replica handed over as restored.
fn with_restored(kind: Kind, replica: usize) -> Scene {
    let mut scene = scene(kind);
    scene.cluster.records.servers[SERVER].entries[replica].closing = Closing::Restored;
    scene
}

/// From a restored one and to one, by a server that is opening and by one that is open, under every fate; 16 comes
/// before 17, and the register's entry of now is not looked at. So too where one is trimmed.
fn copies(recorder: &mut Recorder) {
    for kind in [Kind::OpeningCopy, Kind::OpenCopy] {
        under_every_fate(recorder, &with_restored(kind, SOURCE));
        under_every_fate(recorder, &with_restored(kind, REPLICA));
        let mut scene = with_restored(kind, SOURCE);
        scene.cluster.records.servers[SERVER].marks[REPLICA] = 4;
        try_scene(recorder, scene);
        let mut scene = with_restored(kind, SOURCE);
        let Records { register, servers } = &mut scene.cluster.records;
        register.entries = std::mem::take(&mut servers[SERVER].entries);
        try_scene(recorder, scene);
    }
    under_every_fate(recorder, &with_restored(Kind::Trim, REPLICA));
    try_scene(recorder, with_restored(Kind::Trim, 1));
}

/// Servers of before: a replica that is restored while they use it declines them, or is silent.
fn old_servers(recorder: &mut Recorder) {
    let kinds = [Kind::OpenCopy, Kind::Send, Kind::Note, Kind::Read, Kind::Export];
    let opening = [Kind::Prepare, Kind::OpeningCopy, Kind::Trim, Kind::Open];
    for kind in kinds.into_iter().chain(opening) {
        let Scene { cluster, .. } = scene(kind);
        recorder.hand_in(cluster);
        let restore = scene(Kind::Restore).call;
        recorder.call(&restore).expect("a valid slot");
        for fate in [Fate::Answered, Fate::AnswerLost] {
            let mut scene = scene(kind);
            scene.set_message(Message::new(fate));
            let _ = recorder.call(&scene.call);
        }
    }
}

/// Of three replicas each alone and each two restored, at marks around those of the others, or not known: trim
/// and open. What the register says of them is not what was handed over.
fn votes(recorder: &mut Recorder) {
    let marks = [
        [Some(4), Some(4), Some(4)],
        [Some(6), Some(4), Some(4)],
        [Some(4), Some(6), Some(4)],
        [Some(3), Some(4), Some(4)],
        [Some(4), Some(4), Some(3)],
        [None, Some(4), Some(4)],
        [Some(4), None, Some(4)],
        [None, Some(0), Some(0)],
        [Some(0), Some(0), Some(0)],
    ];
    for (marks, restored) in
        marks.iter().flat_map(|it| [[0].as_slice(), &[2], &[0, 1]].map(|of| (it, of)))
    {
        let mut opening = scene(Kind::Open);
        vote(&mut opening, marks, restored);
        try_scene(recorder, opening);
    }
    for (marks, restored) in
        [(0, [0].as_slice()), (1, &[0]), (1, &[1]), (2, &[0]), (4, &[0]), (5, &[1])]
    {
        let mut trimming = scene(Kind::Trim);
        vote(&mut trimming, &marks_of_trim()[marks], restored);
        try_scene(recorder, trimming);
    }
}

/// Replica 0 is the one to be trimmed, and holds six records.
fn marks_of_trim() -> [[Option<u64>; 3]; 6] {
    [
        [Some(6), Some(4), Some(4)],
        [Some(6), Some(4), Some(3)],
        [Some(6), None, Some(4)],
        [Some(6), Some(6), Some(4)],
        [Some(6), Some(4), None],
        [Some(6), Some(4), Some(4)],
    ]
}

/// The server knows replicas at these marks; these were handed over as restored. In the register the first of
/// them is restored too, and the other has a closing mark.
fn vote(scene: &mut Scene, marks: &[Option<u64>; 3], restored: &[usize]) {
    let Cluster { records, .. } = &mut scene.cluster;
    let server = &mut records.servers[SERVER];
    for (replica, mark) in marks.iter().enumerate() {
        server.standings[replica] = if mark.is_some() { Standing::In } else { Standing::Out };
        server.marks[replica] = mark.unwrap_or(0);
    }
    for (order, &replica) in restored.iter().enumerate() {
        server.entries[replica] = Entry { session: 2, closing: Closing::Restored };
        let closing = if order == 0 { Closing::Restored } else { Closing::Mark(3) };
        records.register.entries[replica] = Entry { session: 2, closing };
    }
}

/// Restored replicas of 1, 3, 5 and 7, from one to three of them, with low-water marks below, at and above their
/// logs' marks, and lists of several orders; and one that stands above all others.
fn recoveries(recorder: &mut Recorder) {
    const MARKS: [u64; 7] = [3, 1, 3, 0, 2, 3, 0];
    const LOWS: [u64; 7] = [1, u64::MAX, 0, 0, 2, 4, 0];
    for replicas in [1, 3, 5, 7] {
        recorder.fresh(Shape::whole(replicas, 4));
        for (first, count) in (0..replicas).flat_map(|it| (1..=3).map(move |count| (it, count))) {
            let restored: Vec<u64> =
                (first..first + count.min(replicas)).map(|it| it % replicas).collect();
            let listed = match (first + count) % 2 {
                0 => (first..first + replicas).map(|it| it % replicas).collect(),
                _ => (0..replicas).rev().collect(),
            };
            recover_restored(recorder, &MARKS, &LOWS, &restored, listed);
        }
        for highest in 0..replicas {
            let mut marks = [2, 1, 1, 2, 0, 1, 2];
            marks[highest as usize] = 3;
            let listed = (highest..highest + replicas).map(|it| it % replicas).collect();
            recover_restored(recorder, &marks, &[4; 7], &[highest], listed);
        }
    }
}

/// A recovery opens if Q others are listed.
fn recover_restored(
    recorder: &mut Recorder,
    marks: &[u64; 7],
    lows: &[u64; 7],
    restored: &[u64],
    listed: Vec<u64>,
) {
    let replicas = recorder.cluster().shape.replicas as usize;
    let mut cluster = rewound(recorder, &marks[..replicas]);
    let promise = cluster.records.register.session;
    for replica in restored.iter().map(|&it| it as usize) {
        cluster.records.register.entries[replica].closing = Closing::Restored;
        let slot = Slot { promise, low: lows[replica], local: 1 }.encode();
        let medium = cluster.medium_mut(replica);
        [0, SLOT_BYTES].into_iter().for_each(|at| put(medium, at, &slot));
    }
    recorder.hand_in(cluster);
    let end = recover(recorder, 1, &listed, &[]);
    let opens = replicas - restored.len() >= quorum(replicas);
    assert_eq!(end.starts_with("ok"), opens, "{restored:?} {listed:?}: {end}");
    assert!(opens || end.starts_with("no 8"), "{restored:?} {listed:?}: {end}");
}

/// A recovery in which the replica that holds the most is restored and cut to less than the others hold, with
/// every fate at each of its calls; another follows where something was left undone or unheard.
fn recovery_fates(recorder: &mut Recorder) {
    const CALLS: usize = 7;
    recorder.fresh(Shape::whole(3, 4));
    let cuts = (1..=3).flat_map(|write| LEFT.map(|left| Fate::Cut(write, left)));
    let fates: Vec<Fate> = [Fate::Lost, Fate::AnswerLost].into_iter().chain(cuts).collect();
    for (index, &fate) in (0..CALLS).flat_map(|index| fates.iter().map(move |it| (index, it))) {
        // Only the prepare that truncates makes more than one write.
        if index != 3 && matches!(fate, Fate::Cut(2.., _)) {
            continue;
        }
        let mut cluster = rewound(recorder, &[2, 3, 1]);
        let promise = cluster.records.register.session;
        cluster.records.register.entries[1].closing = Closing::Restored;
        let slot = Slot { promise, low: 1, local: 3 }.encode();
        [0, SLOT_BYTES].into_iter().for_each(|at| put(cluster.medium_mut(1), at, &slot));
        recorder.hand_in(cluster);
        let fates = [vec![Fate::Answered; index], vec![fate]].concat();
        let recovery = Recovery::new(1, &[2, 0, 1], &fates);
        let _ = recorder.recover(&recovery.with_bytes(index, [0x5A; PLACE_BYTES]));
        recover(recorder, 2, &[1, 2, 0], &[]);
    }
}

/// What is kept: of the most places, of more than that, of none, and where the media are lent too short; each is
/// then restored where there are 15 places. Behind what is kept, the backup stays as it was.
fn kept(recorder: &mut Recorder) {
    let whole = most_places();
    let with_places = |places: u64, media: usize| {
        let mut cluster = whole.clone();
        cluster.shape.places = places;
        cluster.media.truncate(media);
        cluster
    };
    let all = whole.media.len();
    let cases =
        [(15, 6, all), (16, 5, all), (1001, 4, all), (u64::MAX, 3, all), (15, 6, 100), (0, 0, all)];
    for (places, replica, media) in cases {
        recorder.hand_in(with_places(places, media));
        recorder.keep(replica);
        recorder.hand_in(whole.clone());
        recorder.restore_held(1).expect("a valid slot");
    }
}

/// Seven media of 15 places. Each has a record in its first place and one in its last, of its own.
fn most_places() -> Cluster {
    let mut cluster = Cluster::fresh(Shape::whole(7, 15)).expect("an allowed shape");
    for replica in 0..7 {
        for number in [1, 15] {
            let bytes = with_header(&record_bytes(number), 10 + replica as u32);
            put(cluster.medium_mut(replica), place_at(number), &bytes);
        }
    }
    cluster
}
