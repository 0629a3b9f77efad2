//! export's scene with files, marks, records and slots of every kind.

use super::exports::lengths;
use super::recorder::Recorder;
use super::scenes::try_scene;
use crate::cluster::{Message, FILES_ROW};
use crate::fate::{Fate, Left};
use crate::medium::{place_at, put, Record, DATA_LIMIT, PLACE_BYTES, SLOT_BYTES, WIPED};
use crate::random::Random;
use crate::tries::exports::{draw_export, exact_lengths};
use crate::tries::faults::{faults_of, with_faults, Fault};
use crate::tries::headers::draw_stored_header;
use crate::tries::records::draw_sequence;
use crate::tries::scene::{record_bytes, Scene, EXACT, EXPORTED, PLACES, REPLICA, SERVER};

/// Scenes with marks, records, stamps and lengths that are drawn.
const DRAWN: u64 = 40;

pub fn replay(recorder: &mut Recorder, random: &mut Random, scene: &Scene) {
    other_files(recorder, scene);
    declined_before_files(recorder, scene);
    marks(recorder, scene);
    beyond_the_lesser(recorder, scene);
    behind_the_mark(recorder, random, scene);
    one_slot(recorder, scene);
    (0..DRAWN).for_each(|_| drawn(recorder, random, scene));
}

/// Other lengths under fates that are not answered: silent, and the files stay.
fn other_files(recorder: &mut Recorder, scene: &Scene) {
    let [data, index] = EXACT;
    for lengths in [[data - 1, index], [data, index + 1], [0, 0], [index, 300]] {
        for fate in [Fate::Lost, Fate::Cut(1, Left::Torn), Fate::Cut(2, Left::Old)] {
            let mut scene = scene.clone();
            scene.lend(lengths);
            scene.set_message(Message { fate, given: [0x5A; PLACE_BYTES] });
            try_scene(recorder, scene);
        }
    }
}

/// What the replica declines by itself is given before the lengths are looked at.
fn declined_before_files(recorder: &mut Recorder, scene: &Scene) {
    let by_replica = |fault: &Fault| fault.by_receiver() && fault.row != FILES_ROW;
    for fault in faults_of(scene).into_iter().filter(by_replica) {
        let mut scene = with_faults(scene, &[&fault]);
        scene.lend([0, 0]);
        try_scene(recorder, scene);
    }
}

/// Each mark beside each acknowledged mark: "up to the lesser of its mark and the acknowledged one".
fn marks(recorder: &mut Recorder, scene: &Scene) {
    for mark in 0..=EXPORTED as u64 {
        for acknowledged in 0..=EXPORTED as u64 + 1 {
            let mut scene = with_marks(scene, mark, acknowledged);
            scene.lend(exact(&scene));
            try_scene(recorder, scene);
        }
    }
}

/// The lengths up to the greater mark, or beyond both, are not exact.
fn beyond_the_lesser(recorder: &mut Recorder, scene: &Scene) {
    for (mark, acknowledged, records) in [(4, 2, 4), (2, 4, 4), (4, 4, 5), (1, 0, 1), (3, 3, 2)] {
        let mut scene = with_marks(scene, mark, acknowledged);
        scene.lend(lengths(records, 3));
        try_scene(recorder, scene);
    }
}

/// Data of each kind of length, and behind the mark bytes that are no record and one that is.
fn behind_the_mark(recorder: &mut Recorder, random: &mut Random, scene: &Scene) {
    for sizes in [[0, 1, 28], [28, 0, 1], [27, 28, 2]] {
        let mut scene = with_marks(scene, 3, 3);
        put_records(random, &mut scene, &sizes);
        let behind = random.bytes(PLACE_BYTES);
        put(scene.medium(), place_at(4), &behind);
        put(scene.medium(), place_at(5), &record_bytes(5));
        scene.lend(exact(&scene));
        try_scene(recorder, scene);
    }
}

/// One slot is valid, which is enough if it has the promise.
fn one_slot(recorder: &mut Recorder, scene: &Scene) {
    for at in [SLOT_BYTES, 0] {
        let mut scene = scene.clone();
        scene.medium()[at] ^= 1;
        try_scene(recorder, scene);
    }
}

/// Any marks, records and stamp, lengths mostly exact, and any fate.
fn drawn(recorder: &mut Recorder, random: &mut Random, scene: &Scene) {
    let cut = Fate::Cut(1 + random.below(2), Left::Torn);
    let fate = *random.pick(&[Fate::Answered, Fate::Answered, Fate::AnswerLost, cut]);
    let message = Message { fate, given: [0x5A; PLACE_BYTES] };
    let (mark, acknowledged) = (random.below(6), random.below(6));
    let mut scene = with_marks(scene, mark, acknowledged);
    let sizes: Vec<usize> =
        (0..mark).map(|_| random.below(DATA_LIMIT as u64 + 1) as usize).collect();
    put_records(random, &mut scene, &sizes);
    let (server, replica) = (SERVER as u64, REPLICA as u64);
    scene.call = draw_export(random, &scene.cluster, server, replica, message);
    try_scene(recorder, scene);
}

/// The replica holds and the server has recorded this mark, and this much is acknowledged.
fn with_marks(scene: &Scene, mark: u64, acknowledged: u64) -> Scene {
    let mut scene = scene.clone();
    for number in mark + 1..=PLACES {
        put(scene.medium(), place_at(number), &WIPED);
    }
    let server = &mut scene.cluster.records.servers[SERVER];
    (server.marks[REPLICA], server.acknowledged) = (mark, acknowledged);
    scene
}

/// Records with so much data each, from place 1 on.
fn put_records(random: &mut Random, scene: &mut Scene, sizes: &[usize]) {
    for (id, &size) in (1..).zip(sizes) {
        let [client, generation, partition] = [(); 3].map(|_| top(random));
        let (sequence, header) = (draw_sequence(random), draw_stored_header(random));
        let data = &random.bytes(size);
        let record = Record { id, client, generation, partition, sequence, header, data };
        put(scene.medium(), place_at(id), &record.encode());
    }
}

/// Often the highest of 32 bits.
fn top(random: &mut Random) -> u32 {
    let any = random.word();
    *random.pick(&[u32::MAX, any])
}

fn exact(scene: &Scene) -> [usize; 2] {
    exact_lengths(&scene.cluster, SERVER as u64, REPLICA as u64)
}
