//! Scenes that are handed in: each call where it is not declined, under every fate and with the least
//! interval, and with the faults that it can meet.

use std::ops::RangeInclusive;

use super::recorder::Recorder;
use super::{export_scenes, header_zero, limits, locks, sequences};
use crate::cluster::{Call, Closing, Entry, Message, Standing};
use crate::fate::{Fate, Left};
use crate::medium::{
    self, place_at, seal, DATA_AT, LENGTH_AT, PLACE_BYTES, SLOT_BYTES, SLOT_ZEROS_AT,
};
use crate::random::Random;
use crate::tries::checkpoint::Checkpoint;
use crate::tries::faults::{faults_of, with_faults, Fault};
use crate::tries::scene::{
    all_scenes, record_bytes, set_place, set_promise, Kind, Scene, PLACES, REPLICA, SERVER, SESSION,
};

pub fn replay(recorder: &mut Recorder, random: &mut Random) {
    for scene in all_scenes() {
        under_every_fate(recorder, &scene);
        with_the_least_interval(recorder, &scene);
        with_each_fault(recorder, &scene);
        with_two_faults(recorder, random, &scene);
        particular(recorder, random, &scene);
        sequences::replay(recorder, &scene);
    }
}

/// What is worth trying of one call.
fn particular(recorder: &mut Recorder, random: &mut Random, scene: &Scene) {
    match scene.kind {
        Kind::Prepare => {
            cut_each(recorder, random, scene, 1..=6);
            sealed_unfit(recorder, scene);
        }
        Kind::OpeningCopy => joined(recorder, scene),
        Kind::Trim => cut_each(recorder, random, scene, 1..=3),
        Kind::GateIssue => {
            limits::in_place(recorder, scene);
            header_zero::in_place(recorder, scene);
        }
        Kind::BookingIssue => {
            limits::in_place(recorder, scene);
            header_zero::in_place(recorder, scene);
            locks::replay(recorder, random, scene);
            ahead(recorder, scene);
            Checkpoint::all().for_each(|checkpoint| try_scene(recorder, checkpoint.scene()));
        }
        Kind::Send => {
            few_members(recorder, scene);
            joined(recorder, scene);
        }
        Kind::Note => place_beyond(recorder, scene),
        Kind::Export => export_scenes::replay(recorder, random, scene),
        _ => {}
    }
}

/// The call where it is not declined, under every fate.
pub fn under_every_fate(recorder: &mut Recorder, scene: &Scene) {
    for fate in fates_of(scene.kind) {
        let mut scene = scene.clone();
        scene.set_message(Message { fate, given: [0x5A; PLACE_BYTES] });
        try_scene(recorder, scene);
    }
}

/// K = 1, which is within its values: only issue does other than with K = N, so there the session has
/// issued nothing.
fn with_the_least_interval(recorder: &mut Recorder, scene: &Scene) {
    let mut scene = scene.clone();
    scene.cluster.shape.interval = 1;
    if matches!(scene.kind, Kind::GateIssue | Kind::BookingIssue) {
        let server = &mut scene.cluster.records.servers[SERVER];
        server.starting = server.issued;
    }
    try_scene(recorder, scene);
}

/// Calls that send no message.
fn is_local(kind: Kind) -> bool {
    let issues = [Kind::GateIssue, Kind::BookingIssue];
    issues.contains(&kind) || [Kind::Stop, Kind::Reassign, Kind::Restore].contains(&kind)
}

/// The fates that a call can have: the register is never cut.
fn fates_of(kind: Kind) -> Vec<Fate> {
    let mut fates = vec![Fate::Answered];
    if !is_local(kind) {
        fates.extend([Fate::Lost, Fate::AnswerLost]);
        if !matches!(kind, Kind::Take | Kind::Open) {
            fates.extend(cuts(1..=3));
        }
    }
    fates
}

/// Cuts at these writes that leave each of the three.
fn cuts(writes: RangeInclusive<u64>) -> impl Iterator<Item = Fate> {
    writes.flat_map(|write| [Left::Old, Left::New, Left::Torn].map(|left| Fate::Cut(write, left)))
}

pub fn try_scene(recorder: &mut Recorder, scene: Scene) {
    recorder.hand_in(scene.cluster);
    // A declined call is wanted too.
    let _ = recorder.call(&scene.call);
}

/// Each fault that the call can meet. What a receiver declines is silent under another fate.
fn with_each_fault(recorder: &mut Recorder, scene: &Scene) {
    for fault in faults_of(scene) {
        let mut scene = with_faults(scene, &[&fault]);
        try_scene(recorder, scene.clone());
        if (fault.by_receiver() || fault.number() == 17) && !is_local(scene.kind) {
            scene.set_message(Message::new(Fate::AnswerLost));
            try_scene(recorder, scene);
        }
    }
}

/// Two faults at once, of a row and of the next one of the list that the call can meet: the first is
/// given.
fn with_two_faults(recorder: &mut Recorder, random: &mut Random, scene: &Scene) {
    let mut faults = faults_of(scene);
    faults.sort_by_key(|fault| fault.row);
    let groups: Vec<&[Fault]> = faults.chunk_by(|a, b| a.row == b.row).collect();
    for pair in groups.windows(2) {
        let pair = [random.pick(pair[0]), random.pick(pair[1])];
        try_scene(recorder, with_faults(scene, &pair));
    }
}

/// A truncation cut at each write and behind the last.
fn cut_each(
    recorder: &mut Recorder,
    random: &mut Random,
    scene: &Scene,
    writes: RangeInclusive<u64>,
) {
    for fate in cuts(writes) {
        let given = random.bytes(PLACE_BYTES).try_into().expect("a place");
        truncation(recorder, scene, Message { fate, given });
    }
}

/// The truncation, and the prepare that comes after it.
fn truncation(recorder: &mut Recorder, scene: &Scene, message: Message) {
    let mut scene = scene.clone();
    if scene.kind == Kind::Prepare {
        // The promise is written first, then places 4 to 1 are wiped.
        set_promise(scene.medium(), SESSION - 1);
        let entries = &mut scene.cluster.records.servers[SERVER].entries;
        entries[REPLICA] = Entry { session: 3, closing: Closing::Mark(0) };
    }
    scene.set_message(message);
    try_scene(recorder, scene);
    let (server, replica) = (SERVER as u64, REPLICA as u64);
    let again = Call::Prepare { server, replica, message: Message::new(Fate::Answered) };
    recorder.call(&again).expect("a slot is left");
}

/// A client whose mark is issued and not acknowledged yet.
fn ahead(recorder: &mut Recorder, scene: &Scene) {
    let mut scene = scene.clone();
    let server = &mut scene.cluster.records.servers[SERVER];
    let issued = server.issued;
    server.acknowledged = issued - 1;
    scene.request().client_mark = issued;
    try_scene(recorder, scene);
}

/// A handed-in record with fewer than Q members: the acknowledged mark is 0.
fn few_members(recorder: &mut Recorder, scene: &Scene) {
    for fate in fates_of(scene.kind) {
        let mut scene = scene.clone();
        let standings = &mut scene.cluster.records.servers[SERVER].standings;
        standings.fill(Standing::Out);
        standings[REPLICA] = Standing::In;
        scene.set_message(Message::new(fate));
        try_scene(recorder, scene);
    }
}

/// Torn bytes that pass as a place, but as none from 1 to N.
fn place_beyond(recorder: &mut Recorder, scene: &Scene) {
    let mut scene = scene.clone();
    let fate = Fate::Cut(1, Left::Torn);
    scene.set_message(Message { fate, given: record_bytes(PLACES + 1) });
    try_scene(recorder, scene);
}

/// A valid place behind the one that is written: the run goes on with it.
fn joined(recorder: &mut Recorder, scene: &Scene) {
    let mut scene = scene.clone();
    let behind = medium::mark(scene.medium()) + 2;
    set_place(scene.medium(), behind);
    try_scene(recorder, scene);
}

/// A place with a byte behind its data, one with data that are too long, and a slot with other than
/// zeros: their checks agree, and still they are not valid.
fn sealed_unfit(recorder: &mut Recorder, scene: &Scene) {
    let place = |at: usize, byte: u8| (place_at(3), PLACE_BYTES, at, byte);
    let slot = (0, SLOT_BYTES, SLOT_ZEROS_AT, 1);
    for (at, size, byte, value) in [place(DATA_AT + 20, 1), place(LENGTH_AT + 3, 29), slot] {
        let mut scene = scene.clone();
        let part = &mut scene.medium()[at..at + size];
        part[byte] = value;
        seal(part);
        try_scene(recorder, scene);
    }
}
