//! Faults, each with the number that it makes a call decline with.

use crate::cluster::{first_row, Closing, Message, Phase, Standing, BY_RECEIVER, FILES_ROW, ORDER};
use crate::fate::{Fate, Left};
use crate::locks::lock_places;
use crate::medium::{
    mark, medium_bytes, place_at, put, seal, PLACE_BYTES, SLOTS_BYTES, SLOT_BYTES, SLOT_ZEROS_AT,
    WIPED,
};

use super::scene::Kind::{self, *};
use super::scene::{
    exact_of, record_bytes, set_place, set_promise, set_tables, Scene, CLIENT_MARK, EXACT, PLACES,
    REPLICA, SERVER, SESSION, SOURCE,
};

/// The bytes of a medium, and so of a backup.
const BACKUP: usize = medium_bytes(PLACES as usize);

pub struct Fault {
    /// The row of the list.
    pub row: usize,
    pub name: &'static str,
    /// The calls that meet it.
    pub calls: &'static [Kind],
    pub make: fn(&mut Scene),
}

impl Fault {
    pub fn number(&self) -> u64 {
        ORDER[self.row]
    }

    /// The receiver of the message gives its number.
    pub fn by_receiver(&self) -> bool {
        BY_RECEIVER.contains(&self.row)
    }
}

const EVERY: &[Kind] = &[
    Take,
    Prepare,
    OpeningCopy,
    OpenCopy,
    Trim,
    Open,
    GateIssue,
    BookingIssue,
    Send,
    Note,
    Read,
    Export,
    Stop,
    Reassign,
    Restore,
];
const BY_SERVER: &[Kind] = &[
    Take,
    Prepare,
    OpeningCopy,
    OpenCopy,
    Trim,
    Open,
    GateIssue,
    BookingIssue,
    Send,
    Note,
    Read,
    Export,
    Stop,
];
const BUSY: &[Kind] = &[
    Prepare,
    OpeningCopy,
    OpenCopy,
    Trim,
    Open,
    GateIssue,
    BookingIssue,
    Send,
    Note,
    Read,
    Export,
];
const TO_REPLICA: &[Kind] = &[Prepare, OpeningCopy, OpenCopy, Trim, Send, Note, Read, Export];
const NAMING: &[Kind] = &[Prepare, OpeningCopy, OpenCopy, Trim, Send, Note, Read, Export, Restore];
const AGREEING: &[Kind] = &[OpeningCopy, OpenCopy, Trim, Send, Note, Read, Export];
const COPIES: &[Kind] = &[OpeningCopy, OpenCopy];
const ISSUES: &[Kind] = &[GateIssue, BookingIssue];

fn all_faults() -> Vec<Fault> {
    let before = [shape(), marks(), names(), phases(), fates(), votes(), requests(), work()];
    before.into_iter().chain([receivers(), files(), backups()]).flatten().collect()
}

/// The faults that a scene can meet.
pub fn faults_of(scene: &Scene) -> Vec<Fault> {
    all_faults().into_iter().filter(|fault| fault.calls.contains(&scene.kind)).collect()
}

/// Faults that are checked later come first, so that those checked earlier have the last word.
pub fn with_faults(scene: &Scene, faults: &[&Fault]) -> Scene {
    let mut faults = faults.to_vec();
    faults.sort_by_key(|fault| std::cmp::Reverse(fault.row));
    let mut scene = scene.clone();
    for fault in faults {
        (fault.make)(&mut scene);
    }
    scene
}

fn fault(number: u64, name: &'static str, calls: &'static [Kind], make: fn(&mut Scene)) -> Fault {
    Fault { row: first_row(number), name, calls, make }
}

fn shape() -> Vec<Fault> {
    vec![
        fault(1, "no replicas", EVERY, |scene| scene.cluster.shape.replicas = 0),
        fault(1, "two replicas", EVERY, |scene| scene.cluster.shape.replicas = 2),
        fault(1, "nine replicas", EVERY, |scene| scene.cluster.shape.replicas = 9),
        fault(1, "no places", EVERY, |scene| scene.cluster.shape.places = 0),
        fault(1, "1,001 places", EVERY, |scene| scene.cluster.shape.places = 1001),
        fault(1, "places at the top", EVERY, |scene| scene.cluster.shape.places = u64::MAX),
        fault(1, "no interval", EVERY, |scene| scene.cluster.shape.interval = 0),
        fault(1, "interval above N", EVERY, |scene| scene.cluster.shape.interval = PLACES + 1),
        fault(1, "interval at the top", EVERY, |scene| scene.cluster.shape.interval = u64::MAX),
        fault(1, "long media", EVERY, |scene| scene.cluster.media.push(0)),
        fault(1, "short media", EVERY, |scene| scene.cluster.media.truncate(100)),
        fault(1, "no lock tables", EVERY, |scene| scene.cluster.locks.clear()),
        fault(1, "long lock tables", EVERY, |scene| scene.cluster.locks.push(0)),
    ]
}

/// Marks above N, also of servers that do not make the call.
fn marks() -> Vec<Fault> {
    vec![
        fault(2, "closing mark of the register", EVERY, |scene| {
            scene.cluster.records.register.entries[2].closing = Closing::Mark(PLACES + 1)
        }),
        fault(2, "closing mark handed over", EVERY, |scene| {
            scene.cluster.records.servers[3].entries[0].closing = Closing::Mark(u64::MAX)
        }),
        fault(2, "starting mark", EVERY, |scene| {
            scene.cluster.records.servers[0].starting = PLACES + 1
        }),
        fault(2, "issued", EVERY, |scene| scene.cluster.records.servers[2].issued = u64::MAX),
        fault(2, "acknowledged", EVERY, |scene| {
            scene.cluster.records.servers[SERVER].acknowledged = PLACES + 1
        }),
        fault(2, "recorded mark", EVERY, |scene| {
            scene.cluster.records.servers[SERVER].marks[1] = u64::MAX
        }),
    ]
}

fn names() -> Vec<Fault> {
    vec![
        fault(3, "server 4", BY_SERVER, |scene| scene.set_server(4)),
        fault(3, "server at the top", BY_SERVER, |scene| scene.set_server(u64::MAX)),
        fault(4, "replica R", NAMING, |scene| scene.set_replica(3)),
        fault(4, "replica at the top", NAMING, |scene| scene.set_replica(u64::MAX)),
        fault(4, "copy from replica R", COPIES, |scene| scene.set_source(3)),
        fault(4, "copy names one twice", COPIES, |scene| scene.set_source(REPLICA as u64)),
    ]
}

fn phases() -> Vec<Fault> {
    vec![
        fault(5, "idle", BUSY, |scene| set_phase(scene, Phase::Idle)),
        fault(5, "opening", &[Take, GateIssue, BookingIssue, Send, Note, Read, Export], |scene| {
            set_phase(scene, Phase::Opening)
        }),
        fault(5, "open", &[Take, Prepare, Trim, Open], |scene| set_phase(scene, Phase::Open)),
    ]
}

fn set_phase(scene: &mut Scene, phase: Phase) {
    scene.cluster.records.servers[SERVER].phase = phase;
}

fn fates() -> Vec<Fault> {
    vec![
        fault(6, "cut register message", &[Take, Open], |scene| {
            scene.set_message(Message::new(Fate::Cut(1, Left::New)))
        }),
        fault(6, "cut at write 0", TO_REPLICA, |scene| {
            scene.set_message(Message::new(Fate::Cut(0, Left::Old)))
        }),
        fault(6, "torn bytes pass as a slot", TO_REPLICA, |scene| {
            let mut given = WIPED;
            set_promise(&mut given, 7);
            tear(scene, 1, given)
        }),
        fault(6, "torn bytes pass as place N", TO_REPLICA, |scene| {
            tear(scene, u64::MAX, record_bytes(PLACES))
        }),
    ]
}

fn tear(scene: &mut Scene, write: u64, given: [u8; PLACE_BYTES]) {
    scene.set_message(Message { fate: Fate::Cut(write, Left::Torn), given });
}

fn votes() -> Vec<Fault> {
    vec![
        fault(7, "replica out", AGREEING, |scene| stand(scene, REPLICA, Standing::Out)),
        fault(7, "replica dropped", AGREEING, |scene| stand(scene, REPLICA, Standing::Dropped)),
        fault(7, "source out", COPIES, |scene| stand(scene, SOURCE, Standing::Out)),
        fault(7, "source dropped", COPIES, |scene| stand(scene, SOURCE, Standing::Dropped)),
        fault(8, "one absent", &[Trim, Open], |scene| {
            set_marks(scene, [6, 4, 4]);
            stand(scene, 1, Standing::Out)
        }),
        fault(8, "two dropped while opening", &[Trim, Open], |scene| {
            stand(scene, 1, Standing::Dropped);
            stand(scene, 2, Standing::Dropped)
        }),
        fault(9, "one clean", &[Open], |scene| set_marks(scene, [4, 6, 2])),
    ]
}

fn set_marks(scene: &mut Scene, marks: [u64; 3]) {
    scene.cluster.records.servers[SERVER].marks[..3].copy_from_slice(&marks);
}

fn stand(scene: &mut Scene, replica: usize, standing: Standing) {
    scene.cluster.records.servers[SERVER].standings[replica] = standing;
}

fn requests() -> Vec<Fault> {
    vec![
        fault(10, "other generation", ISSUES, |scene| scene.request().generation += 1),
        fault(11, "client ahead", ISSUES, |scene| scene.request().client_mark = PLACES + 1),
        fault(12, "a gate with 13 bytes", &[GateIssue], |scene| scene.request().data.push(0)),
        fault(12, "a gate with two locks", &[GateIssue], |scene| scene.request().locks.push(9)),
        fault(12, "29 bytes", &[BookingIssue], |scene| scene.request().data.push(0)),
        fault(12, "five locks", &[BookingIssue], |scene| scene.request().locks.push(9)),
        fault(28, "header 0", ISSUES, |scene| scene.request().header = 0),
        fault(13, "eight unacknowledged", ISSUES, |scene| unacknowledged(scene, 8)),
        fault(13, "nine unacknowledged", ISSUES, |scene| unacknowledged(scene, 9)),
        fault(14, "full", ISSUES, |scene| {
            let server = &mut scene.cluster.records.servers[SERVER];
            (server.issued, server.acknowledged) = (PLACES, PLACES);
        }),
        fault(23, "one issued, K = 1", ISSUES, |scene| checkpoint(scene, 4, 5, 1)),
        fault(23, "K issued", ISSUES, |scene| checkpoint(scene, 2, 5, 3)),
        fault(23, "many more than K issued", ISSUES, |scene| checkpoint(scene, 0, 5, 2)),
        fault(23, "all but one place issued, K = N - 1", ISSUES, |scene| {
            checkpoint(scene, 0, PLACES - 1, PLACES - 1)
        }),
        fault(15, "all locks one above the client's mark", ISSUES, |scene| {
            set_tables(&mut scene.cluster, CLIENT_MARK + 1, CLIENT_MARK)
        }),
        fault(15, "the last lock alone one above the client's mark", ISSUES, |scene| {
            let last = *scene.request().locks.last().expect("a lock");
            let table = scene.cluster.table_mut(SERVER);
            lock_places(last).into_iter().for_each(|place| table[place] = CLIENT_MARK + 1)
        }),
    ]
}

/// So many, with the client's mark acknowledged and one place left, or none if the log is full.
fn unacknowledged(scene: &mut Scene, count: u64) {
    let server = &mut scene.cluster.records.servers[SERVER];
    server.issued = server.issued.max(PLACES - 1);
    server.acknowledged = server.issued - count;
}

/// Everything that 23 depends on; what is issued is acknowledged.
fn checkpoint(scene: &mut Scene, starting: u64, issued: u64, interval: u64) {
    scene.cluster.shape.interval = interval;
    let server = &mut scene.cluster.records.servers[SERVER];
    (server.starting, server.issued, server.acknowledged) = (starting, issued, issued);
}

/// Starting and issued mark; record 4 follows the replica's mark.
fn window(scene: &mut Scene, starting: u64, issued: u64) {
    let server = &mut scene.cluster.records.servers[SERVER];
    (server.starting, server.issued) = (starting, issued);
}

fn work() -> Vec<Fault> {
    vec![
        fault(16, "send at the starting mark", &[Send], |scene| window(scene, 4, 4)),
        fault(16, "send below the starting mark", &[Send], |scene| window(scene, 9, 11)),
        fault(16, "send of what is no longer held", &[Send], |scene| window(scene, 0, 12)),
        fault(16, "send to one that has all", &[Send], |scene| window(scene, 2, 3)),
        fault(16, "send of nothing", &[Send], |scene| window(scene, 0, 0)),
        fault(16, "copy to an equal", COPIES, |scene| {
            scene.cluster.records.servers[SERVER].marks[REPLICA] = 4
        }),
        fault(16, "trim at the mark", &[Trim], |scene| {
            scene.cluster.records.servers[SERVER].marks[REPLICA] = 4
        }),
        fault(16, "read ID 0", &[Read], |scene| scene.set_read_id(0)),
        fault(16, "read above the mark", &[Read], |scene| scene.set_read_id(5)),
        fault(16, "read above acknowledged", &[Read], |scene| {
            scene.cluster.records.servers[SERVER].acknowledged = 3
        }),
        fault(17, "source without slots", COPIES, |scene| damage_slots(scene.source())),
        fault(17, "source with another promise", COPIES, |scene| {
            set_promise(scene.source(), SESSION + 1)
        }),
        fault(17, "source with another mark", COPIES, |scene| set_place(scene.source(), 5)),
    ]
}

/// What replica or register decline.
fn receivers() -> Vec<Fault> {
    vec![
        fault(18, "no slots", TO_REPLICA, |scene| damage_slots(scene.medium())),
        fault(19, "higher promise", TO_REPLICA, |scene| set_promise(scene.medium(), SESSION + 1)),
        fault(19, "lower promise", AGREEING, |scene| set_promise(scene.medium(), SESSION - 1)),
        fault(20, "higher mark", AGREEING, |scene| {
            let above = mark(scene.medium()) + 1;
            set_place(scene.medium(), above)
        }),
        fault(20, "lower mark", AGREEING, |scene| put(scene.medium(), place_at(1), &WIPED)),
        fault(21, "session at its top", &[Take, Restore], |scene| {
            scene.cluster.records.register.session = u64::MAX
        }),
        fault(21, "generation at its top", &[Reassign], |scene| {
            scene.cluster.records.register.generation = u32::MAX
        }),
        fault(22, "newer session", &[Open], |scene| {
            scene.cluster.records.register.session = SESSION + 1
        }),
        fault(22, "older session", &[Open], |scene| {
            scene.cluster.records.register.session = SESSION - 1
        }),
    ]
}

/// Files of other lengths: 1 once more.
fn files() -> Vec<Fault> {
    const DATA: usize = EXACT[0];
    const INDEX: usize = EXACT[1];
    vec![
        other_files("data one byte short", |scene| scene.lend([DATA - 1, INDEX])),
        other_files("data one byte long", |scene| scene.lend([DATA + 1, INDEX])),
        other_files("no data", |scene| scene.lend([0, INDEX])),
        other_files("index one byte short", |scene| scene.lend([DATA, INDEX - 1])),
        other_files("index one byte long", |scene| scene.lend([DATA, INDEX + 1])),
        other_files("no index", |scene| scene.lend([DATA, 0])),
        // Two records, so that the data file's length is one that an index file may be lent at.
        other_files("files swapped", |scene| {
            scene.cluster.records.servers[SERVER].acknowledged = 2;
            let [data, index] = exact_of(2);
            scene.lend([index, data])
        }),
    ]
}

fn other_files(name: &'static str, make: fn(&mut Scene)) -> Fault {
    Fault { row: FILES_ROW, name, calls: &[Export], make }
}

/// Bytes of a restore: of another length, or without a valid slot.
fn backups() -> Vec<Fault> {
    const RESTORE: &[Kind] = &[Restore];
    vec![
        fault(1, "no backup", RESTORE, |scene| scene.backup().clear()),
        fault(1, "backup one byte short", RESTORE, |scene| scene.backup().truncate(BACKUP - 1)),
        fault(1, "backup one byte long", RESTORE, |scene| scene.backup().resize(BACKUP + 1, 0)),
        fault(1, "backup of one place less", RESTORE, |scene| {
            scene.backup().truncate(BACKUP - PLACE_BYTES)
        }),
        fault(1, "backup of one place more", RESTORE, |scene| {
            scene.backup().resize(BACKUP + PLACE_BYTES, 0)
        }),
        fault(1, "backup of the old layout", RESTORE, |scene| {
            scene.backup().truncate(64 + 64 * PLACES as usize)
        }),
        fault(30, "backup without slots", RESTORE, |scene| damage_slots(scene.backup())),
        fault(30, "backup whose checks fail", RESTORE, |scene| {
            [0, SLOT_BYTES].into_iter().for_each(|at| scene.backup()[at + 3] ^= 1)
        }),
        fault(30, "backup whose zeros are not zero", RESTORE, |scene| {
            for at in [0, SLOT_BYTES] {
                let slot = &mut scene.backup()[at..at + SLOT_BYTES];
                slot[SLOT_ZEROS_AT] = 1;
                seal(slot);
            }
        }),
    ]
}

fn damage_slots(medium: &mut [u8]) {
    put(medium, 0, &[0; SLOTS_BYTES]);
}
