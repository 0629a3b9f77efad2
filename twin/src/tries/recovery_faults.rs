//! Why the driver of recoveries declines: faults, each with the number that it makes it decline with.

use super::recoveries::Recovery;
use super::recovery_rows::{cluster, SHAPE};
use crate::cluster::{Closing, Cluster, Phase};
use crate::fate::Fate;
use crate::medium::PLACE_BYTES;

/// A state and a recovery on it.
#[derive(Clone, Debug, PartialEq, Eq)]
pub struct Try {
    pub cluster: Cluster,
    pub recovery: Recovery,
}

pub struct Fault {
    pub number: u64,
    pub name: &'static str,
    pub make: fn(&mut Try),
}

/// The numbers that the driver itself declines by, in its order.
pub const OWN: [u64; 6] = [1, 2, 3, 4, 5, 29];

/// A recovery that the driver does not decline, with two fates of its own.
pub fn sound() -> Try {
    let recovery = Recovery::new(1, &[2, 0, 1], &[Fate::Answered; 2]);
    Try { cluster: cluster(), recovery }
}

/// The try with these faults. Those that are checked later come first, so that those checked earlier have the
/// last word.
pub fn with_faults(sound: &Try, faults: &[&Fault]) -> Try {
    let mut faults = faults.to_vec();
    let rank = |fault: &Fault| OWN.iter().position(|&number| number == fault.number);
    faults.sort_by_key(|fault| std::cmp::Reverse(rank(fault)));
    let mut with = sound.clone();
    faults.iter().for_each(|fault| (fault.make)(&mut with));
    with
}

/// All of them.
pub fn faults() -> Vec<Fault> {
    [shapes(), lengths(), marks(), names(), lists()].into_iter().flatten().collect()
}

fn fault(number: u64, name: &'static str, make: fn(&mut Try)) -> Fault {
    Fault { number, name, make }
}

fn shapes() -> Vec<Fault> {
    vec![
        fault(1, "two replicas", |it| it.cluster.shape.replicas = 2),
        fault(1, "nine replicas", |it| it.cluster.shape.replicas = 9),
        fault(1, "no places", |it| it.cluster.shape.places = 0),
        fault(1, "1,001 places", |it| it.cluster.shape.places = 1001),
        fault(1, "no interval", |it| it.cluster.shape.interval = 0),
        fault(1, "interval above N", |it| it.cluster.shape.interval = SHAPE.places + 1),
        fault(1, "long media", |it| it.cluster.media.push(0)),
        fault(1, "short media", |it| it.cluster.media.truncate(100)),
        fault(1, "short lock tables", |it| it.cluster.locks.truncate(4095)),
        fault(1, "long lock tables", |it| it.cluster.locks.resize(4097, 0)),
    ]
}

/// Of the given bytes.
fn lengths() -> Vec<Fault> {
    vec![
        fault(1, "no given bytes", |it| it.recovery.length = 0),
        fault(1, "given bytes for one fate", |it| it.recovery.length = PLACE_BYTES),
        fault(1, "given bytes for three fates", |it| it.recovery.length = 3 * PLACE_BYTES),
        fault(1, "a given byte too few", |it| it.recovery.length = 2 * PLACE_BYTES - 1),
        fault(1, "a given byte too many", |it| it.recovery.length = 2 * PLACE_BYTES + 1),
        fault(1, "given bytes of the old length", |it| it.recovery.length = 2 * 64),
    ]
}

/// Marks above N, also of servers that do not recover.
fn marks() -> Vec<Fault> {
    vec![
        fault(2, "closing mark of the register", |it| {
            it.cluster.records.register.entries[2].closing = Closing::Mark(SHAPE.places + 1)
        }),
        fault(2, "closing mark handed over", |it| {
            it.cluster.records.servers[3].entries[0].closing = Closing::Mark(u64::MAX)
        }),
        fault(2, "starting mark", |it| it.cluster.records.servers[2].starting = u64::MAX),
        fault(2, "issued", |it| it.cluster.records.servers[1].issued = SHAPE.places + 1),
        fault(2, "acknowledged", |it| it.cluster.records.servers[0].acknowledged = u64::MAX),
        fault(2, "recorded mark", |it| it.cluster.records.servers[1].marks[0] = SHAPE.places + 1),
    ]
}

fn names() -> Vec<Fault> {
    vec![
        fault(3, "server 4", |it| it.recovery.server = 4),
        fault(3, "server at the top", |it| it.recovery.server = u64::MAX),
        fault(4, "replica R at the end", |it| it.recovery.listed.push(SHAPE.replicas)),
        fault(4, "replica R first", |it| it.recovery.listed.insert(0, SHAPE.replicas)),
        fault(4, "replica R alone", |it| it.recovery.listed = vec![SHAPE.replicas]),
        fault(4, "replica R twice", |it| it.recovery.listed = vec![SHAPE.replicas; 2]),
        fault(4, "replica at the top", |it| it.recovery.listed.push(u64::MAX)),
        fault(5, "opening", |it| set_phases(it, Phase::Opening)),
        fault(5, "open", |it| set_phases(it, Phase::Open)),
    ]
}

/// Of every server, so that it is whichever recovers.
fn set_phases(it: &mut Try, phase: Phase) {
    it.cluster.records.servers.iter_mut().for_each(|server| server.phase = phase);
}

fn lists() -> Vec<Fault> {
    vec![
        fault(29, "no replica", |it| it.recovery.listed.clear()),
        fault(29, "one twice", |it| it.recovery.listed = vec![0, 0]),
        fault(29, "the first again at the end", |it| it.recovery.listed = vec![2, 0, 1, 2]),
        fault(29, "two in turn", |it| it.recovery.listed = vec![1, 0, 1, 0, 1, 0, 1, 0, 1]),
    ]
}
