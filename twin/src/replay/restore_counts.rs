//! What a run meets of media from a backup: the restores that were made, and what calls after them met.

use std::collections::BTreeMap;
use std::fmt;

use super::names::{fate_name, FATES};
use super::texts::word;
use crate::cluster::{Answer, Call, Closing, Cluster, Refusal, Reply, Server};
use crate::medium::{current, is_place, mark, place, Slot, SLOTS_BYTES, SLOT_BYTES};
use crate::votes::{decided, quorum};

/// Of restores that were made: what the entry was, what the bytes are, and what they replace.
pub const RESTORES: [&str; 14] = [
    "unresolved",
    "closed",
    "again",
    "second slot",
    "one slot",
    "low below",
    "low above",
    "low at top",
    "low not local",
    "behind a gap",
    "no slot before",
    "fewer records",
    "same places",
    "majority",
];

/// Of calls on replicas that were handed over as restored, or are so in the register.
pub const AFTER: [&str; 21] = [
    "cut",
    "cut, equal promise",
    "not cut",
    "copy to",
    "no copy from",
    "16 before 17",
    "copy from, open",
    "trimmed",
    "trim without vote",
    "open without vote",
    "clean",
    "9 without it",
    "left below",
    "left above",
    "left unknown",
    "old prepare",
    "old copy",
    "old send",
    "old note",
    "old read",
    "old export",
];

#[derive(Default)]
pub struct Restores {
    made: u64,
    /// By R.
    replicas: BTreeMap<u64, u64>,
    names: BTreeMap<&'static str, u64>,
    /// By fate and write (0 unless cut): prepares of restored replicas that had something to truncate, with
    /// the promise to be written or written already.
    fates: BTreeMap<(bool, &'static str, u64), u64>,
}

impl Restores {
    /// Adds a call on this cluster, which is as the call found it.
    pub fn add(&mut self, cluster: &Cluster, call: &Call, reply: &Reply) {
        if let (Call::Restore { replica, backup }, Ok(_)) = (call, reply) {
            self.made += 1;
            *self.replicas.entry(cluster.shape.replicas).or_default() += 1;
            self.add_names(&restore_names(cluster, *replica as usize, backup));
        }
        if cluster.shape.is_allowed() && cluster.has_exact_lengths() {
            self.add_names(&vote_names(cluster, call, reply));
            self.add_names(&replica_names(cluster, call, reply));
            self.add_fate(cluster, call, reply);
        }
    }

    fn add_names(&mut self, names: &[(&'static str, bool)]) {
        for (name, _) in names.iter().filter(|(_, met)| *met) {
            *self.names.entry(name).or_default() += 1;
        }
    }

    fn add_fate(&mut self, cluster: &Cluster, call: &Call, reply: &Reply) {
        let (Call::Prepare { server, replica, message }, Ok(_)) = (call, reply) else {
            return;
        };
        let Some((promised, true)) = truncation(cluster, *server, *replica) else {
            return;
        };
        let (name, write) = fate_name(message.fate);
        *self.fates.entry((promised, name, write)).or_default() += 1;
    }

    pub fn made(&self) -> u64 {
        self.made
    }

    /// Restores in clusters of so many replicas.
    pub fn of(&self, replicas: u64) -> u64 {
        self.replicas.get(&replicas).copied().unwrap_or(0)
    }

    pub fn met(&self, name: &str) -> u64 {
        self.names.get(name).copied().unwrap_or(0)
    }

    /// How often such a prepare had this fate, at this write if it is cut.
    pub fn fate(&self, promised: bool, fate: &str, write: u64) -> u64 {
        let counted = self.fates.iter().filter(|(key, _)| **key == (promised, fate, write));
        counted.map(|(_, count)| count).sum()
    }
}

fn restore_names(cluster: &Cluster, replica: usize, backup: &[u8]) -> Vec<(&'static str, bool)> {
    let entries = &cluster.records.register.entries[..cluster.shape.replicas as usize];
    let is_restored = |at: usize| entries[at].closing == Closing::Restored;
    let others = (0..entries.len()).filter(|&at| at != replica && is_restored(at)).count();
    let (index, slot) = current(backup).expect("it was not declined");
    let valid = |at: usize| Slot::decode(&backup[at..at + SLOT_BYTES]).is_some();
    let (now, log) = (cluster.medium(replica), mark(backup));
    let places = cluster.shape.places;
    let gap = (log + 1..=places).any(|number| is_place(number, &place(backup, number)));
    vec![
        ("unresolved", entries[replica].closing == Closing::Unresolved),
        ("closed", entries[replica].closing.mark().is_some()),
        ("again", is_restored(replica)),
        ("second slot", index == 1),
        ("one slot", !(valid(0) && valid(SLOT_BYTES))),
        ("low below", slot.low < log),
        ("low above", slot.low > log),
        ("low at top", slot.low == u64::MAX),
        ("low not local", slot.low != slot.local),
        ("behind a gap", gap),
        ("no slot before", current(now).is_none()),
        ("fewer records", log < mark(now)),
        ("same places", now[SLOTS_BYTES..] == backup[SLOTS_BYTES..]),
        ("majority", others + 1 >= quorum(entries.len())),
    ]
}

/// Of a prepare of a replica that was handed over as restored: whether its promise is written already, and
/// whether there is something to truncate.
fn truncation(cluster: &Cluster, server: u64, replica: u64) -> Option<(bool, bool)> {
    let record = &cluster.records.servers[server as usize];
    let medium = cluster.medium(replica as usize);
    let (_, slot) = current(medium).filter(|_| record.is_restored(replica as usize))?;
    Some((slot.promise == record.session, slot.low < mark(medium)))
}

/// trim and open, which vote.
fn vote_names(cluster: &Cluster, call: &Call, reply: &Reply) -> Vec<(&'static str, bool)> {
    let replicas = 0..cluster.shape.replicas as usize;
    let record = |server: u64| &cluster.records.servers[server as usize];
    let counted = |server: u64| {
        let marks: Vec<_> = replicas.clone().map(|it| record(server).known_mark(it)).collect();
        decided(&marks).is_some()
    };
    let any = |server: u64, such: &dyn Fn(Option<u64>) -> bool| {
        let mut all = replicas.clone();
        all.any(|it| record(server).is_restored(it) && such(record(server).known_mark(it)))
    };
    match (call, reply) {
        (Call::Trim { server, .. }, Err(Refusal::Undecided)) => {
            vec![("trim without vote", counted(*server))]
        }
        (Call::Trim { server, replica, .. }, Ok(Answer::Number(_))) => {
            vec![("trimmed", record(*server).is_restored(*replica as usize))]
        }
        (Call::Open { server, .. }, Err(Refusal::Undecided)) => {
            vec![("open without vote", counted(*server))]
        }
        (Call::Open { server, .. }, Err(Refusal::TooFewClean)) => {
            vec![("9 without it", any(*server, &|known| known.is_some()))]
        }
        (Call::Open { server, .. }, Ok(Answer::Number(mark))) => vec![
            ("clean", any(*server, &|known| known == Some(*mark))),
            ("left below", any(*server, &|known| known.is_some_and(|it| it < *mark))),
            ("left above", any(*server, &|known| known.is_some_and(|it| it > *mark))),
            ("left unknown", any(*server, &|known| known.is_none())),
        ],
        _ => Vec::new(),
    }
}

/// prepare and copy of such a replica; and what one that was restored since declines.
fn replica_names(cluster: &Cluster, call: &Call, reply: &Reply) -> Vec<(&'static str, bool)> {
    let record = |server: u64| -> &Server { &cluster.records.servers[server as usize] };
    let restored = |server: u64, it: u64| record(server).is_restored(it as usize);
    let since =
        |it: u64| cluster.records.register.entries[it as usize].closing == Closing::Restored;
    match (call, reply) {
        (Call::Prepare { server, replica, .. }, Ok(Answer::Number(kept))) => {
            let (promised, cut) = truncation(cluster, *server, *replica).unwrap_or((false, false));
            let whole = restored(*server, *replica) && !cut && *kept > 0;
            vec![("cut", cut), ("cut, equal promise", cut && promised), ("not cut", whole)]
        }
        (Call::Copy { server, from, to, .. }, Ok(_)) => {
            vec![("copy to", restored(*server, *to)), ("copy from, open", restored(*server, *from))]
        }
        (Call::Copy { server, from, .. }, Err(Refusal::UnfitSource)) => {
            vec![("no copy from", restored(*server, *from))]
        }
        (Call::Copy { server, from, .. }, Err(Refusal::NothingToDo)) => {
            vec![("16 before 17", restored(*server, *from))]
        }
        (
            Call::Prepare { replica, .. }
            | Call::Copy { to: replica, .. }
            | Call::Send { replica, .. }
            | Call::Note { replica, .. }
            | Call::Read { replica, .. }
            | Call::Export { replica, .. },
            Err(Refusal::OtherPromise),
        ) => {
            let old = AFTER.into_iter().find(|name| *name == format!("old {}", word(call)));
            vec![(old.expect("one of these"), since(*replica))]
        }
        _ => Vec::new(),
    }
}

/// One line of each.
impl fmt::Display for Restores {
    fn fmt(&self, f: &mut fmt::Formatter<'_>) -> fmt::Result {
        write!(f, "\n{} restores; by R: {:?}", self.made, self.replicas)?;
        RESTORES.iter().try_for_each(|name| write!(f, "; {name}: {}", self.met(name)))?;
        write!(f, "\nafter restores")?;
        AFTER.iter().try_for_each(|name| write!(f, "; {name}: {}", self.met(name)))?;
        for promised in [false, true] {
            write!(f, "\nprepares of restored ones, promised already: {promised}")?;
            for fate in FATES {
                let such = self.fates.iter().filter(|(key, _)| (key.0, key.1) == (promised, fate));
                let writes: Vec<_> = such.map(|(key, count)| (key.2, count)).collect();
                write!(f, "; {fate} {writes:?}")?;
            }
        }
        Ok(())
    }
}
