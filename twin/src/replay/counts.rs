//! What a run meets: replies of each call, fates, intervals, what gates and booking clients ask for, locks
//! around the client's mark, ends of exported logs, records in flight, sequences, given bytes, header 0 in
//! requests and in records; recoveries, and media from backups.

use std::collections::BTreeMap;
use std::fmt;

use super::names::{amount_name, end_name, estimate_name, fate_name, fate_of, interval_name};
use super::names::{beside_name, zero_name, BESIDE, GIVEN, SEQUENCES};
use super::names::{given_name, in_flight, sent_index, sequence_name, unsent_name};
use super::names::{AMOUNTS, CLIENTS, ENDS, ESTIMATES, FATES, INTERVALS, UNSENT};
use super::recovery_counts::Recoveries;
use super::restore_counts::Restores;
use super::texts::word;
use crate::cluster::{Answer, Call, Cluster, Refusal, Reply, HELD, ORDER};
use crate::tries::headers::{use_of_zero, USES};
use crate::tries::recoveries::Recovery;

pub const CALLS: [&str; 13] = [
    "take", "prepare", "copy", "trim", "open", "issue", "send", "note", "read", "export", "stop",
    "reassign", "restore",
];

#[derive(Default)]
pub struct Counts {
    /// By call.
    ok: BTreeMap<&'static str, u64>,
    /// By call and row of the list.
    refused: BTreeMap<(&'static str, usize), u64>,
    silent: BTreeMap<&'static str, u64>,
    /// By call, fate and write (0 unless cut), of calls that are not declined.
    fates: BTreeMap<(&'static str, &'static str, u64), u64>,
    /// By call and K, where K alone decides about refusal 1.
    intervals: BTreeMap<(&'static str, &'static str), u64>,
    /// Requests granted or declined by 12, by the kind of client and what it asks for.
    amounts: BTreeMap<(&'static str, &'static str), u64>,
    /// Requests that locks alone decide about.
    estimates: BTreeMap<&'static str, u64>,
    /// Segments that were written.
    ends: BTreeMap<&'static str, u64>,
    /// Requests granted, by how many records were in flight.
    in_flight: [u64; HELD],
    /// Sends that were not declined, by the index of the record.
    sent: [u64; HELD],
    /// Sends without a record.
    unsent: BTreeMap<&'static str, u64>,
    /// Requests granted, by their sequence.
    sequences: BTreeMap<&'static str, u64>,
    /// Torn writes asked for, by what the given bytes pass as.
    given: BTreeMap<&'static str, u64>,
    /// Requests declined by 28, by the kind of client.
    zeros: BTreeMap<&'static str, u64>,
    /// Requests with header 0, by what else declines them.
    beside: BTreeMap<&'static str, u64>,
    /// What answered calls did with records that have header 0.
    uses: BTreeMap<&'static str, u64>,
    /// Whether issue was declined with 23 since the last state was handed in or session opened.
    due: bool,
    /// Sessions opened after that.
    forced: u64,
    recoveries: Recoveries,
    restores: Restores,
}

impl Counts {
    /// Adds a call on this cluster, which is as the call found it.
    pub(super) fn add(&mut self, cluster: &Cluster, call: &Call, reply: &Reply) {
        let word = word(call);
        match reply {
            Ok(Answer::Silent) => *self.silent.entry(word).or_default() += 1,
            Ok(_) => *self.ok.entry(word).or_default() += 1,
            Err(refusal) => *self.refused.entry((word, refusal.row())).or_default() += 1,
        }
        if let (Some(fate), Ok(_)) = (fate_of(call), reply) {
            let (name, write) = fate_name(fate);
            *self.fates.entry((word, name, write)).or_default() += 1;
        }
        if let Some(name) = interval_name(cluster) {
            *self.intervals.entry((word, name)).or_default() += 1;
        }
        self.add_names(cluster, call, reply);
        self.add_change(call, reply);
        self.recoveries.add_call(cluster, call, reply);
        self.restores.add(cluster, call, reply);
    }

    /// Adds a recovery on this cluster, which is as it found it. The calls that it makes are no calls of the
    /// run: these are counted with the recovery alone.
    pub(super) fn add_recovery(
        &mut self,
        cluster: &Cluster,
        recovery: &Recovery,
        end: (Reply, u64),
        after: &Cluster,
    ) {
        self.recoveries.add(cluster, recovery, end, after);
        if matches!(end, (Ok(Answer::Number(_)), _)) {
            self.add_opening();
        }
    }

    /// What only one of the calls is counted as.
    fn add_names(&mut self, cluster: &Cluster, call: &Call, reply: &Reply) {
        if let Some(names) = amount_name(call, reply) {
            *self.amounts.entry(names).or_default() += 1;
        }
        if let Some(name) = estimate_name(cluster, call, reply) {
            *self.estimates.entry(name).or_default() += 1;
        }
        if let Some(name) = end_name(cluster, call, reply) {
            *self.ends.entry(name).or_default() += 1;
        }
        if let Some(count) = in_flight(cluster, call, reply) {
            self.in_flight[count] += 1;
        }
        if let Some(index) = sent_index(cluster, call, reply) {
            self.sent[index] += 1;
        }
        if let Some(name) = unsent_name(cluster, call, reply) {
            *self.unsent.entry(name).or_default() += 1;
        }
        if let Some(name) = sequence_name(call, reply) {
            *self.sequences.entry(name).or_default() += 1;
        }
        if let Some(name) = given_name(cluster, call) {
            *self.given.entry(name).or_default() += 1;
        }
        if let Some(name) = zero_name(call, reply) {
            *self.zeros.entry(name).or_default() += 1;
        }
        if let Some(name) = beside_name(cluster, call, reply) {
            *self.beside.entry(name).or_default() += 1;
        }
        if let Some(name) = use_of_zero(cluster, call, reply) {
            *self.uses.entry(name).or_default() += 1;
        }
    }

    fn add_change(&mut self, call: &Call, reply: &Reply) {
        match (call, reply) {
            (_, Err(Refusal::CheckpointDue)) => self.due = true,
            (Call::Open { .. }, Ok(Answer::Number(_))) => self.add_opening(),
            _ => {}
        }
    }

    fn add_opening(&mut self) {
        self.forced += u64::from(self.due);
        self.due = false;
    }

    /// The next call is on another cluster.
    pub(super) fn add_state(&mut self) {
        self.due = false;
        self.recoveries.add_state();
    }

    pub fn ok(&self, call: &str) -> u64 {
        self.ok.get(call).copied().unwrap_or(0)
    }

    pub fn silent(&self, call: &str) -> u64 {
        self.silent.get(call).copied().unwrap_or(0)
    }

    /// How often the call was declined by this row of the list.
    pub fn refused(&self, call: &str, row: usize) -> u64 {
        let counted = self.refused.iter().filter(|((word, met), _)| (*word, *met) == (call, row));
        counted.map(|(_, count)| count).sum()
    }

    /// How often the call, not declined, had this fate.
    pub fn fate(&self, call: &str, fate: &str) -> u64 {
        let counted =
            self.fates.iter().filter(|((word, name, _), _)| (*word, *name) == (call, fate));
        counted.map(|(_, count)| count).sum()
    }

    /// The writes at which messages that were not declined were cut so.
    pub fn writes(&self, fate: &str) -> Vec<u64> {
        let cut = self.fates.keys().filter(|(_, name, _)| *name == fate);
        let mut writes: Vec<u64> = cut.map(|(_, _, write)| *write).collect();
        writes.sort_unstable();
        writes.dedup();
        writes
    }

    /// How often the call got such a K, with nothing else that refusal 1 speaks of outside.
    pub fn interval(&self, call: &str, interval: &str) -> u64 {
        let counted = self.intervals.iter().filter(|(key, _)| **key == (call, interval));
        counted.map(|(_, count)| count).sum()
    }

    /// How many requests of this kind of client asked for so much, and were granted or declined by 12.
    pub fn amount(&self, client: &str, amount: &str) -> u64 {
        let counted = self.amounts.iter().filter(|(key, _)| **key == (client, amount));
        counted.map(|(_, count)| count).sum()
    }

    /// How many requests had their greatest estimate there, and were granted or declined by 15.
    pub fn estimate(&self, name: &str) -> u64 {
        self.estimates.get(name).copied().unwrap_or(0)
    }

    /// How many logs were exported that ended so.
    pub fn end(&self, name: &str) -> u64 {
        self.ends.get(name).copied().unwrap_or(0)
    }

    /// How many requests were granted with each number of records in flight.
    pub fn in_flight(&self) -> [u64; HELD] {
        self.in_flight
    }

    /// How many sends had the record at each index.
    pub fn sent(&self) -> [u64; HELD] {
        self.sent
    }

    /// How many sends had none for such a reason.
    pub fn unsent(&self, name: &str) -> u64 {
        self.unsent.get(name).copied().unwrap_or(0)
    }

    /// How many requests were granted with such a sequence.
    pub fn sequence(&self, name: &str) -> u64 {
        self.sequences.get(name).copied().unwrap_or(0)
    }

    /// How many torn writes were to leave such bytes.
    pub fn given(&self, name: &str) -> u64 {
        self.given.get(name).copied().unwrap_or(0)
    }

    /// How many requests of this kind of client were declined by 28.
    pub fn zero(&self, client: &str) -> u64 {
        self.zeros.get(client).copied().unwrap_or(0)
    }

    /// How many requests with header 0 were such that this number declines them too; 28 if it alone does.
    pub fn beside(&self, number: &str) -> u64 {
        self.beside.get(number).copied().unwrap_or(0)
    }

    /// How often this was done with a record that has header 0, or with a log that has one.
    pub fn use_of_zero(&self, name: &str) -> u64 {
        self.uses.get(name).copied().unwrap_or(0)
    }

    /// How many sessions were opened on a cluster where issue had been declined with 23 since the
    /// one before.
    pub fn forced(&self) -> u64 {
        self.forced
    }

    pub fn recoveries(&self) -> &Recoveries {
        &self.recoveries
    }

    pub fn restores(&self) -> &Restores {
        &self.restores
    }

    pub fn calls(&self) -> u64 {
        self.ok.values().chain(self.silent.values()).chain(self.refused.values()).sum()
    }
}

/// A table of replies by call, in which 1 stands once more behind 20 (the lengths of export's files); one
/// of fates and one of K by call, one of what clients ask for, one of estimates, one of ends, one of
/// sequences, one of given bytes, three of header 0, what was in flight and held, and the writes that were cut;
/// then the recoveries and the restores.
impl fmt::Display for Counts {
    fn fmt(&self, f: &mut fmt::Formatter<'_>) -> fmt::Result {
        write!(f, "{:9}{:>6}{:>7}", "call", "ok", "silent")?;
        ORDER.iter().try_for_each(|number| write!(f, "{number:>5}"))?;
        CALLS.iter().try_for_each(|call| self.write_replies(f, call))?;
        write!(f, "\n\n{:9}", "call")?;
        FATES.iter().try_for_each(|fate| write!(f, "{fate:>12}"))?;
        CALLS.iter().try_for_each(|call| self.write_fates(f, call))?;
        write!(f, "\n\n{:9}", "K")?;
        INTERVALS.iter().try_for_each(|interval| write!(f, "{interval:>12}"))?;
        CALLS.iter().try_for_each(|call| self.write_intervals(f, call))?;
        write!(f, "\n\n{:9}", "client")?;
        AMOUNTS.iter().try_for_each(|amount| write!(f, "{amount:>12}"))?;
        CLIENTS.iter().try_for_each(|client| self.write_amounts(f, client))?;
        write_table(f, "estimate", "issue", &ESTIMATES, |name| self.estimate(name))?;
        write_table(f, "end", "export", &ENDS, |name| self.end(name))?;
        write_table(f, "unsent", "send", &UNSENT, |name| self.unsent(name))?;
        write_table(f, "sequence", "issue", &SEQUENCES, |name| self.sequence(name))?;
        write_table(f, "given", "torn", &GIVEN, |name| self.given(name))?;
        write_table(f, "header 0", "issue", &CLIENTS, |name| self.zero(name))?;
        write_table(f, "header 0", "beside", &BESIDE, |name| self.beside(name))?;
        write_table(f, "header 0", "record", &USES, |name| self.use_of_zero(name))?;
        writeln!(f)?;
        write!(f, "\nissued with 0 to 7 in flight {:?}", self.in_flight)?;
        write!(f, "\nsent from index 0 to 7 {:?}", self.sent)?;
        let cuts = &mut FATES[3..].iter();
        cuts.try_for_each(|fate| write!(f, "\n{fate} at writes {:?}", self.writes(fate)))?;
        write!(f, "\n{} sessions opened after number 23", self.forced())?;
        write!(f, "\n{} calls\n{}\n{}\n", self.calls(), self.recoveries, self.restores)
    }
}

impl Counts {
    fn write_replies(&self, f: &mut fmt::Formatter<'_>, call: &str) -> fmt::Result {
        write!(f, "\n{call:9}{:>6}{:>7}", self.ok(call), self.silent(call))?;
        (0..ORDER.len()).try_for_each(|row| write!(f, "{:>5}", self.refused(call, row)))
    }

    fn write_fates(&self, f: &mut fmt::Formatter<'_>, call: &str) -> fmt::Result {
        write!(f, "\n{call:9}")?;
        FATES.iter().try_for_each(|fate| write!(f, "{:>12}", self.fate(call, fate)))
    }

    fn write_amounts(&self, f: &mut fmt::Formatter<'_>, client: &str) -> fmt::Result {
        write!(f, "\n{client:9}")?;
        AMOUNTS.iter().try_for_each(|amount| write!(f, "{:>12}", self.amount(client, amount)))
    }

    fn write_intervals(&self, f: &mut fmt::Formatter<'_>, call: &str) -> fmt::Result {
        write!(f, "\n{call:9}")?;
        INTERVALS.iter().try_for_each(|name| write!(f, "{:>12}", self.interval(call, name)))
    }
}

/// A table of one line, of one call.
fn write_table(
    f: &mut fmt::Formatter<'_>,
    title: &str,
    call: &str,
    names: &[&str],
    count: impl Fn(&str) -> u64,
) -> fmt::Result {
    write!(f, "\n\n{title:9}")?;
    names.iter().try_for_each(|name| write!(f, "{name:>13}"))?;
    write!(f, "\n{call:9}")?;
    names.iter().try_for_each(|name| write!(f, "{:>13}", count(name)))
}
