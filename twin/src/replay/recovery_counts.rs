//! What a run meets of recoveries: replies, counts of calls, lists, fates of each kind of call, who was passed
//! over, and what else there is to them.

use std::collections::{BTreeMap, BTreeSet};
use std::fmt;

use super::names::{fate_name, fate_of, FATES};
use super::recovery_trace::Trace;
use super::texts::word;
use crate::cluster::{Answer, Call, Cluster, Refusal, Reply};
use crate::tries::recoveries::Recovery;

/// 6 and silence are the take's or the open's.
pub const REPLIES: [&str; 14] = [
    "ok",
    "silent take",
    "silent open",
    "1",
    "2",
    "3",
    "4",
    "5",
    "29",
    "6 take",
    "6 open",
    "21",
    "8",
    "9",
];

/// The calls that a recovery makes.
pub const STEPS: [&str; 4] = ["take", "prepare", "copy", "open"];

/// Why replicas were passed over. No copy is declined but by 6: source and replica were just prepared.
pub const PASSED: [&str; 6] =
    ["prepare 6", "prepare 18", "prepare 19", "prepare silent", "copy 6", "copy silent"];

/// What else there is to a recovery; `recovery_trace` says when. Those from "restart" on are of what comes after
/// one: the next one after one that did not open, a replica that declines an older server, and calls of the
/// session that it opened, or the next take.
pub const FEATURES: [&str; 28] = [
    "none known",
    "no copies",
    "not first",
    "not lowest",
    "source shows",
    "above majority",
    "jump",
    "past highest",
    "truncated",
    "same promise",
    "top session",
    "fates short",
    "fates exact",
    "fates left",
    "unfit left",
    "others torn",
    "far write",
    "to restored",
    "restored higher",
    "restored passed",
    "only restored",
    "restored clean",
    "restored left",
    "restart",
    "old server",
    "issue after",
    "send after",
    "take after",
];

#[derive(Default)]
pub struct Recoveries {
    replies: BTreeMap<&'static str, u64>,
    /// By the count of calls.
    counts: BTreeMap<u64, u64>,
    /// By R and how many replicas are listed, of those that the driver did not decline.
    listed: BTreeMap<(u64, usize), u64>,
    /// By kind of call, fate and write (0 unless cut).
    fates: BTreeMap<(&'static str, &'static str, u64), u64>,
    passed: BTreeMap<&'static str, u64>,
    features: BTreeMap<&'static str, u64>,
    /// Sessions that recoveries opened since a state was handed in.
    opened: BTreeSet<u64>,
    /// Whether the last one since then ended without opening, and whether there was any.
    ended: bool,
    any: bool,
}

impl Recoveries {
    /// Adds a recovery on this cluster, which is as it found it.
    pub fn add(
        &mut self,
        before: &Cluster,
        recovery: &Recovery,
        (reply, count): (Reply, u64),
        after: &Cluster,
    ) {
        *self.replies.entry(reply_name(&reply, count)).or_default() += 1;
        *self.counts.entry(count).or_default() += 1;
        if count == 0 {
            return;
        }
        let key = (before.shape.replicas, recovery.listed.len());
        *self.listed.entry(key).or_default() += 1;
        let trace = Trace::of(before, recovery);
        assert!(trace.end == (reply, count) && trace.after == *after, "{recovery:?}");
        self.add_steps(&trace);
        trace.features(recovery).into_iter().for_each(|name| self.feature(name));
        if self.ended {
            self.feature("restart");
        }
        (self.ended, self.any) = (!matches!(reply, Ok(Answer::Number(_))), true);
        if !self.ended {
            self.opened.insert(after.records.register.session);
        }
    }

    fn add_steps(&mut self, trace: &Trace) {
        for step in &trace.steps {
            let fate = fate_of(&step.call).expect("each of these calls has one");
            let (name, write) = fate_name(fate);
            *self.fates.entry((word(&step.call), name, write)).or_default() += 1;
            let passed = match step.reply {
                Err(refusal) => format!("{} {}", word(&step.call), refusal.number()),
                Ok(Answer::Silent) => format!("{} silent", word(&step.call)),
                Ok(_) => continue,
            };
            if let Some(name) = PASSED.into_iter().find(|name| *name == passed) {
                *self.passed.entry(name).or_default() += 1;
            }
        }
    }

    /// Adds a call, of the operator or of the session that a recovery opened.
    pub fn add_call(&mut self, cluster: &Cluster, call: &Call, reply: &Reply) {
        let driven =
            |server: u64| self.opened.contains(&cluster.records.servers[server as usize].session);
        match (call, reply) {
            (Call::Issue { server, .. }, Ok(_)) if driven(*server) => self.feature("issue after"),
            (Call::Send { server, .. }, Ok(_)) if driven(*server) => self.feature("send after"),
            (Call::Take { .. }, Ok(Answer::Number(_))) if self.any => self.feature("take after"),
            (Call::Send { .. }, Err(Refusal::OtherPromise)) if self.any => {
                self.feature("old server")
            }
            _ => {}
        }
    }

    /// The next one is on another cluster.
    pub fn add_state(&mut self) {
        self.opened.clear();
        (self.ended, self.any) = (false, false);
    }

    fn feature(&mut self, name: &'static str) {
        *self.features.entry(name).or_default() += 1;
    }

    pub fn all(&self) -> u64 {
        self.replies.values().sum()
    }

    pub fn replied(&self, name: &str) -> u64 {
        self.replies.get(name).copied().unwrap_or(0)
    }

    /// The counts of calls that there were.
    pub fn counts(&self) -> Vec<u64> {
        self.counts.keys().copied().collect()
    }

    pub fn listed(&self, replicas: u64, count: usize) -> u64 {
        self.listed.get(&(replicas, count)).copied().unwrap_or(0)
    }

    /// How often such a call had this fate, at this write if it is cut.
    pub fn fate(&self, step: &str, fate: &str, write: u64) -> u64 {
        let counted = self.fates.iter().filter(|(key, _)| **key == (step, fate, write));
        counted.map(|(_, count)| count).sum()
    }

    pub fn passed(&self, name: &str) -> u64 {
        self.passed.get(name).copied().unwrap_or(0)
    }

    pub fn met(&self, feature: &str) -> u64 {
        self.features.get(feature).copied().unwrap_or(0)
    }
}

fn reply_name(reply: &Reply, count: u64) -> &'static str {
    let step = if count == 1 { "take" } else { "open" };
    let name = match reply {
        Ok(Answer::Silent) => format!("silent {step}"),
        Ok(_) => "ok".to_string(),
        Err(Refusal::UnfitFate) => format!("6 {step}"),
        Err(refusal) => refusal.number().to_string(),
    };
    let known = REPLIES.into_iter().find(|other| *other == name);
    known.unwrap_or_else(|| panic!("a recovery's reply is never {name}"))
}

/// One line of each.
impl fmt::Display for Recoveries {
    fn fmt(&self, f: &mut fmt::Formatter<'_>) -> fmt::Result {
        write!(f, "\n{} recoveries", self.all())?;
        REPLIES.iter().try_for_each(|name| write!(f, "; {name}: {}", self.replied(name)))?;
        write!(f, "\ncounts of calls {:?}", self.counts())?;
        write!(f, "\nlists (R, replicas listed): times {:?}", self.listed)?;
        for step in STEPS {
            write!(f, "\n{step} of a recovery")?;
            for fate in FATES {
                let writes = self.fates.iter().filter(|(key, _)| (key.0, key.1) == (step, fate));
                let writes: Vec<_> = writes.map(|(key, count)| (key.2, count)).collect();
                write!(f, "; {fate} {writes:?}")?;
            }
        }
        write!(f, "\npassed over")?;
        PASSED.iter().try_for_each(|name| write!(f, "; {name}: {}", self.passed(name)))?;
        write!(f, "\nof recoveries")?;
        FEATURES.iter().try_for_each(|name| write!(f, "; {name}: {}", self.met(name)))
    }
}
