//! The calls that a recovery makes, and what there is to them.

use crate::cluster::{Answer, Call, Closing, Cluster, Reply};
use crate::fate::{Fate, Left};
use crate::medium::{self, passes};
use crate::tries::recoveries::Recovery;
use crate::votes::{highest_reached, quorum};

/// One call with its reply; the cluster is as it found it.
pub struct Step {
    pub before: Cluster,
    pub call: Call,
    pub reply: Reply,
}

pub struct Trace {
    pub steps: Vec<Step>,
    pub end: (Reply, u64),
    pub after: Cluster,
}

impl Trace {
    /// Of a recovery that the driver does not decline itself.
    pub fn of(before: &Cluster, recovery: &Recovery) -> Trace {
        let (mut cluster, mut steps) = (before.clone(), Vec::new());
        let end = recovery.by_hand(&before.records.register, |mut call| {
            let before = cluster.clone();
            let reply = cluster.apply(&mut call);
            steps.push(Step { before, call, reply });
            reply
        });
        Trace { steps, end, after: cluster }
    }

    /// The replicas that answered their prepare, with their marks then.
    fn known(&self) -> Vec<(u64, u64)> {
        let known = self.steps.iter().filter_map(|step| match (&step.call, step.reply) {
            (Call::Prepare { replica, .. }, Ok(Answer::Number(mark))) => Some((*replica, mark)),
            _ => None,
        });
        known.collect()
    }

    /// The copies: source, the other's mark before, and the one after if it answered.
    fn copies(&self) -> Vec<(u64, u64, Option<u64>)> {
        let copies = self.steps.iter().filter_map(|step| match step.call {
            Call::Copy { server, from, to, .. } => {
                let mark = step.before.records.servers[server as usize].marks[to as usize];
                let after = match step.reply {
                    Ok(Answer::Number(after)) => Some(after),
                    _ => None,
                };
                Some((from, mark, after))
            }
            _ => None,
        });
        copies.collect()
    }

    /// The names of what there is to the recovery.
    pub fn features(&self, recovery: &Recovery) -> Vec<&'static str> {
        let opened = matches!(self.end.0, Ok(Answer::Number(_)));
        let taken = self.steps.len() > 1;
        let (known, copies) = (self.known(), self.copies());
        let session = self.after.records.register.session;
        let mut names = vec![
            ("none known", taken && known.is_empty()),
            ("no copies", opened && copies.is_empty()),
            ("top session", opened && session == u64::MAX),
            ("truncated", self.steps.iter().any(truncates)),
            ("same promise", self.steps.iter().any(has_promised)),
        ];
        names.extend(self.of_copies(&known, &copies));
        names.extend(self.of_restored(&known));
        names.extend(self.of_fates(recovery));
        names.into_iter().filter(|(_, met)| *met).map(|(name, _)| name).collect()
    }

    fn of_copies(
        &self,
        known: &[(u64, u64)],
        copies: &[(u64, u64, Option<u64>)],
    ) -> [(&'static str, bool); 6] {
        let others: Vec<_> = known.iter().filter(|(it, _)| !self.is_restored(*it)).collect();
        let highest = others.iter().map(|(_, mark)| *mark).max().unwrap_or(0);
        let at_highest = || others.iter().filter(|(_, mark)| *mark == highest).map(|(it, _)| *it);
        let replicas = self.after.shape.replicas as usize;
        let majority = highest_reached(quorum(replicas), others.iter().map(|(_, mark)| *mark));
        let any = |such: &dyn Fn(u64, u64, u64) -> bool| {
            copies.iter().any(|&(from, mark, after)| after.is_some_and(|it| such(from, mark, it)))
        };
        [
            // The source is not the first that is known, or not the lowest number of those that have the mark.
            ("not first", any(&|from, _, _| others[0].0 != from)),
            ("not lowest", any(&|from, _, _| at_highest().min() != Some(from))),
            ("above majority", any(&|_, _, after| majority.is_some_and(|mark| after > mark))),
            ("jump", any(&|_, mark, after| after > mark + 1)),
            ("past highest", any(&|_, _, after| after > highest)),
            ("source shows", self.steps.iter().any(|step| shows_source(step, at_highest()))),
        ]
    }

    /// Whether the register says so, as the recovery finds it.
    fn is_restored(&self, replica: u64) -> bool {
        let entries = &self.steps[0].before.records.register.entries;
        entries[replica as usize].closing == Closing::Restored
    }

    /// Restored replicas: copied to; known above the highest mark of the others; known at it or above, and
    /// before their first that has it; known alone; clean at the end, or left restored.
    fn of_restored(&self, known: &[(u64, u64)]) -> [(&'static str, bool); 6] {
        let highest = known.iter().filter(|it| !self.is_restored(it.0)).map(|it| it.1).max();
        let restored = || known.iter().filter(|it| self.is_restored(it.0));
        let source = known.iter().find(|it| !self.is_restored(it.0) && Some(it.1) == highest);
        let before = known.iter().take_while(|it| Some(*it) != source);
        let mut passed = before.filter(|it| self.is_restored(it.0) && Some(it.1) >= highest);
        let copied = |step: &Step| match (&step.call, step.reply) {
            (Call::Copy { to, .. }, Ok(Answer::Number(_))) => self.is_restored(*to),
            _ => false,
        };
        let entries = &self.after.records.register.entries;
        let opened = matches!(self.end.0, Ok(Answer::Number(_)));
        let after = |such: Closing| {
            let is = |replica: u64| entries[replica as usize].closing == such;
            opened && (0..self.after.shape.replicas).any(|it| self.is_restored(it) && is(it))
        };
        [
            ("to restored", self.steps.iter().any(copied)),
            ("restored higher", highest.is_some() && restored().any(|it| Some(it.1) > highest)),
            ("restored passed", highest.is_some() && passed.next().is_some()),
            ("only restored", highest.is_none() && restored().next().is_some()),
            ("restored clean", after(Closing::Unresolved)),
            ("restored left", after(Closing::Restored)),
        ]
    }

    /// How many fates there are beside the calls, and whether bytes that pass are another fate's than that of a
    /// write that was torn.
    fn of_fates(&self, recovery: &Recovery) -> [(&'static str, bool); 6] {
        let (fates, made) = (&recovery.fates, self.steps.len());
        let left = fates.get(made..).unwrap_or(&[]);
        let torn = |fate: &Fate| matches!(fate, Fate::Cut(1.., Left::Torn));
        let read = &fates[..made.min(fates.len())];
        let others = (0..).zip(read).any(|(at, fate)| torn(fate) && at != recovery.index);
        let pass = passes(&recovery.bytes, self.after.shape.places);
        let far = |fate: &Fate| matches!(fate, Fate::Cut(write, _) if *write > 1 << 60);
        [
            ("fates short", fates.len() < made),
            ("fates exact", fates.len() == made),
            ("fates left", fates.len() > made),
            ("unfit left", left.iter().any(|fate| matches!(fate, Fate::Cut(0, _)))),
            ("others torn", pass && others),
            ("far write", read.iter().any(far)),
        ]
    }
}

/// A copy after which other bytes would stand there if another replica that has the mark had been the source.
fn shows_source(step: &Step, mut sources: impl Iterator<Item = u64>) -> bool {
    let (Call::Copy { server, from, to, .. }, Ok(Answer::Number(_))) = (&step.call, step.reply)
    else {
        return false;
    };
    let number = step.before.records.servers[*server as usize].marks[*to as usize] + 1;
    let bytes = |replica: u64| medium::place(step.before.medium(replica as usize), number);
    sources.any(|source| bytes(source) != bytes(*from))
}

/// A prepare that wipes places.
fn truncates(step: &Step) -> bool {
    match (&step.call, step.reply) {
        (Call::Prepare { replica, .. }, Ok(Answer::Number(mark))) => {
            medium::mark(step.before.medium(*replica as usize)) > mark
        }
        _ => false,
    }
}

/// A prepare of a replica that has promised the session already.
fn has_promised(step: &Step) -> bool {
    let Call::Prepare { server, replica, .. } = step.call else {
        return false;
    };
    let session = step.before.records.servers[server as usize].session;
    let slot = medium::current(step.before.medium(replica as usize));
    slot.is_some_and(|(_, slot)| slot.promise == session)
}
