//! Reasons to decline that several calls share. Each call lists its own in the order of the list.

use super::{Cluster, Entry, Message, Phase, Refusal, Standing, SERVERS};
use crate::fate::{Fate, Left};
use crate::locks::TABLE_MARKS;
use crate::medium;
use crate::votes::{self, MOST_REPLICAS};

impl Cluster {
    /// 1 and 2.
    pub(super) fn check_state(&self) -> Result<(), Refusal> {
        Refusal::OutsideShape.when(!self.shape.is_allowed() || !self.has_exact_lengths())?;
        Refusal::MarkAbovePlaces.when(self.marks().any(|mark| mark > self.shape.places))
    }

    /// Whether the lent slices have the lengths that R and N ask for; both must be within their
    /// values.
    pub fn has_exact_lengths(&self) -> bool {
        self.media.len() == self.replicas() * self.shape.medium_bytes()
            && self.locks.len() == SERVERS * TABLE_MARKS
    }

    /// Every mark of the register and the server records, but none from R up.
    fn marks(&self) -> impl Iterator<Item = u64> + '_ {
        let closing = |entries: &[Entry; MOST_REPLICAS]| {
            entries.map(|entry| entry.closing.mark()).into_iter().take(self.replicas()).flatten()
        };
        let of_servers = self.records.servers.iter().flat_map(move |server| {
            let recorded = server.marks.into_iter().take(self.replicas());
            let own = [server.starting, server.issued, server.acknowledged];
            own.into_iter().chain(recorded).chain(closing(&server.entries))
        });
        closing(&self.records.register.entries).chain(of_servers)
    }

    /// 1 to 3; otherwise the server's index.
    pub(super) fn check_server(&self, server: u64) -> Result<usize, Refusal> {
        self.check_state()?;
        Refusal::NoSuchServer.when(server >= SERVERS as u64)?;
        Ok(server as usize)
    }

    /// 4 for one replica; otherwise its index.
    pub(super) fn check_replica(&self, replica: u64) -> Result<usize, Refusal> {
        Refusal::NoSuchReplica.when(replica >= self.shape.replicas)?;
        Ok(replica as usize)
    }

    /// 5.
    pub(super) fn check_phase(&self, server: usize, phases: &[Phase]) -> Result<(), Refusal> {
        Refusal::OtherPhase.when(!phases.contains(&self.records.servers[server].phase))
    }

    /// 6 for a message to a replica, whatever the call would write.
    pub(super) fn check_message(&self, message: &Message) -> Result<(), Refusal> {
        Refusal::UnfitFate.when(match message.fate {
            Fate::Cut(0, _) => true,
            Fate::Cut(_, Left::Torn) => medium::passes(&message.given, self.shape.places),
            _ => false,
        })
    }

    /// 7: a replica is used only while it is known or a member that was never silent.
    pub(super) fn check_standing(&self, server: usize, replica: usize) -> Result<(), Refusal> {
        Refusal::ReplicaOut.when(self.records.servers[server].standings[replica] != Standing::In)
    }

    /// 8; otherwise the majority mark.
    pub(super) fn check_decided(&self, server: usize) -> Result<u64, Refusal> {
        let record = &self.records.servers[server];
        let votes: [_; MOST_REPLICAS] = std::array::from_fn(|replica| record.vote(replica));
        votes::decided(&votes[..self.replicas()]).ok_or(Refusal::Undecided)
    }
}

/// 6 for a message to the register, which is never cut.
pub(super) fn check_uncut(fate: Fate) -> Result<(), Refusal> {
    Refusal::UnfitFate.when(matches!(fate, Fate::Cut(..)))
}

/// What the receiver of a message judged, as far as it acts on it: `None` if the message never
/// arrives, or if it declines and nobody hears of it. A decline is seen only if the message is
/// answered.
pub(super) fn received<T>(fate: Fate, judged: Result<T, Refusal>) -> Result<Option<T>, Refusal> {
    match fate {
        Fate::Answered => judged.map(Some),
        Fate::Lost => Ok(None),
        Fate::AnswerLost | Fate::Cut(..) => Ok(judged.ok()),
    }
}
