//! Calls that send a message to a replica: prepare, copy, trim, send, note, read.

use super::checks::received;
use super::{Answer, Cluster, Message, Phase, Refusal, Reply, Standing};
use crate::fate::{perform, Fate};
use crate::medium::{self, PlaceBytes};
use crate::replica::{Found, Operation};
use crate::votes::highest_reached;

impl Cluster {
    /// The replica promises the session and truncates as its entry says, the one that take handed over; it
    /// answers its mark and is known.
    pub fn prepare(&mut self, server: u64, replica: u64, message: &Message) -> Reply {
        let (server, replica) = self.check_addressed(server, replica, Phase::Opening)?;
        self.check_message(message)?;
        let record = &self.records.servers[server];
        let (session, closing) = (record.session, record.entries[replica].closing);
        let judged = may_promise(self.medium(replica), session);
        let operation = Operation::Prepare { session, closing };
        let heard = self.deliver(replica, judged, operation, message)?;
        Ok(self.hear(server, replica, heard))
    }

    /// Writes the record behind `to`'s mark there as it stands on `from`; answers `to`'s mark, or
    /// once open the acknowledged one.
    pub fn copy(&mut self, server: u64, from: u64, to: u64, message: &Message) -> Reply {
        let server = self.check_server(server)?;
        let (from, to) = (self.check_replica(from)?, self.check_replica(to)?);
        Refusal::NoSuchReplica.when(from == to)?;
        self.check_phase(server, &[Phase::Opening, Phase::Open])?;
        self.check_message(message)?;
        self.check_standing(server, from)?;
        self.check_standing(server, to)?;
        let marks = self.records.servers[server].marks;
        Refusal::NothingToDo.when(marks[to] >= marks[from])?;
        // "copying from it meets refusal 17": once open, a member is like any other.
        let opening = self.records.servers[server].phase == Phase::Opening;
        Refusal::UnfitSource.when(opening && self.records.servers[server].is_restored(from))?;
        self.agreeing(server, from).map_err(|_| Refusal::UnfitSource)?;
        let bytes = medium::place(self.medium(from), marks[to] + 1);
        self.append(server, to, bytes, message)
    }

    /// Truncates a known replica to the majority mark; answers its mark.
    pub fn trim(&mut self, server: u64, replica: u64, message: &Message) -> Reply {
        let (server, replica) = self.check_addressed(server, replica, Phase::Opening)?;
        self.check_message(message)?;
        self.check_standing(server, replica)?;
        let mark = self.check_decided(server)?;
        Refusal::NothingToDo.when(self.records.servers[server].marks[replica] <= mark)?;
        self.instruct(server, replica, Operation::Truncate(mark), message)
    }

    /// "send delivers the one that follows the replica's mark, if it is still held", as it is held;
    /// answers the acknowledged mark.
    pub fn send(&mut self, server: u64, replica: u64, message: &Message) -> Reply {
        let (server, replica) = self.check_addressed(server, replica, Phase::Open)?;
        self.check_message(message)?;
        self.check_standing(server, replica)?;
        let record = &self.records.servers[server];
        let next = *record.held_record(record.marks[replica] + 1).ok_or(Refusal::NothingToDo)?;
        self.append(server, replica, next, message)
    }

    /// Stores the starting mark and the member's own as low-water marks; answers the member's mark.
    pub fn note(&mut self, server: u64, replica: u64, message: &Message) -> Reply {
        let (server, replica) = self.check_addressed(server, replica, Phase::Open)?;
        self.check_message(message)?;
        self.check_standing(server, replica)?;
        let record = &self.records.servers[server];
        let operation = Operation::Note { low: record.starting, local: record.marks[replica] };
        self.instruct(server, replica, operation, message)
    }

    /// Answers the bytes of an acknowledged place of a member.
    pub fn read(&mut self, server: u64, replica: u64, id: u64, message: &Message) -> Reply {
        let (server, replica) = self.check_addressed(server, replica, Phase::Open)?;
        self.check_message(message)?;
        self.check_standing(server, replica)?;
        let record = &self.records.servers[server];
        let readable = 1..=record.marks[replica].min(record.acknowledged);
        Refusal::NothingToDo.when(!readable.contains(&id))?;
        let answer = self.instruct(server, replica, Operation::Read, message)?;
        Ok(match answer {
            Answer::Silent => Answer::Silent,
            _ => Answer::Bytes(medium::place(self.medium(replica), id)),
        })
    }

    /// 1 to 5 for a call that names one replica; otherwise the indexes of server and replica.
    pub(super) fn check_addressed(
        &self,
        server: u64,
        replica: u64,
        phase: Phase,
    ) -> Result<(usize, usize), Refusal> {
        let server = self.check_server(server)?;
        let replica = self.check_replica(replica)?;
        self.check_phase(server, &[phase])?;
        Ok((server, replica))
    }

    /// send's and copy's message and its effect on the acknowledged mark, which an open server
    /// computes anew even after silence.
    fn append(
        &mut self,
        server: usize,
        replica: usize,
        bytes: PlaceBytes,
        message: &Message,
    ) -> Reply {
        let answer = self.instruct(server, replica, Operation::Append(bytes), message)?;
        if self.records.servers[server].phase != Phase::Open {
            return Ok(answer);
        }
        let acknowledged = self.reached_by_members(server);
        self.records.servers[server].acknowledged = acknowledged;
        Ok(match answer {
            Answer::Silent => Answer::Silent,
            _ => Answer::Number(acknowledged),
        })
    }

    /// The highest mark that a quorum of members reaches, dropped ones included; 0 without a quorum
    /// of members.
    fn reached_by_members(&self, server: usize) -> u64 {
        let record = &self.records.servers[server];
        let members = (0..self.replicas()).filter(|&i| record.standings[i] != Standing::Out);
        highest_reached(self.quorum(), members.map(|i| record.marks[i])).unwrap_or(0)
    }

    /// A message to a replica that must agree with the server about promise and mark.
    fn instruct(
        &mut self,
        server: usize,
        replica: usize,
        operation: Operation,
        message: &Message,
    ) -> Reply {
        let judged = self.agreeing(server, replica);
        let heard = self.deliver(replica, judged, operation, message)?;
        Ok(self.hear(server, replica, heard))
    }

    /// 18 to 20 for every call but prepare.
    pub(super) fn agreeing(&self, server: usize, replica: usize) -> Result<Found, Refusal> {
        let record = &self.records.servers[server];
        let found = Found::on(self.medium(replica)).ok_or(Refusal::NoSlot)?;
        Refusal::OtherPromise.when(found.slot.promise != record.session)?;
        Refusal::OtherMark.when(found.mark != record.marks[replica])?;
        Ok(found)
    }

    /// What the replica does with a message that it judged so; its mark if it answers.
    pub(super) fn deliver(
        &mut self,
        replica: usize,
        judged: Result<Found, Refusal>,
        operation: Operation,
        message: &Message,
    ) -> Result<Option<u64>, Refusal> {
        let Some(found) = received(message.fate, judged)? else {
            return Ok(None);
        };
        let medium = self.medium_mut(replica);
        perform(medium, operation.writes(found), message.fate, &message.given);
        let answered = message.fate == Fate::Answered;
        Ok(answered.then(|| medium::mark_above(medium, operation.keeps(found))))
    }

    /// What the server makes of the replica's answer. An opening server forgets a silent replica,
    /// an open one drops it; one that answers is known or still a member.
    pub(super) fn hear(&mut self, server: usize, replica: usize, heard: Option<u64>) -> Answer {
        let record = &mut self.records.servers[server];
        let Some(mark) = heard else {
            if record.phase == Phase::Open {
                record.standings[replica] = Standing::Dropped;
            } else {
                record.standings[replica] = Standing::Out;
                record.marks[replica] = 0;
            }
            return Answer::Silent;
        };
        record.standings[replica] = Standing::In;
        record.marks[replica] = mark;
        Answer::Number(mark)
    }
}

/// 18 and 19 for prepare.
fn may_promise(medium: &[u8], session: u64) -> Result<Found, Refusal> {
    let found = Found::on(medium).ok_or(Refusal::NoSlot)?;
    Refusal::OtherPromise.when(found.slot.promise > session)?;
    Ok(found)
}
