//! Calls on the register: take, open, reassign; and stop, which needs nobody.

use super::checks::{check_uncut, received};
use super::{Answer, Cluster, Entry, Phase, Refusal, Reply, Server, Standing};
use crate::fate::Fate;
use crate::replica::Closing;
use crate::votes::MOST_REPLICAS;

impl Cluster {
    /// Raises the session and makes an idle server an opening one that knows no replica; answers
    /// the session.
    pub fn take(&mut self, server: u64, fate: Fate) -> Reply {
        let server = self.check_server(server)?;
        self.check_phase(server, &[Phase::Idle])?;
        check_uncut(fate)?;
        let register = &mut self.records.register;
        let raised = register.session.checked_add(1).ok_or(Refusal::AtTop);
        if let Some(session) = received(fate, raised)? {
            register.session = session;
        }
        if fate != Fate::Answered {
            return self.silent_register(server);
        }
        self.records.servers[server] = Server {
            phase: Phase::Opening,
            session: register.session,
            generation: register.generation,
            entries: register.entries,
            ..Server::default()
        };
        Ok(Answer::Number(register.session))
    }

    /// Opens the session at the decided mark with the replicas exactly at it as members; answers
    /// the mark.
    pub fn open(&mut self, server: u64, fate: Fate) -> Reply {
        let server = self.check_server(server)?;
        self.check_phase(server, &[Phase::Opening])?;
        check_uncut(fate)?;
        let mark = self.check_decided(server)?;
        let clean = self.clean(server, mark);
        let count = clean.iter().filter(|&&clean| clean).count();
        Refusal::TooFewClean.when(count < self.quorum())?;
        let session = self.records.servers[server].session;
        let judged = Refusal::OtherSession.when(self.records.register.session != session);
        if received(fate, judged)?.is_some() {
            self.register_opening(session, mark, clean);
        }
        if fate != Fate::Answered {
            return self.silent_register(server);
        }
        self.begin(server, mark, clean);
        Ok(Answer::Number(mark))
    }

    /// The known replicas exactly at the mark, restored or not: "If it stands at the decided mark at open it
    /// counts as clean".
    fn clean(&self, server: usize, mark: u64) -> [bool; MOST_REPLICAS] {
        let record = &self.records.servers[server];
        std::array::from_fn(|replica| {
            replica < self.replicas() && record.known_mark(replica) == Some(mark)
        })
    }

    /// Clean entries become this session's; other unresolved ones are closed at the mark; the rest
    /// remain, and a restored one "stays restored".
    fn register_opening(&mut self, session: u64, mark: u64, clean: [bool; MOST_REPLICAS]) {
        let entries = &mut self.records.register.entries[..self.shape.replicas as usize];
        for (entry, clean) in entries.iter_mut().zip(clean) {
            if clean {
                *entry = Entry { session, closing: Closing::Unresolved };
            } else if entry.closing == Closing::Unresolved {
                entry.closing = Closing::Mark(mark);
            }
        }
    }

    /// The session starts at the mark, which every lock may have been written at.
    fn begin(&mut self, server: usize, mark: u64, clean: [bool; MOST_REPLICAS]) {
        self.table_mut(server).fill(mark);
        let record = &mut self.records.servers[server];
        record.phase = Phase::Open;
        record.starting = mark;
        record.issued = mark;
        record.acknowledged = mark;
        record.standings = clean.map(|clean| if clean { Standing::In } else { Standing::Out });
        record.marks = clean.map(|clean| if clean { mark } else { 0 });
    }

    /// A silent register leaves the server idle; its lock table stays.
    fn silent_register(&mut self, server: usize) -> Reply {
        self.records.servers[server] = Server::default();
        Ok(Answer::Silent)
    }

    /// Raises the generation and answers it.
    pub fn reassign(&mut self) -> Reply {
        self.check_state()?;
        let generation = &mut self.records.register.generation;
        *generation = generation.checked_add(1).ok_or(Refusal::AtTop)?;
        Ok(Answer::Number(u64::from(*generation)))
    }

    /// Makes a server idle, whatever it was doing.
    pub fn stop(&mut self, server: u64) -> Reply {
        let server = self.check_server(server)?;
        self.records.servers[server] = Server::default();
        Ok(Answer::Nothing)
    }
}
