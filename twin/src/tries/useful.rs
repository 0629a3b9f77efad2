//! Calls that bring a cluster on: recoveries to their end, logs filled, a new session where the
//! interval asks for one, now and then a handover while the old server goes on talking.

use super::caller::{is_spent, Caller};
use super::clients::draw_mark;
use super::exports::draw_export;
use super::headers::draw_header;
use super::limits::{draw_client, draw_count, draw_data};
use super::records::draw_sequence;
use crate::cluster::{Call, Cluster, Phase, Request, Server, Standing, HELD};
use crate::random::Random;
use crate::votes;

/// The next call of a server that knows what it wants; one in some is drawn at random.
pub fn next_call(random: &mut Random, caller: &Caller, cluster: &Cluster) -> Call {
    if random.chance(12) {
        return caller.next_call(random, cluster);
    }
    let server = pick_server(random, caller, cluster);
    let record = &cluster.records.servers[server as usize];
    let useful = Useful { caller, cluster, server, record };
    match record.phase {
        Phase::Idle => Call::Take { server, fate: caller.register_fate(random) },
        _ if useful.ends(random) => Call::Stop { server },
        Phase::Opening => useful.opening_call(random),
        Phase::Open => useful.open_call(random),
    }
}

/// The server of the newest session, or now and then another: one that is idle takes over, sooner if
/// the newest session can issue no more.
fn pick_server(random: &mut Random, caller: &Caller, cluster: &Cluster) -> u64 {
    let record = |server: u64| &cluster.records.servers[server as usize];
    let newest = (0..4).max_by_key(|&server| record(server).session).expect("four servers");
    let other = random.below(4);
    let rate = match record(other).phase {
        _ if record(newest).phase == Phase::Idle => 1,
        Phase::Idle if is_spent(cluster, newest) => 5,
        Phase::Idle => 3 * caller.patience,
        _ => 5,
    };
    if random.chance(rate) {
        other
    } else {
        newest
    }
}

struct Useful<'a> {
    caller: &'a Caller,
    cluster: &'a Cluster,
    server: u64,
    record: &'a Server,
}

impl Useful<'_> {
    /// The replicas below R whose standing and recorded mark are such.
    fn replicas(&self, such: impl Fn(Standing, u64) -> bool) -> Vec<u64> {
        let all = 0..self.cluster.shape.replicas;
        all.filter(|&i| such(self.record.standings[i as usize], self.record.marks[i as usize]))
            .collect()
    }

    /// Those that are known or members, and whose marks are such.
    fn used(&self, such: impl Fn(u64) -> bool) -> Vec<u64> {
        self.replicas(|standing, mark| standing == Standing::In && such(mark))
    }

    /// Those that may be copied from: an opening server takes nothing from restored ones.
    fn sources(&self, such: impl Fn(u64) -> bool) -> Vec<u64> {
        let opening = self.record.phase == Phase::Opening;
        let barred = |replica: u64| opening && self.record.is_restored(replica as usize);
        self.used(such).into_iter().filter(|&replica| !barred(replica)).collect()
    }

    /// The highest of their marks.
    fn highest(&self) -> u64 {
        let marks = self.sources(|_| true).into_iter().map(|i| self.record.marks[i as usize]);
        marks.max().unwrap_or(0)
    }

    /// Servers whose session is over end sooner or later, also those of a full log and those that
    /// may issue no more; some end while several records stand on a minority.
    fn ends(&self, random: &mut Random) -> bool {
        let Server { session, issued, acknowledged, .. } = *self.record;
        let over = session != self.cluster.records.register.session;
        let full = issued == self.cluster.shape.places && acknowledged >= issued;
        let spent = full || is_spent(self.cluster, self.server);
        let unfinished = self.highest().min(issued).saturating_sub(acknowledged);
        random.chance(3 * self.caller.patience)
            || ((over || spent) && random.chance(4))
            || (unfinished > 1 && random.chance(self.caller.patience))
    }

    fn opening_call(&self, random: &mut Random) -> Call {
        let absent = self.replicas(|standing, _| standing != Standing::In);
        let quorum = votes::quorum(self.cluster.shape.replicas as usize);
        let enough = self.sources(|_| true).len() >= quorum;
        if !absent.is_empty() && (!enough || random.chance(2)) {
            return self.prepare(random, &absent);
        }
        let known = self.known_marks();
        let Some(mark) = votes::decided(&known) else {
            // Nothing is decided: lift those behind to the highest.
            return self.copy_up(random, self.highest(), &absent);
        };
        let (above, at) = (self.used(|other| other > mark), self.used(|other| other == mark));
        if !above.is_empty() && !random.chance(4) {
            return self.trim(random, &above);
        }
        let wanted = self.caller.members.min(known.len());
        let ready = at.len() >= quorum && (at.len() >= wanted || random.chance(4));
        if ready && !random.chance(4) {
            let fate = self.caller.register_fate(random);
            return Call::Open { server: self.server, fate };
        }
        self.copy_up(random, mark, &absent)
    }

    fn known_marks(&self) -> Vec<Option<u64>> {
        let replicas = 0..self.cluster.shape.replicas as usize;
        replicas.map(|replica| self.record.vote(replica)).collect()
    }

    /// Records are issued while others are in flight. A member that may be sent the next one gets it;
    /// one further behind is copied to. What is acknowledged is read, noted and exported, then more is
    /// issued, or asked for where none may be.
    fn open_call(&self, random: &mut Random) -> Call {
        let issued = self.record.issued;
        let full = issued == self.cluster.shape.places;
        let in_flight = self.record.unacknowledged();
        if random.chance(if full && in_flight == 0 { 2 } else { 6 }) {
            return self.look(random);
        }
        let due = !full && self.cluster.is_checkpoint_due(self.server as usize);
        let more = !full && !due && (1..self.caller.in_flight).contains(&in_flight);
        if more && !random.chance(3) || due && in_flight == 0 && random.chance(2) {
            return Call::Issue { server: self.server, request: self.request(random) };
        }
        let behind = self.used(|mark| self.record.held_record(mark + 1).is_some());
        if !behind.is_empty() && (in_flight > 0 || random.chance(self.caller.fairness)) {
            return self.send(random, &behind);
        }
        let lagging = !self.used(|mark| mark < issued).is_empty();
        let outrun = self.used(|mark| issued > mark + HELD as u64);
        if !outrun.is_empty() && random.chance(8) {
            return self.send(random, &outrun);
        }
        let rate = if outrun.is_empty() { 4 * self.caller.fairness } else { 4 };
        if in_flight > 0 || (lagging && random.chance(rate)) {
            return self.copy_up(random, self.highest(), &[]);
        }
        Call::Issue { server: self.server, request: self.request(random) }
    }

    /// Mostly to the first, so that others fall behind.
    fn send(&self, random: &mut Random, replicas: &[u64]) -> Call {
        let fair = random.chance(self.caller.fairness);
        let (server, replica) =
            (self.server, if fair { *random.pick(replicas) } else { replicas[0] });
        Call::Send { server, replica, message: self.caller.message(random) }
    }

    /// Reads, notes or exports.
    fn look(&self, random: &mut Random) -> Call {
        let members = self.used(|_| true);
        let (server, message) = (self.server, self.caller.message(random));
        if members.is_empty() {
            return Call::Stop { server };
        }
        let replica = *random.pick(&members);
        match random.below(3) {
            0 => Call::Note { server, replica, message },
            1 => {
                let id = 1 + random.below(self.record.acknowledged + 1);
                Call::Read { server, replica, id, message }
            }
            _ => draw_export(random, self.cluster, server, replica, message),
        }
    }

    fn prepare(&self, random: &mut Random, replicas: &[u64]) -> Call {
        let (server, replica) = (self.server, *random.pick(replicas));
        Call::Prepare { server, replica, message: self.caller.message(random) }
    }

    fn trim(&self, random: &mut Random, replicas: &[u64]) -> Call {
        let (server, replica) = (self.server, *random.pick(replicas));
        Call::Trim { server, replica, message: self.caller.message(random) }
    }

    /// A copy from one at the mark or above to one below it; where there are not both, another
    /// replica is prepared, or the server gives up.
    fn copy_up(&self, random: &mut Random, mark: u64, absent: &[u64]) -> Call {
        let server = self.server;
        let (from, to) = (self.sources(|other| other >= mark), self.used(|other| other < mark));
        if from.is_empty() || to.is_empty() {
            return match absent {
                [] => Call::Stop { server },
                absent => self.prepare(random, absent),
            };
        }
        let (from, to) = (*random.pick(&from), *random.pick(&to));
        Call::Copy { server, from, to, message: self.caller.message(random) }
    }

    /// Few locks, or more of them so that some were never written, and clients of either kind that have
    /// read just as much as is asked of them, or a little less. Nobody has read what is in flight, so
    /// that then most ask for none. Few have header 0.
    fn request(&self, random: &mut Random) -> Request {
        let client = draw_client(random);
        let data = if random.chance(3) { draw_data(random, client) } else { Vec::new() };
        let calm = self.record.unacknowledged() == 0;
        let some = if calm { !random.chance(4) } else { random.chance(4) };
        let wanted = if some { 1 + random.below(5) as usize } else { 0 };
        let count = draw_count(random, client, wanted);
        let kinds = *random.pick(&[2, 40]);
        let locks: Vec<u64> = (0..count).map(|_| random.below(kinds)).collect();
        Request {
            client_mark: draw_mark(random, self.cluster, self.server, &locks),
            client,
            generation: self.record.generation,
            partition: random.below(4) as u32,
            sequence: draw_sequence(random),
            header: draw_header(random, 40),
            data,
            locks,
        }
    }
}
