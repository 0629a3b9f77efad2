//! Draws calls that get somewhere: mostly what the server's phase allows, with fates of every kind.

use super::clients::draw_mark;
use super::exports::draw_export;
use super::headers::draw_header;
use super::limits::{draw_client, draw_count, draw_data};
use super::records::draw_sequence;
use crate::cluster::{Call, Cluster, Message, Phase, Request, Server, Standing};
use crate::fate::{Fate, Left};
use crate::medium::{Slot, PLACE_BYTES};
use crate::random::Random;

/// How rough a list of calls is.
pub struct Caller {
    servers: u64,
    /// One message in this many is not answered.
    trouble: u64,
    /// Records are issued until so many are in flight.
    pub in_flight: u64,
    /// One send in this many goes to any member that may have it, the others to the first.
    pub fairness: u64,
    /// So many members are mostly waited for, if there are as many replicas.
    pub members: usize,
    /// A server ends in one call of this many while several records stand on a minority, and later
    /// otherwise.
    pub patience: u64,
}

impl Caller {
    pub fn new(random: &mut Random) -> Caller {
        Caller {
            servers: 1 + random.below(4),
            trouble: *random.pick(&[3, 6, 12, 30, 300, 300]),
            in_flight: *random.pick(&[1, 3, 6, 9, 9]),
            fairness: *random.pick(&[1, 3, 30, 30]),
            members: *random.pick(&[1, 3, 7, 7]),
            patience: *random.pick(&[8, 20, 100, 100]),
        }
    }

    pub fn next_call(&self, random: &mut Random, cluster: &Cluster) -> Call {
        let server = self.draw_server(random, cluster);
        let record = &cluster.records.servers[server as usize];
        let phase = match random.below(20) {
            0 => *random.pick(&[Phase::Idle, Phase::Opening, Phase::Open]),
            _ => record.phase,
        };
        match phase {
            Phase::Idle => Call::Take { server, fate: self.register_fate(random) },
            Phase::Opening => self.opening_call(random, cluster, server),
            Phase::Open if is_spent(cluster, server) && random.chance(6) => {
                self.make_way(random, cluster, server)
            }
            Phase::Open => self.open_call(random, cluster, server),
        }
    }

    /// Mostly the server of the newest session, so that sessions get somewhere; the others
    /// interfere.
    fn draw_server(&self, random: &mut Random, cluster: &Cluster) -> u64 {
        let session = |&server: &u64| cluster.records.servers[server as usize].session;
        let newest = (0..self.servers).max_by_key(session);
        match newest {
            Some(server) if !random.chance(6) => server,
            _ => random.below(self.servers),
        }
    }

    fn opening_call(&self, random: &mut Random, cluster: &Cluster, server: u64) -> Call {
        let message = self.message(random);
        match random.below(16) {
            0..=5 => Call::Prepare { server, replica: draw_replica(random, cluster), message },
            6..=9 => self.copy(random, cluster, server),
            10 | 11 => {
                Call::Trim { server, replica: draw_usable(random, cluster, server), message }
            }
            12..=14 => Call::Open { server, fate: self.register_fate(random) },
            _ => self.rare_call(random, server),
        }
    }

    fn open_call(&self, random: &mut Random, cluster: &Cluster, server: u64) -> Call {
        let replica = draw_usable(random, cluster, server);
        let message = self.message(random);
        match random.below(21) {
            0..=5 => Call::Issue { server, request: draw_request(random, cluster, server) },
            6..=14 => Call::Send { server, replica, message },
            15 | 16 => self.copy(random, cluster, server),
            17 => Call::Note { server, replica, message },
            18 => {
                let id = random.below(cluster.shape.places + 2);
                Call::Read { server, replica, id, message }
            }
            19 => draw_export(random, cluster, server, replica, message),
            _ => self.rare_call(random, server),
        }
    }

    /// The server is stopped, or another takes the next session while this one goes on talking.
    fn make_way(&self, random: &mut Random, cluster: &Cluster, server: u64) -> Call {
        let idle = |&other: &u64| cluster.records.servers[other as usize].phase == Phase::Idle;
        match (0..self.servers).find(idle) {
            Some(server) if random.chance(2) => {
                Call::Take { server, fate: self.register_fate(random) }
            }
            _ => Call::Stop { server },
        }
    }

    fn copy(&self, random: &mut Random, cluster: &Cluster, server: u64) -> Call {
        let [from, to] = [(); 2].map(|_| draw_usable(random, cluster, server));
        Call::Copy { server, from, to, message: self.message(random) }
    }

    fn rare_call(&self, random: &mut Random, server: u64) -> Call {
        match random.below(6) {
            0 => Call::Reassign,
            1 => Call::Stop { server: random.below(5) },
            2 => Call::Take { server: random.below(5), fate: Fate::Cut(1, Left::New) },
            _ => Call::Stop { server },
        }
    }

    pub fn register_fate(&self, random: &mut Random) -> Fate {
        match random.below(2 * self.trouble) {
            0 => Fate::Lost,
            1 => Fate::AnswerLost,
            _ => Fate::Answered,
        }
    }

    pub fn message(&self, random: &mut Random) -> Message {
        if !random.chance(self.trouble) {
            return Message::new(Fate::Answered);
        }
        let write = random.below(30) % 8;
        let left = *random.pick(&[Left::Old, Left::New, Left::Torn]);
        let cut = Fate::Cut(write, left);
        let fate = *random.pick(&[Fate::Lost, Fate::AnswerLost, cut, cut, cut]);
        Message { fate, given: draw_given(random) }
    }
}

/// Whether the server's session has stored all that its interval lets it issue: only another session
/// can go on.
pub fn is_spent(cluster: &Cluster, server: u64) -> bool {
    let Server { issued, acknowledged, .. } = cluster.records.servers[server as usize];
    acknowledged >= issued && cluster.is_checkpoint_due(server as usize)
}

/// Whether the call's message is cut.
pub fn is_cut(call: &Call) -> bool {
    match call {
        Call::Prepare { message, .. }
        | Call::Copy { message, .. }
        | Call::Trim { message, .. }
        | Call::Send { message, .. }
        | Call::Note { message, .. }
        | Call::Read { message, .. }
        | Call::Export { message, .. } => matches!(message.fate, Fate::Cut(..)),
        _ => false,
    }
}

/// Any replica, now and then one that is not there.
fn draw_replica(random: &mut Random, cluster: &Cluster) -> u64 {
    let beyond = u64::from(random.chance(50));
    random.below(cluster.shape.replicas + beyond)
}

/// Mostly a replica that the server may use.
fn draw_usable(random: &mut Random, cluster: &Cluster, server: u64) -> u64 {
    let standings = &cluster.records.servers[server as usize].standings;
    let usable: Vec<u64> =
        (0..cluster.shape.replicas).filter(|&i| standings[i as usize] == Standing::In).collect();
    if usable.is_empty() || random.chance(5) {
        draw_replica(random, cluster)
    } else {
        *random.pick(&usable)
    }
}

/// Few locks, so that they collide, and clients of either kind that have read just as much as is asked of
/// them, or a little less. Few have header 0.
fn draw_request(random: &mut Random, cluster: &Cluster, server: u64) -> Request {
    let record = &cluster.records.servers[server as usize];
    let client = draw_client(random);
    let ahead = random.chance(40);
    let data = if random.chance(3) { draw_data(random, client) } else { random.bytes(1) };
    let wanted = match random.below(4) {
        0 => 0,
        _ => 1 + random.below(3) + u64::from(random.chance(20)) * 2,
    };
    let count = draw_count(random, client, wanted as usize);
    let kinds = *random.pick(&[2, 6]);
    let locks: Vec<u64> = (0..count).map(|_| random.below(kinds)).collect();
    let around = draw_mark(random, cluster, server, &locks);
    Request {
        client_mark: if ahead { record.acknowledged + 1 } else { around },
        client,
        generation: record.generation + u32::from(random.chance(40)),
        sequence: draw_sequence(random),
        header: draw_header(random, 40),
        data,
        locks,
        ..Request::default()
    }
}

/// Mostly bytes that pass as nothing; a slot that passes is declined.
fn draw_given(random: &mut Random) -> [u8; PLACE_BYTES] {
    let mut given = [0; PLACE_BYTES];
    match random.below(8) {
        0 => {
            let slot = Slot { promise: random.below(9), low: 0, local: 0 };
            given[..32].copy_from_slice(&slot.encode());
        }
        1..=3 => given.copy_from_slice(&random.bytes(PLACE_BYTES)),
        _ => {}
    }
    given
}
