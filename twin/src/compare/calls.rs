//! Draws calls that get somewhere, by looking at the cluster that they are made on: recoveries,
//! handed-over servers, logs up to their last place; with fates, and calls that must be declined.

use std::iter::repeat_with;
use std::sync::OnceLock;

use super::line::Line;
use crate::cluster::{Cluster, Phase, Server, Standing, HELD};
use crate::hex;
use crate::locks::lock_places;
use crate::random::Random;
use crate::tries::clients::draw_mark;
use crate::tries::headers::draw_header;
use crate::votes::{decided, quorum};

/// Few, so that requests name the same ones.
const LOCKS: [u64; 8] = [0, 1, 2, 3, 1_000_003, 1 << 32, 1 << 63, u64::MAX];

/// How rough a run of calls is.
pub struct Caller {
    /// One message in this many is not answered.
    trouble: u64,
    /// One call in this many is by another server than that of the newest session.
    handover: u64,
    /// One call in this many is any call, whatever the state.
    wander: u64,
    /// Records are issued until so many are in flight.
    in_flight: u64,
    /// One send in this many goes to any member that may have it, the others to the first.
    fairness: u64,
}

impl Caller {
    pub fn new(random: &mut Random) -> Caller {
        Caller {
            trouble: *random.pick(&[3, 8, 25, 100]),
            handover: *random.pick(&[2, 6, 25, 120]),
            wander: *random.pick(&[5, 15, 60]),
            in_flight: *random.pick(&[1, 1, 3, 9, 9]),
            fairness: *random.pick(&[1, 4, 25]),
        }
    }

    pub fn next_call(&self, random: &mut Random, cluster: &Cluster) -> Line {
        let server = self.draw_server(random, cluster);
        if random.chance(self.wander) {
            return self.any_call(random, cluster);
        }
        match record(cluster, server).phase {
            Phase::Idle => Line::new("take").number(server).fate(self.fate(random)),
            Phase::Opening => self.towards_open(random, cluster, server),
            Phase::Open => self.towards_acknowledged(random, cluster, server),
        }
    }

    /// Mostly the server of the newest session, or one to take over from it if it can do no more,
    /// so that sessions get somewhere; the others interfere.
    fn draw_server(&self, random: &mut Random, cluster: &Cluster) -> u64 {
        if random.chance(self.handover) {
            return random.below(4);
        }
        let newest = (0..4).max_by_key(|&server| record(cluster, server).session).unwrap_or(0);
        let idle = |&server: &u64| record(cluster, server).phase == Phase::Idle;
        match (0..4).find(idle) {
            Some(server) if is_spent(cluster, newest) && random.chance(3) => server,
            _ => newest,
        }
    }

    /// Mostly opens if that would be granted, otherwise learns of one more replica or lifts one. Where
    /// a member is to fall behind, all are waited for.
    fn towards_open(&self, random: &mut Random, cluster: &Cluster, server: u64) -> Line {
        let others = unknown(cluster, server);
        let ready = would_open(cluster, server);
        let waits = self.fairness > 4 && !is_level(cluster, server) && !random.chance(6);
        if !(ready && waits) && ready != random.chance(8) {
            return Line::new("open").number(server).fate(self.fate(random));
        }
        if !others.is_empty() && (ready || random.chance(2)) {
            let replica = *random.pick(&others);
            return Line::new("prep").number(server).number(replica).fate(self.fate(random));
        }
        self.copy_up(random, cluster, server)
            .unwrap_or_else(|| self.prepare(random, cluster, server))
    }

    /// Issues while others are in flight, up to some number, or brings a record to one more member: by a
    /// send if it is held, otherwise by a copy.
    fn towards_acknowledged(&self, random: &mut Random, cluster: &Cluster, server: u64) -> Line {
        let held = record(cluster, server);
        let in_flight = held.unacknowledged();
        let rate = if in_flight == 0 { 4 * self.fairness } else { 3 };
        if in_flight < self.in_flight && !random.chance(rate) {
            return issue(random, cluster, server);
        }
        let behind: Vec<u64> = members(cluster, server)
            .into_iter()
            .filter(|&i| held.held_record(held.marks[i as usize] + 1).is_some())
            .collect();
        if !behind.is_empty() && !random.chance(10) {
            let fair = random.chance(self.fairness);
            let replica = if fair { *random.pick(&behind) } else { behind[0] };
            return self.send(random, server, replica);
        }
        let outrun = |&i: &u64| held.issued > held.marks[i as usize] + HELD as u64;
        match members(cluster, server).into_iter().find(outrun) {
            Some(replica) if random.chance(3) => self.send(random, server, replica),
            _ => self
                .copy_up(random, cluster, server)
                .unwrap_or_else(|| self.any_call(random, cluster)),
        }
    }

    fn send(&self, random: &mut Random, server: u64, replica: u64) -> Line {
        Line::new("send").number(server).number(replica).fate(self.fate(random))
    }

    /// A copy from a replica in use to one that holds less, if there are two such.
    fn copy_up(&self, random: &mut Random, cluster: &Cluster, server: u64) -> Option<Line> {
        let marks = record(cluster, server).marks;
        let used = members(cluster, server);
        let pairs: Vec<(u64, u64)> = used
            .iter()
            .flat_map(|&from| used.iter().map(move |&to| (from, to)))
            .filter(|&(from, to)| marks[to as usize] < marks[from as usize])
            .collect();
        if pairs.is_empty() {
            return None;
        }
        let &(from, to) = random.pick(&pairs);
        Some(Line::new("copy").number(server).number(from).number(to).fate(self.fate(random)))
    }

    fn prepare(&self, random: &mut Random, cluster: &Cluster, server: u64) -> Line {
        let replica = random.below(cluster.shape.replicas);
        Line::new("prep").number(server).number(replica).fate(self.fate(random))
    }

    /// Any call on any server and replica that there is, now and then one more.
    fn any_call(&self, random: &mut Random, cluster: &Cluster) -> Line {
        let above = u64::from(random.chance(20));
        let server = random.below(4 + above);
        let beyond = u64::from(random.chance(12));
        let [one, other] = [(); 2].map(|_| random.below(cluster.shape.replicas + beyond));
        let fate = self.fate(random);
        match random.below(6) {
            0 => Line::new("take").number(server).fate(fate),
            1 => Line::new("prep").number(server).number(one).fate(fate),
            2 => Line::new("copy").number(server).number(one).number(other).fate(fate),
            3 => Line::new("open").number(server).fate(fate),
            4 => issue(random, cluster, server),
            _ => Line::new("send").number(server).number(one).fate(fate),
        }
    }

    fn fate(&self, random: &mut Random) -> u64 {
        match random.chance(self.trouble) {
            true => 1 + random.below(2),
            false => 0,
        }
    }
}

/// An issue line for a server that could grant it, if there is one.
pub fn issue_line(random: &mut Random, cluster: &Cluster) -> Line {
    let could = |server: &u64| {
        let held = record(cluster, *server);
        held.phase == Phase::Open && held.unacknowledged() < HELD as u64
    };
    let server = (0..4).find(could).unwrap_or(random.below(4));
    issue(random, cluster, server)
}

/// Mostly what only locks can refuse; nobody has read what is in flight, so that then most ask for none.
/// A server that is not there is asked what another would be.
fn issue(random: &mut Random, cluster: &Cluster, server: u64) -> Line {
    let there = server.min(3);
    let held = record(cluster, there);
    let calm = held.unacknowledged() == 0;
    let locks = if calm || random.chance(2) { draw_locks(random) } else { Vec::new() };
    let around = draw_mark(random, cluster, there, &locks);
    let client_mark = if random.chance(30) { held.acknowledged + 1 } else { around };
    let generation = held.generation + u32::from(random.chance(30));
    let header = draw_header(random, 30);
    let length = *random.pick(&[0, 0, 1, 1, 2, 5, 27, 28]) + usize::from(random.chance(30));
    let data = digits(random, length);
    let line = Line::new("issue").number(server).number(client_mark);
    let line = line.word(generation).word(header).data(&data);
    locks.into_iter().fold(line, Line::lock)
}

/// Few locks that many requests name, any, or crowded ones, which are refused for places that others
/// wrote.
fn draw_locks(random: &mut Random) -> Vec<u64> {
    let count = random.below(5) + 3 * u64::from(random.chance(30));
    let style = random.below(3);
    let mut draw = |lock: fn(&mut Random) -> u64| (0..count).map(|_| lock(random)).collect();
    match style {
        0 => draw(|random| *random.pick(&LOCKS)),
        1 => draw(|random| *random.pick(crowded_locks())),
        _ => draw(Random::number),
    }
}

/// Locks whose places are all among a few of the table, so that those of one are soon written by
/// others. They have 64 bits, so that every bit of the product counts.
fn crowded_locks() -> &'static [u64] {
    static FOUND: OnceLock<Vec<u64>> = OnceLock::new();
    let is_crowded = |&lock: &u64| lock_places(lock).iter().all(|&place| place < 32);
    FOUND.get_or_init(|| {
        let mut random = Random::new(0);
        repeat_with(|| random.number()).filter(is_crowded).take(40).collect()
    })
}

/// Bytes in hexadecimal, in capitals, small letters or both.
pub fn digits(random: &mut Random, length: usize) -> String {
    let capitals = hex::encode(&random.bytes(length));
    let style = random.below(3);
    let small = |random: &mut Random| style == 0 || style == 1 && random.chance(2);
    capitals
        .chars()
        .map(|digit| if small(random) { digit.to_ascii_lowercase() } else { digit })
        .collect()
}

fn record(cluster: &Cluster, server: u64) -> &Server {
    &cluster.records.servers[server as usize]
}

/// The replicas that the server may use.
fn members(cluster: &Cluster, server: u64) -> Vec<u64> {
    let standings = record(cluster, server).standings;
    (0..cluster.shape.replicas).filter(|&i| standings[i as usize] == Standing::In).collect()
}

fn unknown(cluster: &Cluster, server: u64) -> Vec<u64> {
    let standings = record(cluster, server).standings;
    (0..cluster.shape.replicas).filter(|&i| standings[i as usize] == Standing::Out).collect()
}

/// Whether an open server has filled the log, or has too few members left to acknowledge.
fn is_spent(cluster: &Cluster, server: u64) -> bool {
    let held = record(cluster, server);
    let full = held.acknowledged == cluster.shape.places;
    let few = members(cluster, server).len() < quorum(cluster.shape.replicas as usize);
    held.phase == Phase::Open && (full || few)
}

/// Whether an opening server knows all replicas, at one mark.
fn is_level(cluster: &Cluster, server: u64) -> bool {
    let marks = &record(cluster, server).marks[..cluster.shape.replicas as usize];
    unknown(cluster, server).is_empty() && marks.iter().all(|&mark| mark == marks[0])
}

/// Whether an opening server has decided a mark and a quorum stands exactly at it.
fn would_open(cluster: &Cluster, server: u64) -> bool {
    let known = members(cluster, server);
    let marks = record(cluster, server).marks;
    let mark_of = |i: u64| known.contains(&i).then(|| marks[i as usize]);
    let votes: Vec<Option<u64>> = (0..cluster.shape.replicas).map(mark_of).collect();
    decided(&votes).is_some_and(|mark| {
        let clean = votes.iter().filter(|&&vote| vote == Some(mark)).count();
        clean >= quorum(votes.len())
    })
}
