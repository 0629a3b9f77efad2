//! Recoveries (document 02, No. 9): what one is asked for, the calls that it makes, and draws.

use super::caller::Caller;
use crate::cluster::{Answer, Call, Closing, Cluster, Message, Phase, Register, Reply, SERVERS};
use crate::fate::{Fate, Left};
use crate::medium::{put, PlaceBytes, PLACE_BYTES, WIPED};
use crate::random::Random;

/// The most replicas and fates that a line of a stored run lists.
pub const MOST_LISTED: usize = 10;
pub const MOST_FATES: usize = 40;

/// What the driver is asked for. Of the given bytes, only those of one fate are other than zeros.
#[derive(Clone, Debug, PartialEq, Eq)]
pub struct Recovery {
    pub server: u64,
    pub listed: Vec<u64>,
    pub fates: Vec<Fate>,
    /// At which length the given bytes are lent: 72 for each fate, unless 1 is to decline it.
    pub length: usize,
    /// The fate, from 0, whose given bytes these are.
    pub index: usize,
    pub bytes: PlaceBytes,
}

impl Recovery {
    /// With zeros as given bytes.
    pub fn new(server: u64, listed: &[u64], fates: &[Fate]) -> Recovery {
        let length = PLACE_BYTES * fates.len();
        let (listed, fates) = (listed.to_vec(), fates.to_vec());
        Recovery { server, listed, fates, length, index: 0, bytes: WIPED }
    }

    /// The same with these given bytes for one of its fates.
    pub fn with_bytes(self, index: usize, bytes: PlaceBytes) -> Recovery {
        Recovery { index, bytes, ..self }
    }

    /// The given bytes as they are lent.
    pub fn given(&self) -> Vec<u8> {
        let mut given = vec![0; PLACE_BYTES * MOST_FATES];
        put(&mut given, self.index * PLACE_BYTES, &self.bytes);
        given.resize(self.length, 0);
        given
    }

    /// Whether the given bytes that are not zeros are a torn write's.
    pub fn has_torn_bytes(&self) -> bool {
        matches!(self.fates.get(self.index), Some(Fate::Cut(_, Left::Torn)))
    }

    pub fn apply(&self, cluster: &mut Cluster) -> (Reply, u64) {
        cluster.recover(self.server, &self.listed, &self.fates, &self.given())
    }

    /// The message of each call, one after another without end.
    fn messages(&self) -> impl Iterator<Item = Message> + '_ {
        let given = |index: usize| if index == self.index { self.bytes } else { WIPED };
        let own = (0..).zip(&self.fates).map(move |(index, &fate)| (fate, given(index)));
        own.map(|(fate, given)| Message { fate, given })
            .chain(std::iter::repeat(Message::new(Fate::Answered)))
    }

    /// The recovery once more, for one that the driver does not decline itself: each call by hand, and what
    /// comes next by the replies and by which entries of the register, as it is before, are restored. `make`
    /// makes a call. The last reply, and how many calls were made.
    pub fn by_hand(
        &self,
        register: &Register,
        mut make: impl FnMut(Call) -> Reply,
    ) -> (Reply, u64) {
        let (server, mut messages, mut count) = (self.server, self.messages(), 0);
        let mut next = |call: &dyn Fn(Message) -> Call| {
            count += 1;
            make(call(messages.next().expect("without end")))
        };
        let taken = next(&|message| Call::Take { server, fate: message.fate });
        if !matches!(taken, Ok(Answer::Number(_))) {
            return (taken, count);
        }
        let mut known = Vec::new();
        for &replica in &self.listed {
            let reply = next(&|message| Call::Prepare { server, replica, message });
            if let Ok(Answer::Number(mark)) = reply {
                known.push((replica, mark));
            }
        }
        let restored =
            |replica: u64| register.entries[replica as usize].closing == Closing::Restored;
        let others = || known.iter().filter(|(replica, _)| !restored(*replica));
        let highest = others().map(|(_, mark)| *mark).max().unwrap_or(0);
        let first = others().find(|(_, mark)| *mark == highest);
        let from = first.map_or(0, |(replica, _)| *replica);
        for (to, mut mark) in known {
            while mark < highest {
                match next(&|message| Call::Copy { server, from, to, message }) {
                    Ok(Answer::Number(reached)) => mark = reached,
                    _ => break,
                }
            }
        }
        let opened = next(&|message| Call::Open { server, fate: message.fate });
        (opened, count)
    }
}

/// A server that is idle, if there is one; now and then any number up to 4.
pub fn draw_idle(random: &mut Random, cluster: &Cluster) -> u64 {
    let is_idle = |&server: &u64| cluster.records.servers[server as usize].phase == Phase::Idle;
    let idle: Vec<u64> = (0..SERVERS as u64).filter(is_idle).collect();
    if idle.is_empty() || random.chance(20) {
        random.below(SERVERS as u64 + 1)
    } else {
        *random.pick(&idle)
    }
}

/// A recovery by this server with messages as rough as the caller's.
pub fn draw_recovery(
    random: &mut Random,
    caller: &Caller,
    cluster: &Cluster,
    server: u64,
) -> Recovery {
    let count = *random.pick(&[0, 0, 4, 10, 24]);
    let mut messages: Vec<Message> = (0..count).map(|_| caller.message(random)).collect();
    if let Some(first) = messages.first_mut().filter(|_| !random.chance(6)) {
        // The register is never cut.
        first.fate = caller.register_fate(random);
    }
    let listed = draw_listed(random, cluster.shape.replicas);
    of_messages(server, &listed, &messages)
}

/// With the given bytes of the first write that is to be torn.
pub fn of_messages(server: u64, listed: &[u64], messages: &[Message]) -> Recovery {
    let fates: Vec<Fate> = messages.iter().map(|message| message.fate).collect();
    let recovery = Recovery::new(server, listed, &fates);
    match fates.iter().position(|fate| matches!(fate, Fate::Cut(_, Left::Torn))) {
        Some(index) => recovery.with_bytes(index, messages[index].given),
        None => recovery,
    }
}

/// Mostly all replicas, otherwise some, in any order; few lists are unfit.
pub fn draw_listed(random: &mut Random, replicas: u64) -> Vec<u64> {
    let mut left: Vec<u64> = (0..replicas).collect();
    let count = if random.chance(3) { 1 + random.below(replicas) } else { replicas };
    let mut listed = Vec::new();
    for _ in 0..count {
        listed.push(left.swap_remove(random.below(left.len() as u64) as usize));
    }
    match random.below(40) {
        0 => listed.clear(),
        1 => listed.push(listed[0]),
        2 => listed.push(replicas + random.below(2)),
        _ => {}
    }
    listed
}
