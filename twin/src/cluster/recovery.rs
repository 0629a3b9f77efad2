//! recover: a whole recovery, as the calls that it makes (document 02, No. 9).

use super::{Answer, Cluster, Message, Phase, Refusal, Reply, Server};
use crate::fate::Fate;
use crate::medium::PLACE_BYTES;

impl Cluster {
    /// "It takes, prepares in list order, copies each known replica in that order up to the highest mark known
    /// after the prepares, from the first that then had it, and opens." Gives "the last reply and its count of
    /// calls", those that are declined or silent included. The k-th fate and the k-th 72 of the given bytes
    /// belong to the k-th call made; behind the list's end a message is answered.
    pub fn recover(
        &mut self,
        server: u64,
        listed: &[u64],
        fates: &[Fate],
        given: &[u8],
    ) -> (Reply, u64) {
        if let Err(refusal) = self.check_recovery(server, listed, fates, given) {
            return (Err(refusal), 0);
        }
        let mut driver = Driver { cluster: self, server, fates, given, count: 0 };
        let reply = driver.run(listed);
        (reply, driver.count)
    }

    /// "The driver itself declines only by 1 to 5 and 29", before it sends anything. 1 is also given for
    /// another length of the given bytes than 72 for each fate.
    fn check_recovery(
        &self,
        server: u64,
        listed: &[u64],
        fates: &[Fate],
        given: &[u8],
    ) -> Result<(), Refusal> {
        Refusal::OutsideShape.when(given.len() != PLACE_BYTES * fates.len())?;
        let server = self.check_server(server)?;
        listed.iter().try_for_each(|&replica| self.check_replica(replica).map(|_| ()))?;
        self.check_phase(server, &[Phase::Idle])?;
        let repeats = (1..listed.len()).any(|at| listed[..at].contains(&listed[at]));
        Refusal::UnfitList.when(listed.is_empty() || repeats)
    }
}

/// A recovery on its way.
struct Driver<'a> {
    cluster: &'a mut Cluster,
    server: u64,
    fates: &'a [Fate],
    given: &'a [u8],
    /// How many calls were made.
    count: u64,
}

impl Driver<'_> {
    /// "a take or open without ok ends it".
    fn run(&mut self, listed: &[u64]) -> Reply {
        let fate = self.next_message().fate;
        let taken = self.cluster.take(self.server, fate);
        if !is_answered(&taken) {
            return taken;
        }
        for &replica in listed {
            let message = self.next_message();
            // "It passes over a replica that declines or is silent": such a one is not known.
            let _ = self.cluster.prepare(self.server, replica, &message);
        }
        // "The driver takes its highest mark from the others, copies from none such", but to them.
        let vote = |replica: u64| self.record().vote(replica as usize);
        let votes = || listed.iter().filter_map(|&replica| Some((replica, vote(replica)?)));
        let highest = votes().map(|(_, mark)| mark).max();
        let source = votes().find(|(_, mark)| Some(*mark) == highest);
        if let Some((source, highest)) = source {
            listed.iter().for_each(|&replica| self.lift(replica, source, highest));
        }
        let fate = self.next_message().fate;
        self.cluster.open(self.server, fate)
    }

    /// Copies until the replica reaches the highest mark, or until a copy is without ok.
    fn lift(&mut self, replica: u64, source: u64, highest: u64) {
        while self.record().known_mark(replica as usize).is_some_and(|mark| mark < highest) {
            let message = self.next_message();
            if !is_answered(&self.cluster.copy(self.server, source, replica, &message)) {
                return;
            }
        }
    }

    fn record(&self) -> &Server {
        &self.cluster.records.servers[self.server as usize]
    }

    /// The message of the next call.
    fn next_message(&mut self) -> Message {
        let index = self.count as usize;
        self.count += 1;
        match self.fates.get(index) {
            Some(&fate) => {
                let given = &self.given[index * PLACE_BYTES..][..PLACE_BYTES];
                Message { fate, given: given.try_into().expect("72 bytes") }
            }
            None => Message::new(Fate::Answered),
        }
    }
}

fn is_answered(reply: &Reply) -> bool {
    matches!(reply, Ok(Answer::Number(_)))
}
