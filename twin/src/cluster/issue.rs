//! issue: gives a request the next ID.

use super::{Answer, Cluster, Limits, Phase, Refusal, Reply, Request, HELD};
use crate::locks::{first_conflict, write_locks};
use crate::medium::Record;

impl Cluster {
    /// Makes the request the newest record held and writes its ID at its locks; answers the ID.
    pub fn issue(&mut self, server: u64, request: &Request) -> Reply {
        let server = self.check_server(server)?;
        self.check_phase(server, &[Phase::Open])?;
        self.check_request(server, request)?;
        let record = &mut self.records.servers[server];
        let id = record.issued + 1;
        record.issued = id;
        let issued = Record {
            id,
            client: request.client,
            generation: request.generation,
            partition: request.partition,
            sequence: request.sequence,
            header: request.header,
            data: &request.data,
        };
        record.hold(issued.encode());
        write_locks(self.table_mut(server), &request.locks, id);
        Ok(Answer::Number(id))
    }

    /// 10 to 12, 28, 13, 14, 23 and 15. 12 "reads the pair that belongs to the client", and 28 "is given by
    /// issue, just after 12, when the header is 0". All locks are judged on the table as it is before any is
    /// written.
    fn check_request(&self, server: usize, request: &Request) -> Result<(), Refusal> {
        let record = &self.records.servers[server];
        Refusal::OtherGeneration.when(request.generation != record.generation)?;
        Refusal::ClientAhead.when(request.client_mark > record.acknowledged)?;
        Refusal::TooMuch.when(Limits::of(request.client).are_exceeded(request))?;
        Refusal::HeaderZero.when(request.header == 0)?;
        Refusal::Unacknowledged.when(record.unacknowledged() >= HELD as u64)?;
        Refusal::Full.when(record.issued == self.shape.places)?;
        Refusal::CheckpointDue.when(self.is_checkpoint_due(server))?;
        match first_conflict(self.table(server), &request.locks, request.client_mark) {
            Some((lock, estimate)) => Err(Refusal::Locked { lock, estimate }),
            None => Ok(()),
        }
    }

    /// Whether issued less the starting mark is K or more. With issued below the starting mark, as
    /// may be handed in, it is not.
    pub fn is_checkpoint_due(&self, server: usize) -> bool {
        let record = &self.records.servers[server];
        let since_start = record.issued.checked_sub(record.starting);
        since_start.is_some_and(|count| count >= self.shape.interval)
    }
}
