//! export: a member's log as one segment (document 02, No. 3).

use super::{Answer, Cluster, Message, Phase, Refusal, Reply};
use crate::replica::{Found, Operation};
use crate::segment::{self, Pair, Stamp};

impl Cluster {
    /// Writes the member's log, "up to the lesser of its mark and the acknowledged one", into the two
    /// files, "with read's fate and checks but 16": so an empty log is exported too. "no reply but ok
    /// changes them".
    pub fn export(
        &mut self,
        server: u64,
        replica: u64,
        stamp: Stamp,
        files: &mut Pair,
        message: &Message,
    ) -> Reply {
        let (server, replica) = self.check_addressed(server, replica, Phase::Open)?;
        self.check_message(message)?;
        self.check_standing(server, replica)?;
        let record = &self.records.servers[server];
        let mark = record.marks[replica].min(record.acknowledged);
        let judged = self.may_export(server, replica, mark, files);
        let heard = self.deliver(replica, judged, Operation::Read, message)?;
        Ok(match self.hear(server, replica, heard) {
            Answer::Silent => Answer::Silent,
            _ => {
                let medium = self.medium(replica);
                segment::write(medium, mark, stamp, &mut files.data, &mut files.index);
                Answer::Nothing
            }
        })
    }

    /// 18 to 20, then 1 for the lengths of the files: "seen only if the message is answered".
    fn may_export(
        &self,
        server: usize,
        replica: usize,
        mark: u64,
        files: &Pair,
    ) -> Result<Found, Refusal> {
        let found = self.agreeing(server, replica)?;
        let exact = segment::lengths(self.medium(replica), mark);
        Refusal::OtherFiles.when(files.lengths() != exact)?;
        Ok(found)
    }
}
