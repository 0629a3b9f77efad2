//! restore: a medium is replaced by bytes from a backup (document 02, No. 10).

use super::{Answer, Closing, Cluster, Refusal, Reply};
use crate::medium::{current, put, Slot, SLOT_BYTES};

impl Cluster {
    /// Writes the bytes over the replica's medium, "raises the register's session, marks the entry restored (its
    /// session kept) and writes that session as promise in both slots, with the current slot's low-water
    /// marks, as one step without fate, and answers the session". The session is the raised one, and the slot is
    /// that of the bytes: with the entry's session, or the marks of what is replaced, acknowledged records could
    /// be lost.
    pub fn restore(&mut self, replica: u64, backup: &[u8]) -> Reply {
        let replica = self.check_restore(replica, backup)?;
        let register = &mut self.records.register;
        let session = register.session.checked_add(1).ok_or(Refusal::AtTop)?;
        let (_, slot) = current(backup).ok_or(Refusal::UnfitBackup)?;
        register.session = session;
        register.entries[replica].closing = Closing::Restored;
        let promised = Slot { promise: session, ..slot }.encode();
        let medium = self.medium_mut(replica);
        medium.copy_from_slice(backup);
        put(medium, 0, &promised);
        put(medium, SLOT_BYTES, &promised);
        Ok(Answer::Number(session))
    }

    /// 1, 2 and 4; otherwise the replica's index. 1 is also given for another length of the bytes than a
    /// medium's.
    fn check_restore(&self, replica: u64, backup: &[u8]) -> Result<usize, Refusal> {
        let fits = self.shape.is_allowed() && backup.len() == self.shape.medium_bytes();
        Refusal::OutsideShape.when(!fits)?;
        self.check_state()?;
        self.check_replica(replica)
    }
}
