//! The thirteen calls as values, and one function that makes any of them.

use super::{Cluster, Reply};
use crate::fate::Fate;
use crate::medium::{PlaceBytes, WIPED};
use crate::segment::{Pair, Stamp};

/// A message's fate and the bytes that a torn write leaves.
#[derive(Clone, Copy, Debug, PartialEq, Eq)]
pub struct Message {
    pub fate: Fate,
    pub given: PlaceBytes,
}

impl Message {
    /// With zeros as given bytes, which pass as no slot and no place.
    pub fn new(fate: Fate) -> Message {
        Message { fate, given: WIPED }
    }
}

/// What a client asks issue for.
#[derive(Clone, Debug, PartialEq, Eq)]
pub struct Request {
    pub client_mark: u64,
    pub client: u32,
    pub generation: u32,
    pub partition: u32,
    pub sequence: u64,
    pub header: u32,
    pub data: Vec<u8>,
    pub locks: Vec<u64>,
}

impl Default for Request {
    /// The least that is taken: all is 0 but the header, which may not be (document 02, No. 8).
    fn default() -> Request {
        Request {
            client_mark: 0,
            client: 0,
            generation: 0,
            partition: 0,
            sequence: 0,
            header: 1,
            data: Vec::new(),
            locks: Vec::new(),
        }
    }
}

/// A call, with the two files that it is lent if it is an export.
#[derive(Clone, Debug, PartialEq, Eq)]
pub enum Call {
    Take { server: u64, fate: Fate },
    Prepare { server: u64, replica: u64, message: Message },
    Copy { server: u64, from: u64, to: u64, message: Message },
    Trim { server: u64, replica: u64, message: Message },
    Open { server: u64, fate: Fate },
    Issue { server: u64, request: Request },
    Send { server: u64, replica: u64, message: Message },
    Note { server: u64, replica: u64, message: Message },
    Read { server: u64, replica: u64, id: u64, message: Message },
    Export { server: u64, replica: u64, stamp: Stamp, files: Pair, message: Message },
    Stop { server: u64 },
    Reassign,
    Restore { replica: u64, backup: Vec<u8> },
}

impl Cluster {
    /// Makes the call. Of the call itself only the lent files can change.
    pub fn apply(&mut self, call: &mut Call) -> Reply {
        match call {
            Call::Take { server, fate } => self.take(*server, *fate),
            Call::Prepare { server, replica, message } => self.prepare(*server, *replica, message),
            Call::Copy { server, from, to, message } => self.copy(*server, *from, *to, message),
            Call::Trim { server, replica, message } => self.trim(*server, *replica, message),
            Call::Open { server, fate } => self.open(*server, *fate),
            Call::Issue { server, request } => self.issue(*server, request),
            Call::Send { server, replica, message } => self.send(*server, *replica, message),
            Call::Note { server, replica, message } => self.note(*server, *replica, message),
            Call::Read { server, replica, id, message } => {
                self.read(*server, *replica, *id, message)
            }
            Call::Export { server, replica, stamp, files, message } => {
                self.export(*server, *replica, *stamp, files, message)
            }
            Call::Stop { server } => self.stop(*server),
            Call::Reassign => self.reassign(),
            Call::Restore { replica, backup } => self.restore(*replica, backup),
        }
    }
}
