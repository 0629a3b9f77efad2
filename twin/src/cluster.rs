//! A cluster, its thirteen calls and the recovery that makes some of them, on any state that is handed in.

mod call;
mod checks;
mod export;
mod issue;
mod limits;
mod recovery;
mod register_calls;
mod replica_calls;
mod reply;
mod restore;
mod state;

pub use crate::replica::Closing;
pub use call::{Call, Message, Request};
pub use limits::{Limits, BOOKING, FIRST_BOOKING_CLIENT, GATE};
pub use reply::{first_row, Answer, Refusal, Reply, BY_RECEIVER, FILES_ROW, LIST_ROW, ORDER};
pub use state::{Cluster, Entry, Phase, Records, Register, Server, Shape, Standing, HELD, SERVERS};
