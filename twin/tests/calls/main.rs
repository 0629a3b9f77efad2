//! The calls on states that are handed in.

mod answered;
mod checkpoint;
mod effects;
mod export;
mod frame;
mod header_zero;
mod in_flight;
mod limits;
mod locks;
mod recovery;
mod recovery_promise;
mod refusals;
mod restore;
mod stored_headers;
