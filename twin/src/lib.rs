//! The quorum journal of documents 01 and 02 once more, in Rust: the other implementation that the
//! proved one is compared with. Lowest layer first.

pub mod crc;
pub mod decimal;
pub mod hex;
pub mod random;

pub mod medium;
pub mod old;
pub mod segment;

pub mod convert;

pub mod replica;

pub mod fate;

pub mod locks;
pub mod votes;

pub mod cluster;
pub mod exported;

pub mod script;

pub mod vectors;

pub mod tries;

pub mod compare;
pub mod replay;

pub mod jobs;
