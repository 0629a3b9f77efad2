//! Segment files (document 02, No. 3).

mod header_zero;
mod round_trips;
mod sha256;
mod spoilt;
mod words;
mod worked;
