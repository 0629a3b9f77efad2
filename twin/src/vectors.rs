//! Storage vectors: lines of input for the proved storage layer, and what this implementation
//! answers to each.
//!
//! A line is a command word and its fields with a tab before each; numbers in base ten, bytes as
//! capital hexadecimal digits. FATE stands for four fields: 0 answered, 1 lost, 2 answer lost or 3
//! cut; the write w; 0 old, 1 new or 2 torn; the 72 given bytes. MEDIUM is the bytes of a medium of
//! N places.
//!
//! | command | fields | answer |
//! |---|---|---|
//! | crc | BYTES | the check, 8 digits |
//! | place | n, 72 BYTES | 0, or 1 and ID, client, generation, partition, sequence, header, length, DATA |
//! | slot | 32 BYTES | 0, or 1 and promise, low-water mark, local low-water mark |
//! | record | ID, client, generation, partition, sequence, header, DATA | the record's 72 bytes |
//! | slotof | promise, low-water mark, local low-water mark | the slot's 32 bytes |
//! | medium | N, MEDIUM | mark; current slot (0, 1, or 2 for none) and its three fields (zeros for none) |
//! | prepare | N, session, closing, FATE, MEDIUM | the medium after it; closing is 0 if unresolved, else the closing mark + 1 |
//! | append | N, 72 BYTES, FATE, MEDIUM | the medium after these bytes were written at the mark + 1 |
//! | truncate | N, to, FATE, MEDIUM | the medium after it |
//! | note | N, low-water mark, local low-water mark, FATE, MEDIUM | the medium after it |
//!
//! prepare and note come with a valid slot, prepare with a promise not above the session, append
//! with a mark below N.
//!
//! Segment files have two commands. KEY is 16 BYTES.
//!
//! | command | fields | answer |
//! |---|---|---|
//! | pair | time, KEY, N, MEDIUM | its whole log written out: the data file's BYTES, the index file's |
//! | import | N, time, KEY, BYTES of the medium, of the data file and of the index file | ok or no and the number; the check of the medium after it, 8 digits |
//!
//! The converter has one.
//!
//! | command | fields | answer |
//! |---|---|---|
//! | convert | BYTES of the old medium, length of the second slice, each byte of it before the call | ok or no and the number; the check of the second slice after it, 8 digits |
//!
//! The old medium has any bytes, also none; the length is at most 73,000 and the byte at most 255.
//!
//! A line has at most 130,000 bytes and the MEDIUM of at most 14 places; import takes any N and any bytes,
//! also none. A line that fits no form is answered with bad.

mod answers;
mod cases;
mod conversions;
mod fields;
mod gates;
mod header_zero;
mod published;
mod segments;
mod sequences;
mod texts;

pub use answers::{output, LINE_LIMIT};
pub use cases::input;
pub use published::PUBLISHED;
