//! A run of all thirteen calls and of recoveries for the proved journal: lines that hand in state, make a
//! call or a recovery, and what this implementation replies.
//!
//! A line is a command word and its fields with a tab before each; numbers in base ten, bytes as
//! capital hexadecimal digits. A line that hands in state prints nothing.
//!
//! | command | fields | what becomes of the state |
//! |---|---|---|
//! | fresh | R, N, K | a fresh cluster, its media and lock tables lent at their lengths |
//! | shape | R, N, K | the three numbers that the calls get |
//! | lend | bytes, marks | the lengths at which media and lock tables are lent |
//! | media | offset, BYTES | these bytes of the media |
//! | table | index, count, mark | so many marks of the lock tables |
//! | register | session, generation | of the register |
//! | entry | replica, ENTRY | of the register |
//! | server | server, phase (0 idle, 1 opening, 2 open), session, generation, starting, issued and acknowledged mark | of the server's record |
//! | handed | server, replica, ENTRY | what take handed over |
//! | replica | server, replica, standing (0 out, 1 in, 2 dropped), recorded mark | of the server's record |
//! | held | server, index (0 the oldest, to 7 the newest), 72 BYTES | a record that it holds |
//! | given | 72 BYTES | what a torn write leaves |
//! | data | up to 72 BYTES | of the requests that follow |
//! | locks | each of up to 8 | of the requests that follow |
//! | backup | length, offset, BYTES | of the restores that follow: the length at which the backup is lent, and these bytes of it |
//! | keep | replica | of the restores that follow: the backup is what the replica's medium holds now |
//!
//! Before anything is handed in, all is 0. A fresh line's R is at most 7 and its N at most 14; its K
//! may be any, and so may all three of a shape line. A lend line's bytes are at most 8,008 (seven media
//! of 15 places) and its marks at most 4,100.
//!
//! A backup is 1,144 bytes (a medium of 15 places), of which the first `length`, from 0 to 1,144, are lent. A
//! backup line has any number of BYTES, also none; offset and their number are at most 1,144 together, and the
//! other bytes stay as they were, also behind the length. A keep line's replica is at most 6. With L = 64 + 72 N,
//! N being that of the shape, or 15 if that is more, it makes the length L and the first L bytes those of the
//! media from replica × L on, whether they are lent or not; the others stay as they were.
//!
//! ENTRY stands for three fields: session; 0 unresolved, 1 closing mark or 2 restored; the closing mark, which
//! says nothing unless it is 1 before it. The calls are take, prepare, copy, trim, open, issue, send, note,
//! read, export, stop, reassign and restore with their numbers in document 01's order (issue: server,
//! client's mark, client, generation, partition, sequence, which has 64 bits, header; export: server,
//! replica; restore: replica), then, but for issue, stop, reassign and restore, those of the fate: 0 answered,
//! 1 lost, 2 answer lost or 3 cut; the write w; 0 old, 1 new or 2 torn. Behind the fate an export has
//! the time, the lengths at which data and index file are lent, up to 1,200 and 300 bytes, and the key,
//! 16 BYTES. Each byte of both files is AA before the call.
//!
//! A call prints ok with its value if it has one, no with the number (and lock and estimate behind
//! 15), or silent; behind that the 72 bytes that read answers; then three check sums (CRC-32, 8
//! digits): of the records (see `sums`), of the media and of the lock tables as lent; and behind an
//! export those of data and index file. A line that fits no form prints bad.
//!
//! | command | fields | what it makes |
//! |---|---|---|
//! | recover | server, length, index, LISTED, FATES | a recovery (document 02, No. 9) |
//!
//! `length` is that at which the slice of given bytes is lent, at most 2,880 (72 for each of 40 fates). The
//! bytes of the last given line are those of the fate with this `index`, from 0 to 39, as far as they are
//! lent; all others are 0. LISTED are the listed replicas, none to 10, and FATES the codes of the fates (see
//! `Fate::code`), none to 40: each number as eight big-endian bytes, 16 digits, one behind the other. It prints
//! what a call does, with the count of calls behind the reply.

mod calls;
mod counts;
mod export_scenes;
mod exports;
mod header_zero;
mod in_flight;
mod limits;
mod list;
mod locks;
mod names;
mod random_states;
mod recorder;
mod recoveries;
mod recovery_counts;
mod recovery_fates;
mod recovery_lists;
mod recovery_states;
mod recovery_trace;
mod restore_counts;
mod restore_states;
mod restores;
mod scenes;
mod sequences;
mod state_lines;
mod sums;
mod texts;

use crate::random::Random;

pub use counts::{Counts, CALLS};
pub use names::UNSENT;
pub use names::{AMOUNTS, BESIDE, CLIENTS, ENDS, ESTIMATES, FATES, GIVEN, INTERVALS, SEQUENCES};
pub use recovery_counts::{FEATURES, PASSED, REPLIES, STEPS};
pub use restore_counts::{AFTER, RESTORES};

/// The stored run: its lines, what they print, and what it meets.
pub struct Run {
    pub input: String,
    pub output: String,
    pub counts: Counts,
}

/// The seed of the stored run.
const SEED: u64 = 1_009;

/// The stored run.
pub fn run() -> Run {
    run_of(SEED)
}

/// A run of the same kind: other seeds give other calls, all of which may be tried.
pub fn run_of(seed: u64) -> Run {
    list::replay(&mut Random::new(seed))
}
