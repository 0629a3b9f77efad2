//! Replies: an answer, silence, or the number of the first reason to decline.

use std::ops::RangeInclusive;

use crate::medium::PlaceBytes;

pub type Reply = Result<Answer, Refusal>;

/// The reply to a call that is not declined.
#[derive(Clone, Copy, Debug, PartialEq, Eq)]
pub enum Answer {
    /// Done, with no value (stop, export).
    Nothing,
    Number(u64),
    /// A place (read).
    Bytes(PlaceBytes),
    /// No answer came.
    Silent,
}

/// Why a call is declined, in the order in which the reasons are checked.
#[derive(Clone, Copy, Debug, PartialEq, Eq)]
pub enum Refusal {
    /// R, N, K or the length of a lent slice.
    OutsideShape,
    MarkAbovePlaces,
    NoSuchServer,
    /// Or copy names one twice.
    NoSuchReplica,
    OtherPhase,
    /// The list of a recovery "repeats a replica or names none" (document 02, No. 9).
    UnfitList,
    /// A cut that cannot be, or torn bytes that pass as a slot or place.
    UnfitFate,
    /// Not known, no member, or dropped.
    ReplicaOut,
    Undecided,
    TooFewClean,
    OtherGeneration,
    ClientAhead,
    /// Data or locks, more than the client may send.
    TooMuch,
    /// "New requests with header 0 are no longer taken" (document 02, No. 8).
    HeaderZero,
    /// Eight or more records.
    Unacknowledged,
    Full,
    /// The session has issued as many records as the interval allows.
    CheckpointDue,
    /// The first lock whose estimate is above the client's mark.
    Locked {
        lock: u64,
        estimate: u64,
    },
    NothingToDo,
    /// The replica that copy reads would decline.
    UnfitSource,
    NoSlot,
    OtherPromise,
    OtherMark,
    /// The length of a file that export is lent.
    OtherFiles,
    /// A number that cannot be raised.
    AtTop,
    OtherSession,
    /// The bytes of a restore "have no valid slot" (document 02, No. 10).
    UnfitBackup,
}

/// The rows of the list, by their numbers, in the order in which they are checked. 1 has a second row:
/// "for an export's two files this is checked after 20".
pub const ORDER: [u64; 27] = [
    1, 2, 3, 4, 5, 29, 6, 7, 8, 9, 10, 11, 12, 28, 13, 14, 23, 15, 16, 17, 18, 19, 20, 1, 21, 22,
    30,
];

/// The row of a recovery's list. No call has it: the driver declines "only by 1 to 5 and 29".
pub const LIST_ROW: usize = 5;

/// The row of the lengths of export's files.
pub const FILES_ROW: usize = 23;

/// The rows of 18 to 22: of a message they are seen only if it is answered.
pub const BY_RECEIVER: RangeInclusive<usize> = 20..=25;

impl Refusal {
    /// Its number in document 01's list, which document 02 goes on with from 23.
    pub fn number(&self) -> u64 {
        match self {
            Refusal::OutsideShape | Refusal::OtherFiles => 1,
            Refusal::MarkAbovePlaces => 2,
            Refusal::NoSuchServer => 3,
            Refusal::NoSuchReplica => 4,
            Refusal::OtherPhase => 5,
            Refusal::UnfitList => 29,
            Refusal::UnfitFate => 6,
            Refusal::ReplicaOut => 7,
            Refusal::Undecided => 8,
            Refusal::TooFewClean => 9,
            Refusal::OtherGeneration => 10,
            Refusal::ClientAhead => 11,
            Refusal::TooMuch => 12,
            Refusal::HeaderZero => 28,
            Refusal::Unacknowledged => 13,
            Refusal::Full => 14,
            Refusal::CheckpointDue => 23,
            Refusal::Locked { .. } => 15,
            Refusal::NothingToDo => 16,
            Refusal::UnfitSource => 17,
            Refusal::NoSlot => 18,
            Refusal::OtherPromise => 19,
            Refusal::OtherMark => 20,
            Refusal::AtTop => 21,
            Refusal::OtherSession => 22,
            Refusal::UnfitBackup => 30,
        }
    }

    /// Its row of the list.
    pub fn row(&self) -> usize {
        match self {
            Refusal::OtherFiles => FILES_ROW,
            _ => first_row(self.number()),
        }
    }

    /// Itself, if its condition holds.
    pub(super) fn when(self, condition: bool) -> Result<(), Refusal> {
        if condition {
            Err(self)
        } else {
            Ok(())
        }
    }
}

/// The first row with this number.
pub fn first_row(number: u64) -> usize {
    ORDER.iter().position(|&other| other == number).expect("a number of the list")
}
