//! Fates of messages, and what a fate makes of a replica's list of writes.

use crate::medium::PlaceBytes;
use crate::replica::Write;

/// What a cut write leaves: the slot or place as it was, as it should become, or holding the given
/// bytes. A code counts them in this order.
#[derive(Clone, Copy, Debug, PartialEq, Eq)]
pub enum Left {
    Old,
    New,
    Torn,
}

/// What becomes of a message; a cut names the write, from 1, at which it happens.
#[derive(Clone, Copy, Debug, PartialEq, Eq)]
pub enum Fate {
    Answered,
    Lost,
    AnswerLost,
    Cut(u64, Left),
}

/// The code of a cut at write 0 that leaves what was there; the others follow, three to a write.
const FIRST_CUT: u64 = 3;

impl Fate {
    /// A fate as one number: 0 answered, 1 lost, 2 answer lost, else 3 + 3 × w + l for a cut at write w,
    /// where l is 0 for old, 1 for new and 2 for the given bytes. A write too great for a code has that of
    /// the greatest: no operation makes so many, so that the two do the same.
    pub fn code(self) -> u64 {
        match self {
            Fate::Answered => 0,
            Fate::Lost => 1,
            Fate::AnswerLost => 2,
            Fate::Cut(write, left) => {
                let first = FIRST_CUT + left as u64;
                first + 3 * write.min((u64::MAX - first) / 3)
            }
        }
    }

    /// The fate that a number is the code of; every number is one.
    pub fn of_code(code: u64) -> Fate {
        match code {
            0 => Fate::Answered,
            1 => Fate::Lost,
            2 => Fate::AnswerLost,
            _ => {
                let cut = code - FIRST_CUT;
                Fate::Cut(cut / 3, [Left::Old, Left::New, Left::Torn][(cut % 3) as usize])
            }
        }
    }
}

/// Makes the writes as far as the fate lets them happen.
pub fn perform(
    medium: &mut [u8],
    writes: impl Iterator<Item = Write>,
    fate: Fate,
    given: &PlaceBytes,
) {
    match fate {
        Fate::Lost => {}
        Fate::Answered | Fate::AnswerLost => writes.for_each(|write| write.put(medium)),
        Fate::Cut(at, left) => cut(medium, writes, at, left, given),
    }
}

/// The writes before the cut one happen, later ones do not. A cut behind the last write stops none
/// of them.
fn cut(
    medium: &mut [u8],
    writes: impl Iterator<Item = Write>,
    at: u64,
    left: Left,
    given: &PlaceBytes,
) {
    for (number, write) in (1..=at).zip(writes) {
        match left {
            Left::Old if number == at => {}
            Left::Torn if number == at => write.torn(given).put(medium),
            _ => write.put(medium),
        }
    }
}
