//! A replica's operations as lists of writes.

use crate::medium::{self, put, PlaceBytes, Slot, SlotBytes, SLOT_BYTES, WIPED};

/// One write: a slot (0 or 1) or a place becomes these bytes.
#[derive(Clone, Copy, Debug, PartialEq, Eq)]
pub enum Write {
    Slot(usize, SlotBytes),
    Place(u64, PlaceBytes),
}

impl Write {
    /// Makes the write.
    pub fn put(&self, medium: &mut [u8]) {
        match self {
            Write::Slot(index, bytes) => put(medium, index * SLOT_BYTES, bytes),
            Write::Place(number, bytes) => put(medium, medium::place_at(*number), bytes),
        }
    }

    /// The same slot or place with the given bytes instead; a slot takes the first 32.
    pub fn torn(&self, given: &PlaceBytes) -> Write {
        match self {
            Write::Slot(index, _) => {
                let first = given[..SLOT_BYTES].try_into().expect("a slot");
                Write::Slot(*index, first)
            }
            Write::Place(number, _) => Write::Place(*number, *given),
        }
    }
}

/// What a replica with a valid slot finds on its medium.
#[derive(Clone, Copy, Debug, PartialEq, Eq)]
pub struct Found {
    /// Where the current slot stands, 0 or 1.
    pub index: usize,
    pub slot: Slot,
    pub mark: u64,
}

impl Found {
    /// `None` if no slot is valid.
    pub fn on(medium: &[u8]) -> Option<Found> {
        let (index, slot) = medium::current(medium)?;
        let mark = medium::mark(medium);
        Some(Found { index, slot, mark })
    }

    /// A slot write goes to the slot that is not the current one.
    fn slot_write(&self, slot: Slot) -> Write {
        Write::Slot(1 - self.index, slot.encode())
    }
}

/// What a replica's entry says of its log.
#[derive(Clone, Copy, Debug, Default, PartialEq, Eq)]
pub enum Closing {
    /// All of it may count.
    #[default]
    Unresolved,
    /// Nothing above the closing mark does.
    Mark(u64),
    /// "marks the entry restored" (document 02, No. 10): the medium is from a backup, and nothing above its own
    /// low-water mark counts.
    Restored,
}

impl Closing {
    /// The closing mark, if there is one.
    pub fn mark(self) -> Option<u64> {
        match self {
            Closing::Mark(mark) => Some(mark),
            Closing::Unresolved | Closing::Restored => None,
        }
    }

    /// What a log on a medium with this current slot is truncated to. "Preparing a restored replica truncates
    /// to its low-water mark."
    fn cut(self, slot: Slot) -> Option<u64> {
        match self {
            Closing::Unresolved => None,
            Closing::Mark(mark) => Some(mark),
            Closing::Restored => Some(slot.low),
        }
    }
}

/// What a message asks a replica to do.
#[derive(Clone, Copy, Debug, PartialEq, Eq)]
pub enum Operation {
    /// Promise the session, then truncate as the entry says.
    Prepare { session: u64, closing: Closing },
    /// Write these bytes in the place behind the mark.
    Append(PlaceBytes),
    /// Wipe every place of the log above this mark.
    Truncate(u64),
    /// Store low-water marks beside the promise.
    Note { low: u64, local: u64 },
    /// Write nothing.
    Read,
}

impl Operation {
    /// The writes in the order in which they are made: at most one of a slot or a record, then a
    /// truncation.
    pub fn writes(self, found: Found) -> impl Iterator<Item = Write> {
        let Found { slot, mark, .. } = found;
        let first = match self {
            Operation::Prepare { session, .. } => {
                let promised = Slot { promise: session, ..slot };
                (slot.promise != session).then(|| found.slot_write(promised))
            }
            Operation::Append(record) => Some(Write::Place(mark + 1, record)),
            Operation::Note { low, local } => Some(found.slot_write(Slot { low, local, ..slot })),
            Operation::Truncate(_) | Operation::Read => None,
        };
        first.into_iter().chain(truncation(mark, self.keeps(found)))
    }

    /// How much of the log the operation leaves as it is.
    pub fn keeps(&self, Found { slot, mark, .. }: Found) -> u64 {
        let cut = match *self {
            Operation::Prepare { closing, .. } => closing.cut(slot),
            Operation::Truncate(to) => Some(to),
            _ => None,
        };
        cut.map_or(mark, |to| to.min(mark))
    }
}

/// Wipes from the highest ID down, one write per place.
fn truncation(mark: u64, kept: u64) -> impl Iterator<Item = Write> {
    (kept..mark).rev().map(|below| Write::Place(below + 1, WIPED))
}
