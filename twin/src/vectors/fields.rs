//! The fields of a line, read one after another; `None` where one is missing or is not what it should
//! be.

use crate::decimal;
use crate::fate::{Fate, Left};
use crate::hex;
use crate::medium::{medium_bytes, PlaceBytes, SlotBytes};
use crate::segment::Stamp;

/// The most places of a medium whose bytes a line has.
const PLACES: u64 = 14;

/// Those that are still to be read.
pub struct Fields<'a>(std::str::Split<'a, char>);

impl<'a> Fields<'a> {
    pub fn new(text: &'a str) -> Fields<'a> {
        Fields(text.split('\t'))
    }

    /// A line with more fields than its form fits none.
    pub fn end(&mut self) -> Option<()> {
        self.0.next().is_none().then_some(())
    }

    pub fn number(&mut self) -> Option<u64> {
        decimal::number(self.0.next()?.as_bytes())
    }

    pub fn numbers(&mut self) -> Option<[u64; 3]> {
        Some([self.number()?, self.number()?, self.number()?])
    }

    /// A number of 32 bits.
    pub fn word(&mut self) -> Option<u32> {
        self.number()?.try_into().ok()
    }

    pub fn bytes(&mut self) -> Option<Vec<u8>> {
        hex::decode(self.0.next()?.as_bytes())
    }

    pub fn place(&mut self) -> Option<PlaceBytes> {
        self.bytes()?.try_into().ok()
    }

    pub fn slot(&mut self) -> Option<SlotBytes> {
        self.bytes()?.try_into().ok()
    }

    /// The bytes of a medium of so many places, 1 to 14.
    pub fn medium(&mut self, places: u64) -> Option<Vec<u8>> {
        let bytes = self.bytes()?;
        let fits = (1..=PLACES).contains(&places) && bytes.len() == medium_bytes(places as usize);
        fits.then_some(bytes)
    }

    /// A time and a key.
    pub fn stamp(&mut self) -> Option<Stamp> {
        Some(Stamp { time: self.number()?, key: self.bytes()?.try_into().ok()? })
    }

    pub fn fate(&mut self) -> Option<Fate> {
        let [fate, write, left] = self.numbers()?;
        match (fate, left) {
            (0, _) => Some(Fate::Answered),
            (1, _) => Some(Fate::Lost),
            (2, _) => Some(Fate::AnswerLost),
            (3, 0) => Some(Fate::Cut(write, Left::Old)),
            (3, 1) => Some(Fate::Cut(write, Left::New)),
            (3, 2) => Some(Fate::Cut(write, Left::Torn)),
            _ => None,
        }
    }
}
