//! Lines that fit a form in a way that few do: numbers and lengths at their limits, either case of
//! digits, shapes that no cluster has.

use super::line::{Kind, Line};
use crate::hex;
use crate::random::Random;

kinds! {
    Unusual:
    LeadingZeros,
    Most64,
    Most32,
    NoData,
    Data28,
    Data29,
    Data200,
    CapitalDigits,
    SmallDigits,
    Locks4,
    Locks5,
    Locks6,
    Locks240,
    Bytes499,
    Bytes500,
    OtherReplicas,
    OtherPlaces,
}

use Unusual::*;

/// No R of a cluster, the last two of them 3 in fewer bits.
const REPLICAS: [u64; 9] = [0, 2, 4, 6, 8, 9, u64::MAX, 259, (1 << 32) + 3];

/// No N that the program takes, the last two of them 4 in fewer bits.
const PLACES: [u64; 6] = [0, 101, 1000, u64::MAX, 260, (1 << 32) + 4];

impl Unusual {
    /// A line of this kind from a line that fits, or from an issue line if it is about requests.
    pub fn line(self, random: &mut Random, call: &Line, issue: &Line) -> Vec<u8> {
        let line = match self {
            LeadingZeros => {
                let length = call.bytes().len() + 1 + random.below(30) as usize;
                call.padded(random, length)
            }
            Bytes499 => call.padded(random, 499),
            Bytes500 => call.padded(random, 500),
            Most64 => most_64(random, call),
            OtherReplicas => {
                Line::new("cluster").number(*random.pick(&REPLICAS)).number(1 + random.below(120))
            }
            OtherPlaces => {
                Line::new("cluster").number(random.below(8)).number(*random.pick(&PLACES))
            }
            _ => self.request(random, issue),
        };
        line.bytes()
    }

    fn request(self, random: &mut Random, issue: &Line) -> Line {
        match self {
            Most32 => {
                let most = |_: &mut Random, _: &[u8]| u32::MAX.to_string().into_bytes();
                issue.changed(random, |kind| kind == Kind::Word, most).unwrap_or(issue.clone())
            }
            NoData => with_data(issue, String::new()),
            Data28 => with_data(issue, hex::encode(&random.bytes(28))),
            Data29 => with_data(issue, hex::encode(&random.bytes(29))),
            Data200 => with_data(issue, hex::encode(&random.bytes(200))),
            CapitalDigits => with_data(issue, "ABCDEF".to_string()),
            SmallDigits => with_data(issue, "abcdef".to_string()),
            Locks4 => with_locks(random, issue, 4),
            Locks5 => with_locks(random, issue, 5),
            Locks6 => with_locks(random, issue, 6),
            _ => with_locks(random, &shortest(issue), 240),
        }
    }
}

/// The greatest server, replica, client mark or lock. A cluster line has none of them.
fn most_64(random: &mut Random, call: &Line) -> Line {
    let most = |_: &mut Random, _: &[u8]| u64::MAX.to_string().into_bytes();
    let wide = |kind| matches!(kind, Kind::Number | Kind::Lock);
    call.changed(random, wide, most).unwrap_or_else(|| call.clone())
}

/// The issue line with this data; locks that would make it too long go.
fn with_data(issue: &Line, digits: String) -> Line {
    let mut line = issue.clone();
    for field in &mut line.fields {
        if field.kind == Kind::Data {
            field.text = digits.clone().into_bytes();
        }
    }
    while line.bytes().len() > crate::script::LINE_LIMIT {
        line.fields.pop();
    }
    line
}

/// The issue line with no data and a header of one digit, so that 240 locks fit behind them.
fn shortest(issue: &Line) -> Line {
    let mut line = with_data(issue, String::new());
    if let Some(header) = line.fields.iter_mut().rfind(|field| field.kind == Kind::Word) {
        header.text = b"9".to_vec();
    }
    line
}

/// The issue line with so many locks of one digit each.
fn with_locks(random: &mut Random, issue: &Line, count: usize) -> Line {
    let mut line = issue.clone();
    line.fields.retain(|field| field.kind != Kind::Lock);
    (0..count).fold(line, |line, _| line.lock(random.below(10)))
}
