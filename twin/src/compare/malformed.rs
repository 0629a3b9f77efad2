//! Lines that fit no form, one kind for each way to miss it. Each is made from a line that fits, so
//! that a program that overlooks the fault does something.

use super::calls::digits;
use super::line::{Kind, Line};
use crate::random::Random;

kinds! {
    Malformed:
    Empty,
    OtherName,
    FieldsMissing,
    FieldTooMany,
    LeadingTab,
    BlankForTab,
    BlankAround,
    CarriageReturn,
    EmptyNumber,
    Plus,
    Minus,
    OtherCharacter,
    OtherFate,
    Beyond32,
    Beyond64,
    ThirtyDigits,
    OddDigits,
    OtherDigit,
    HighByte,
    Nul,
    AnyBytes,
    Bytes501,
    Bytes5000,
    Megabyte,
}

use Malformed::*;

/// Names of calls that have no form, and names that almost have one.
const NAMES: [&str; 16] = [
    "trim", "note", "read", "stop", "reassign", "prepare", "Take", "TAKE", "tak", "takes", "opens",
    "sen", "copyy", "clusters", "0", "",
];

/// Wrong fates, among them some that look right in fewer bits.
const FATES: [u64; 9] = [3, 4, 9, 10, 256, 258, 1 << 32, (1 << 32) + 1, u64::MAX];

impl Malformed {
    /// A line of this kind from a line that fits, and from an issue line if the fault needs one.
    pub fn line(self, random: &mut Random, call: &Line, issue: &Line) -> Vec<u8> {
        match self {
            Empty => Vec::new(),
            OtherName | FieldsMissing | FieldTooMany | LeadingTab | BlankForTab | BlankAround
            | CarriageReturn => self.in_fields(random, call),
            EmptyNumber | Plus | Minus | OtherCharacter | Beyond64 | ThirtyDigits => {
                let call = call
                    .changed(random, Kind::is_number, |random, text| self.in_number(random, text));
                call.unwrap_or_else(|| Line::new("take")).bytes()
            }
            OtherFate => other_fate(random, call),
            Beyond32 | OddDigits | OtherDigit => self.in_request(random, issue),
            HighByte | Nul | AnyBytes => self.in_bytes(random, call),
            Bytes501 => call.padded(random, 501).bytes(),
            Bytes5000 => call.padded(random, 5_000).bytes(),
            Megabyte => call.padded(random, 1 << 20).bytes(),
        }
    }

    fn in_fields(self, random: &mut Random, call: &Line) -> Vec<u8> {
        let bytes = call.bytes();
        match self {
            OtherName => {
                let name = |random: &mut Random, _: &[u8]| random.pick(&NAMES).as_bytes().to_vec();
                call.changed(random, |kind| kind == Kind::Name, name)
                    .unwrap_or(call.clone())
                    .bytes()
            }
            FieldsMissing => fields_missing(random, call),
            // An empty field is no lock either.
            FieldTooMany if random.chance(2) => [&bytes[..], b"\t"].concat(),
            FieldTooMany if call.fields[0].text == b"issue" => [&bytes[..], b"\tx"].concat(),
            FieldTooMany => [&bytes[..], b"\t0"].concat(),
            LeadingTab => [b"\t", &bytes[..]].concat(),
            BlankForTab => blank_for_tab(random, bytes),
            BlankAround if random.chance(2) => [b" ", &bytes[..]].concat(),
            BlankAround => [&bytes[..], b" "].concat(),
            _ => [&bytes[..], b"\r"].concat(),
        }
    }

    fn in_number(self, random: &mut Random, text: &[u8]) -> Vec<u8> {
        // What a number of 64 bits that overflows without being noticed would take for `text`.
        let value: u128 = String::from_utf8_lossy(text).parse().unwrap_or(0);
        let around = |turns: u64| (value + (u128::from(turns) << 64)).to_string().into_bytes();
        match self {
            EmptyNumber => Vec::new(),
            Plus => [b"+", text].concat(),
            Minus => [b"-", text].concat(),
            Beyond64 => match random.below(4) {
                0 => (1u128 << 64).to_string().into_bytes(),
                1 => b"99999999999999999999".to_vec(),
                _ => around(1),
            },
            ThirtyDigits if random.chance(2) => b"9".repeat(30),
            // 2^64 has 20 digits, and ten more come from its factor.
            ThirtyDigits => around(10_000_000_000 + random.below(10_000_000_000)),
            _ => {
                let mut text = text.to_vec();
                let at = random.below(text.len() as u64) as usize;
                text[at] = *random.pick(b"/:.,_ aAxe\x0B");
                text
            }
        }
    }

    fn in_request(self, random: &mut Random, issue: &Line) -> Vec<u8> {
        let wanted = if self == Beyond32 { Kind::Word } else { Kind::Data };
        let change = |random: &mut Random, text: &[u8]| match self {
            Beyond32 => beyond_32(random, text),
            OddDigits if text.is_empty() || random.chance(2) => [text, b"a"].concat(),
            OddDigits => text[1..].to_vec(),
            _ => {
                let mut text = if text.is_empty() { b"00".to_vec() } else { text.to_vec() };
                let at = random.below(text.len() as u64) as usize;
                text[at] = *random.pick(b"/:@G`gxX -.\0\xC1");
                text
            }
        };
        let changed = issue.changed(random, |kind| kind == wanted, change);
        changed.unwrap_or_else(|| Line::new("issue")).bytes()
    }

    fn in_bytes(self, random: &mut Random, call: &Line) -> Vec<u8> {
        if self == AnyBytes {
            let length = 1 + random.below(600) as usize;
            let not_newline = |byte| if byte == b'\n' { b'\t' } else { byte };
            return random.bytes(length).into_iter().map(not_newline).collect();
        }
        let mut bytes = call.bytes();
        let at = random.below(bytes.len() as u64 + 1) as usize;
        let byte = if self == Nul { 0 } else { 128 + random.below(128) as u8 };
        bytes.insert(at, byte);
        bytes
    }
}

/// Fewer fields than the form has without its locks.
fn fields_missing(random: &mut Random, call: &Line) -> Vec<u8> {
    let least = call.fields.iter().filter(|field| field.kind != Kind::Lock).count();
    let mut line = call.clone();
    line.fields.truncate(1 + random.below(least as u64 - 1) as usize);
    line.bytes()
}

fn blank_for_tab(random: &mut Random, mut bytes: Vec<u8>) -> Vec<u8> {
    let tabs: Vec<usize> = (0..bytes.len()).filter(|&at| bytes[at] == b'\t').collect();
    bytes[*random.pick(&tabs)] = b' ';
    bytes
}

/// A line without a fate becomes a take with one.
fn other_fate(random: &mut Random, call: &Line) -> Vec<u8> {
    let fate = *random.pick(&FATES);
    let change = |_: &mut Random, _: &[u8]| fate.to_string().into_bytes();
    let changed = call.changed(random, |kind| kind == Kind::Fate, change);
    changed.unwrap_or_else(|| Line::new("take").number(0).fate(fate)).bytes()
}

/// 2^32, what 32 bits would take for the number, or the greatest number of 64 bits.
fn beyond_32(random: &mut Random, text: &[u8]) -> Vec<u8> {
    let value: u64 = String::from_utf8_lossy(text).parse().unwrap_or(0);
    let beyond = match random.below(4) {
        0 => 1 << 32,
        1 => u64::MAX,
        _ => value + (1 << 32),
    };
    beyond.to_string().into_bytes()
}

/// A call and an issue line for kinds to be made from where there is no cluster to look at.
pub fn plain_lines(random: &mut Random) -> [Line; 2] {
    let data = digits(random, 2);
    let issue = Line::new("issue").number(0).number(0).word(0).word(9).data(&data).lock(1);
    [Line::new("take").number(random.below(4)).fate(random.below(3)), issue]
}
