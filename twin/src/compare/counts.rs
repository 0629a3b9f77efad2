//! How much was compared: scripts, lines, bytes, and replies of each kind.

use std::collections::BTreeMap;
use std::fmt;

#[derive(Clone, Copy, Debug, PartialEq, Eq, PartialOrd, Ord)]
pub enum Kind {
    /// With or without a value.
    Ok,
    No(u64),
    Silent,
    Bad,
    /// No reply that the script program gives.
    Other,
}

#[derive(Default)]
pub struct Counts {
    pub scripts: u64,
    pub lines: u64,
    pub bytes: u64,
    pub replies: BTreeMap<Kind, u64>,
    /// Scripts that the programs answered differently.
    pub differences: u64,
}

impl Counts {
    pub fn add_script(&mut self, input: &[u8]) {
        self.scripts += 1;
        self.bytes += input.len() as u64;
    }

    /// Counts the replies to a script, one a line.
    pub fn add_replies(&mut self, output: &[u8]) {
        for reply in output.split_inclusive(|&byte| byte == b'\n') {
            self.lines += 1;
            *self.replies.entry(kind(reply)).or_default() += 1;
        }
    }
}

fn kind(reply: &[u8]) -> Kind {
    let text = String::from_utf8_lossy(reply);
    match text.trim_end().split_once('\t').unwrap_or((text.trim_end(), "")) {
        ("ok", _) => Kind::Ok,
        ("no", number) => number.parse().map_or(Kind::Other, Kind::No),
        ("silent", "") => Kind::Silent,
        ("bad", "") => Kind::Bad,
        _ => Kind::Other,
    }
}

impl fmt::Display for Kind {
    fn fmt(&self, out: &mut fmt::Formatter) -> fmt::Result {
        match self {
            Kind::Ok => write!(out, "ok"),
            Kind::No(number) => write!(out, "no {number}"),
            Kind::Silent => write!(out, "silent"),
            Kind::Bad => write!(out, "bad"),
            Kind::Other => write!(out, "other"),
        }
    }
}

impl fmt::Display for Counts {
    fn fmt(&self, out: &mut fmt::Formatter) -> fmt::Result {
        write!(out, "scripts: {}, lines: {}, bytes: {}", self.scripts, self.lines, self.bytes)?;
        for (kind, count) in &self.replies {
            write!(out, ", {kind}: {count}")?;
        }
        write!(out, ", differences: {}", self.differences)
    }
}
