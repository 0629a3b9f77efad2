//! The first line of a script that two programs answer differently.

use std::fmt;

/// What is shown of a line at most.
const SHOWN: usize = 200;

#[derive(Debug, PartialEq, Eq)]
pub struct Difference {
    /// From 1.
    pub number: usize,
    pub line: Vec<u8>,
    /// Each program's reply with its newline; `None` where it gives none.
    pub replies: [Option<Vec<u8>>; 2],
}

/// Where two outputs to an input differ, byte for byte; `None` if nowhere.
pub fn first_difference(input: &[u8], outputs: [&[u8]; 2]) -> Option<Difference> {
    if outputs[0] == outputs[1] {
        return None;
    }
    let [mut first, mut second] = outputs.map(|output| output.split_inclusive(is_newline));
    let mut lines = input.split(is_newline);
    for number in 1.. {
        let (line, replies) = (lines.next(), [first.next(), second.next()]);
        if replies[0] != replies[1] {
            let line = line.unwrap_or_default().to_vec();
            return Some(Difference {
                number,
                line,
                replies: replies.map(|it| Some(it?.to_vec())),
            });
        }
    }
    None
}

fn is_newline(byte: &u8) -> bool {
    *byte == b'\n'
}

impl fmt::Display for Difference {
    fn fmt(&self, out: &mut fmt::Formatter) -> fmt::Result {
        let shown = &self.line[..self.line.len().min(SHOWN)];
        let more = if shown.len() < self.line.len() { ".." } else { "" };
        writeln!(out, "line {}: {}{more}", self.number, shown.escape_ascii())?;
        for (name, reply) in ["first ", "second"].iter().zip(&self.replies) {
            match reply {
                Some(reply) => writeln!(out, "  {name} program: {}", reply.escape_ascii())?,
                None => writeln!(out, "  {name} program: no reply")?,
            }
        }
        Ok(())
    }
}
