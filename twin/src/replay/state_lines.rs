//! Lines that make one state of another: only what differs is handed in.

use super::sums::{entry_numbers, server_numbers, standing_number};
use super::texts::line;
use crate::cluster::{Entry, Records, Server, Shape};
use crate::hex;
use crate::medium::PLACE_BYTES;

/// R, N and K behind a word.
pub fn shape_line(word: &str, shape: Shape) -> String {
    let Shape { replicas, places, interval } = shape;
    line(word, &[replicas, places, interval])
}

/// Register and servers.
pub fn record_lines(old: &Records, new: &Records) -> Vec<String> {
    let (held, wanted) = (&old.register, &new.register);
    let mut lines = Vec::new();
    if (held.session, held.generation) != (wanted.session, wanted.generation) {
        lines.push(line("register", &[wanted.session, u64::from(wanted.generation)]));
    }
    lines.extend(entry_lines("entry", &[], &held.entries, &wanted.entries));
    for (number, (old, new)) in (0..).zip(old.servers.iter().zip(&new.servers)) {
        lines.extend(server_lines(number, old, new));
    }
    lines
}

fn server_lines(number: u64, old: &Server, new: &Server) -> Vec<String> {
    let mut lines = Vec::new();
    if server_numbers(old) != server_numbers(new) {
        let [phase, session, generation, marks @ ..] = server_numbers(new);
        let [starting, issued, acknowledged] = marks;
        let fields = [number, phase, session, generation, starting, issued, acknowledged];
        lines.push(line("server", &fields));
    }
    lines.extend(entry_lines("handed", &[number], &old.entries, &new.entries));
    for (replica, standing) in new.standings.into_iter().enumerate() {
        let mark = new.marks[replica];
        if (old.standings[replica], old.marks[replica]) != (standing, mark) {
            let fields = [number, replica as u64, standing_number(standing), mark];
            lines.push(line("replica", &fields));
        }
    }
    for (index, (old, new)) in old.held.iter().zip(&new.held).enumerate() {
        if old != new {
            lines.push(format!("held\t{number}\t{index}\t{}", hex::encode(new)));
        }
    }
    lines
}

fn entry_lines(word: &str, server: &[u64], old: &[Entry], new: &[Entry]) -> Vec<String> {
    let entries = (0..).zip(old.iter().zip(new)).filter(|(_, (old, new))| old != new);
    let fields = |replica: u64, entry: &Entry| [server, &[replica], &entry_numbers(entry)].concat();
    entries.map(|(replica, (_, entry))| line(word, &fields(replica, entry))).collect()
}

/// A line for each piece that differs.
pub fn media_lines(old: &[u8], new: &[u8]) -> Vec<String> {
    let lines = differences(old, new).into_iter();
    lines.map(|(at, bytes)| format!("media\t{at}\t{}", hex::encode(bytes))).collect()
}

/// A line for each piece of a backup that differs; one without bytes if only its length does.
pub fn backup_lines(old: &[u8], old_length: usize, new: &[u8]) -> Vec<String> {
    let length = new.len();
    let mut pieces = differences(old, new);
    if pieces.is_empty() && length != old_length {
        pieces.push((0, &[]));
    }
    let lines = pieces.into_iter();
    lines.map(|(at, bytes)| format!("backup\t{length}\t{at}\t{}", hex::encode(bytes))).collect()
}

/// Of each 72 bytes in which there is a difference, those from the first to the last one, and where they lie.
fn differences<'a>(old: &[u8], new: &'a [u8]) -> Vec<(usize, &'a [u8])> {
    let mut pieces = Vec::new();
    for start in (0..new.len()).step_by(PLACE_BYTES) {
        let end = new.len().min(start + PLACE_BYTES);
        let differs = |at: &usize| old[*at] != new[*at];
        if let (Some(first), Some(last)) = ((start..end).find(differs), (start..end).rfind(differs))
        {
            pieces.push((first, &new[first..=last]));
        }
    }
    pieces
}

/// A line for each run of equal marks that has a difference.
pub fn table_lines(old: &[u64], new: &[u64]) -> Vec<String> {
    let mut lines = Vec::new();
    let mut at = 0;
    while at < new.len() {
        let mark = new[at];
        let count = new[at..].iter().take_while(|&&other| other == mark).count();
        if old[at..at + count] != new[at..at + count] {
            lines.push(line("table", &[at as u64, count as u64, mark]));
        }
        at += count;
    }
    lines
}
