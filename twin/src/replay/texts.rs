//! The texts of calls and replies.

use crate::cluster::{Answer, Call, Refusal, Reply, Request};
use crate::fate::{Fate, Left};
use crate::hex;
use crate::tries::recoveries::{Recovery, MOST_FATES, MOST_LISTED};

/// A word and its numbers.
pub fn line(word: &str, numbers: &[u64]) -> String {
    numbers.iter().fold(word.to_string(), |line, number| format!("{line}\t{number}"))
}

/// The line of a call. What lies beside it has lines of its own.
pub fn call_line(call: &Call) -> String {
    let numbers = match call {
        Call::Take { server, fate } | Call::Open { server, fate } => with_fate(&[*server], *fate),
        Call::Prepare { server, replica, message }
        | Call::Trim { server, replica, message }
        | Call::Send { server, replica, message }
        | Call::Note { server, replica, message } => with_fate(&[*server, *replica], message.fate),
        Call::Copy { server, from, to, message } => with_fate(&[*server, *from, *to], message.fate),
        Call::Read { server, replica, id, message } => {
            with_fate(&[*server, *replica, *id], message.fate)
        }
        Call::Export { server, replica, stamp, files, message } => {
            let [data, index] = files.lengths().map(|length| length as u64);
            let fate = with_fate(&[*server, *replica], message.fate);
            [fate.as_slice(), &[stamp.time, data, index]].concat()
        }
        Call::Issue { server, request } => request_numbers(*server, request),
        Call::Stop { server } => vec![*server],
        Call::Restore { replica, .. } => vec![*replica],
        Call::Reassign => Vec::new(),
    };
    let line = line(word(call), &numbers);
    match call {
        Call::Export { stamp, .. } => format!("{line}\t{}", hex::encode(&stamp.key)),
        _ => line,
    }
}

/// The line of a recovery. The given bytes that are not zeros have a line of their own.
pub fn recovery_line(recovery: &Recovery) -> String {
    let Recovery { server, ref listed, ref fates, length, index, .. } = *recovery;
    assert!(listed.len() <= MOST_LISTED && fates.len() <= MOST_FATES && index < MOST_FATES);
    let codes: Vec<u64> = fates.iter().map(|fate| fate.code()).collect();
    assert!(codes.iter().map(|&code| Fate::of_code(code)).eq(fates.iter().copied()));
    let line = line("recover", &[server, length as u64, index as u64]);
    format!("{line}\t{}\t{}", numbers_hex(listed), numbers_hex(&codes))
}

/// Each number as eight bytes.
pub fn numbers_hex(numbers: &[u64]) -> String {
    numbers.iter().map(|number| hex::encode(&number.to_be_bytes())).collect()
}

pub fn word(call: &Call) -> &'static str {
    match call {
        Call::Take { .. } => "take",
        Call::Prepare { .. } => "prepare",
        Call::Copy { .. } => "copy",
        Call::Trim { .. } => "trim",
        Call::Open { .. } => "open",
        Call::Issue { .. } => "issue",
        Call::Send { .. } => "send",
        Call::Note { .. } => "note",
        Call::Read { .. } => "read",
        Call::Export { .. } => "export",
        Call::Stop { .. } => "stop",
        Call::Reassign => "reassign",
        Call::Restore { .. } => "restore",
    }
}

fn request_numbers(server: u64, request: &Request) -> Vec<u64> {
    let Request { client, generation, partition, sequence, header, .. } = *request;
    let [client, generation, partition, header] =
        [client, generation, partition, header].map(u64::from);
    vec![server, request.client_mark, client, generation, partition, sequence, header]
}

fn with_fate(numbers: &[u64], fate: Fate) -> Vec<u64> {
    let fate = match fate {
        Fate::Answered => [0, 0, 0],
        Fate::Lost => [1, 0, 0],
        Fate::AnswerLost => [2, 0, 0],
        Fate::Cut(write, Left::Old) => [3, write, 0],
        Fate::Cut(write, Left::New) => [3, write, 1],
        Fate::Cut(write, Left::Torn) => [3, write, 2],
    };
    numbers.iter().copied().chain(fate).collect()
}

/// What a call prints before the check sums.
pub fn reply_text(reply: &Reply) -> String {
    match reply {
        Ok(Answer::Nothing) => "ok".to_string(),
        Ok(Answer::Number(value)) => format!("ok\t{value}"),
        Ok(Answer::Bytes(bytes)) => format!("ok\t{}", hex::encode(bytes)),
        Ok(Answer::Silent) => "silent".to_string(),
        Err(Refusal::Locked { lock, estimate }) => format!("no\t15\t{lock}\t{estimate}"),
        Err(refusal) => format!("no\t{}", refusal.number()),
    }
}
