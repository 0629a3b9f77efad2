//! A recovery's outcomes, row by row: the state that they start from, and each recovery with its reply and its
//! count of calls. `drive 1 [2,0,1] [0, c 0 old]` stands for server 1, the list of replicas 2, 0 and 1, and two
//! fates: answered, and cut at write 0, leaving what was there.

use super::recoveries::Recovery;
use crate::cluster::{Answer, Call, Cluster, Message, Reply, Request, Shape};
use crate::decimal::number;
use crate::fate::{Fate, Left};

/// R = 3, N = 6.
pub const SHAPE: Shape = Shape { replicas: 3, places: 6, interval: 6 };

/// What the replicas hold at first.
pub const MARKS: [u64; 3] = [2, 3, 1];

/// Each on the state of `calls`.
pub const ROWS: [&str; 18] = [
    "drive 1 [2,0,1] [] → ok 3, 8",
    "drive 1 [2,0] [] → ok 2, 5",
    "drive 1 [2] [] → no 8, 3",
    "drive 1 [2,0,1] [0,0,1] → ok 3, 7",
    "drive 1 [2,0,1] [0, c 0 old] → ok 3, 6",
    "drive 1 [2,0,1] [0,0,0,0,1] → ok 3, 7",
    "drive 1 [2,0,1] [0,0,0,0, c 0 old] → ok 3, 7",
    "drive 1 [2,0,1] [0,0,0,0, c 1 new] → ok 3, 7",
    "drive 1 [2,0,1] [0,0,0,0,1,1] → no 8, 7",
    "drive 1 [2,0,1] [0,0,0,0,0,0,0,2] → silent, 8",
    "drive 1 [2,0,1] [1] → silent, 1",
    "drive 1 [2,0,1] [c 1 new] → no 6, 1",
    "drive 1 [2,0,1] [0,0,0,0,0,0,0, c 1 old] → no 6, 8",
    "drive 1 [] [] → no 29, 0",
    "drive 1 [0,0] [] → no 29, 0",
    "drive 1 [0,0,3] [] → no 4, 0",
    "drive 0 [0,0] [] → no 5, 0",
    "drive 4 [3] [] → no 3, 0",
];

/// From a fresh cluster to where the rows start: session 1 is open at 0 with all three, and of three records in
/// flight two are sent to replica 0, three to replica 1 and one to replica 2.
pub fn calls() -> Vec<Call> {
    let (server, fate, message) = (0, Fate::Answered, Message::new(Fate::Answered));
    let mut calls = vec![Call::Take { server, fate }];
    calls.extend((0..3).map(|replica| Call::Prepare { server, replica, message }));
    calls.push(Call::Open { server, fate });
    calls.extend([0x01, 0x02, 0x03].map(|byte| issue(server, 0, byte)));
    for (replica, mark) in (0..).zip(MARKS) {
        calls.extend((0..mark).map(|_| Call::Send { server, replica, message }));
    }
    calls
}

/// One byte of data and header 9, as in document 01's run.
pub fn issue(server: u64, client_mark: u64, byte: u8) -> Call {
    let request = Request { client_mark, header: 9, data: vec![byte], ..Request::default() };
    Call::Issue { server, request }
}

/// The state that the rows start from.
pub fn cluster() -> Cluster {
    let mut cluster = Cluster::fresh(SHAPE).expect("an allowed shape");
    for mut call in calls() {
        cluster.apply(&mut call).expect("nothing stands in the way");
    }
    cluster
}

/// A row's recovery and its outcome.
pub fn parse(row: &str) -> Option<(Recovery, String)> {
    let (call, outcome) = row.split_once('→')?;
    let (server, lists) = call.trim().strip_prefix("drive ")?.split_once(" [")?;
    let (listed, fates) = lists.strip_suffix(']')?.split_once("] [")?;
    let listed: Vec<u64> = fields(listed).map(numeral).collect::<Option<_>>()?;
    let fates: Vec<Fate> = fields(fates).map(fate).collect::<Option<_>>()?;
    let recovery = Recovery::new(numeral(server)?, &listed, &fates);
    Some((recovery, outcome.trim().to_string()))
}

fn fields(list: &str) -> impl Iterator<Item = &str> {
    list.split(',').map(str::trim).filter(|field| !field.is_empty())
}

fn numeral(field: &str) -> Option<u64> {
    number(field.as_bytes())
}

/// A code, or `c`, the write and what is left.
pub fn fate(field: &str) -> Option<Fate> {
    let Some(cut) = field.strip_prefix("c ") else {
        return numeral(field).map(Fate::of_code);
    };
    let (write, left) = cut.split_once(' ')?;
    let left = match left {
        "old" => Left::Old,
        "new" => Left::New,
        "torn" => Left::Torn,
        _ => return None,
    };
    Some(Fate::Cut(numeral(write)?, left))
}

/// A reply and the count of calls, as rows have them.
pub fn outcome((reply, count): (Reply, u64)) -> String {
    match reply {
        Ok(Answer::Number(value)) => format!("ok {value}, {count}"),
        Ok(Answer::Silent) => format!("silent, {count}"),
        Ok(other) => panic!("{other:?}"),
        Err(refusal) => format!("no {}, {count}", refusal.number()),
    }
}
