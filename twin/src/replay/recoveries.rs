//! Recoveries (document 02, No. 9): outcomes row by row, two lists call by call, and lines that fit no form.

use super::calls::{check, copy, message, number, open, prepare, send, take};
use super::recorder::Recorder;
use super::texts::numbers_hex;
use crate::cluster::{Answer, Call, Closing, Cluster, Phase, SERVERS};
use crate::fate::Fate;
use crate::medium::{current, is_place, place, place_at, put, PlaceBytes, Record, PLACE_BYTES};
use crate::tries::headers::with_header;
use crate::tries::recoveries::{Recovery, MOST_FATES, MOST_LISTED};
use crate::tries::recovery_rows::{calls, cluster, issue, outcome, parse, ROWS, SHAPE};
use crate::tries::scene::{record_bytes, set_promise};

/// Lists call by call.
pub fn list(recorder: &mut Recorder) {
    rows(recorder);
    goes_on(recorder);
    by_hand(recorder);
    truncated(recorder);
}

/// A recovery with zeros as given bytes; its reply and count, as rows have them.
pub fn recover(recorder: &mut Recorder, server: u64, listed: &[u64], fates: &[Fate]) -> String {
    outcome(recorder.recover(&Recovery::new(server, listed, fates)))
}

/// A row's recovery with its outcome.
pub fn row(recorder: &mut Recorder, row: &str) {
    let (recovery, expected) = parse(row).expect("a row");
    assert_eq!(outcome(recorder.recover(&recovery)), expected, "{row}");
}

/// Every row, the first after the calls that bring about where it starts. A server whose recovery was silent
/// is idle, and the next session is that of the take behind it.
fn rows(recorder: &mut Recorder) {
    recorder.fresh(SHAPE);
    for call in calls() {
        number(recorder, &call).expect("nothing stands in the way");
    }
    for text in ROWS {
        recorder.hand_in(cluster());
        row(recorder, text);
        match text {
            _ if text.ends_with("silent, 8") => check(recorder, [(take(1), Ok(3))]),
            _ if text.ends_with("silent, 1") => check(recorder, [(take(1), Ok(2))]),
            _ => {}
        }
    }
}

/// The session that a recovery opened works on, the one before is heard no more, and a third finds all.
fn goes_on(recorder: &mut Recorder) {
    recorder.hand_in(cluster());
    row(recorder, ROWS[0]);
    check(recorder, [(send(0, 0), Err(19)), (issue(1, 3, 0x04), Ok(4))]);
    check(recorder, [(send(1, 2), Ok(3)), (send(1, 0), Ok(4)), (issue(1, 4, 0x05), Ok(5))]);
    check(recorder, [(send(1, 0), Ok(4))]);
    row(recorder, "drive 1 [0,1,2] [] → no 5, 0");
    row(recorder, "drive 2 [1,2] [] → ok 4, 5");
    check(recorder, [(take(3), Ok(4)), (prepare(3, 0), Ok(4))]);
    row(recorder, "drive 3 [0,1,2] [] → no 5, 0");
    check(recorder, [(prepare(3, 1), Ok(4)), (open(3), Ok(4)), (issue(2, 4, 0x06), Ok(5))]);
    check(recorder, [(send(2, 1), Err(19)), (issue(3, 4, 0x07), Ok(5)), (send(3, 0), Ok(4))]);
}

/// A recovery that ends with 8 or 9 leaves the server opening: the rest is done by hand, or the server is
/// stopped and another recovery made.
fn by_hand(recorder: &mut Recorder) {
    recorder.hand_in(cluster());
    row(recorder, ROWS[2]);
    let rest = [(prepare(1, 1), 3), (copy(1, 1, 2), 2), (copy(1, 1, 2), 3), (open(1), 3)];
    check(recorder, rest.map(|(call, value)| (call, Ok(value))));
    recorder.hand_in(cluster());
    row(recorder, "drive 1 [2,0,1] [0,0,0,0,1,1] → no 8, 7");
    check(recorder, [(prepare(1, 0), Ok(2)), (copy(1, 1, 0), Ok(3)), (open(1), Ok(3))]);
    recorder.hand_in(cluster());
    row(recorder, "drive 1 [0,2,1] [0,0,0,0, c 0 new, c 0 torn] → no 9, 7");
    row(recorder, "drive 1 [0,1,2] [] → no 5, 0");
    row(recorder, "drive 2 [0,1,2] [0,0,0,0,2] → ok 3, 8");
    stop_all(recorder);
    row(recorder, "drive 1 [0,1,2] [] → ok 3, 5");
}

/// A replica that no later session had among its members is cut to its closing mark, then gets what is
/// acknowledged.
fn truncated(recorder: &mut Recorder) {
    to_truncate(recorder);
    row(recorder, "drive 2 [2,1,0] [] → ok 1, 6");
    let bytes = place(recorder.cluster().medium(2), 1);
    assert_eq!(Record::decode(1, &bytes).map(|record| record.data), Some([0x03].as_slice()));
    let read = Call::Read { server: 2, replica: 2, id: 1, message: message() };
    assert_eq!(recorder.call(&read), Ok(Answer::Bytes(bytes)));
}

/// Up to there: two records stand on replica 2 alone, whose closing mark is 0, and another ID 1 on the others.
pub fn to_truncate(recorder: &mut Recorder) {
    recorder.fresh(SHAPE);
    row(recorder, "drive 0 [0,1,2] [] → ok 0, 5");
    check(recorder, [(issue(0, 0, 0x01), Ok(1)), (issue(0, 0, 0x02), Ok(2))]);
    check(recorder, [(send(0, 2), Ok(0)), (send(0, 2), Ok(0))]);
    row(recorder, "drive 1 [0,1] [] → ok 0, 4");
    check(recorder, [(issue(1, 0, 0x03), Ok(1)), (send(1, 1), Ok(0)), (send(1, 0), Ok(1))]);
}

/// Makes all servers idle.
pub fn stop_all(recorder: &mut Recorder) {
    for server in 0..SERVERS as u64 {
        if recorder.cluster().records.servers[server as usize].phase != Phase::Idle {
            recorder.call(&Call::Stop { server }).expect("a server");
        }
    }
}

/// Makes all servers idle and hands in what `rewound` gives.
pub fn rewind(recorder: &mut Recorder, marks: &[u64]) {
    let cluster = rewound(recorder, marks);
    recorder.hand_in(cluster);
}

/// Makes all servers idle. The same cluster with all entries unresolved, every promise at most the session and
/// logs that end at these marks, in few bytes: a place above that is valid gets another last byte. No two
/// replicas are given the same record, so that it shows which one a copy is from.
pub fn rewound(recorder: &mut Recorder, marks: &[u64]) -> Cluster {
    stop_all(recorder);
    let mut cluster = recorder.cluster().clone();
    let Cluster { shape, records, .. } = &mut cluster;
    let (places, session) = (shape.places, records.register.session);
    records.register.entries.iter_mut().for_each(|entry| entry.closing = Closing::Unresolved);
    for (replica, &mark) in marks.iter().enumerate() {
        let medium = cluster.medium_mut(replica);
        if current(medium).is_none_or(|(_, slot)| slot.promise > session) {
            set_promise(medium, session);
        }
        for number in 1..=places {
            let bytes = match number > mark {
                true => spoilt(medium, number),
                false => mended(medium, number, replica as u32),
            };
            put(medium, place_at(number), &bytes);
        }
    }
    cluster
}

/// The bytes of the place, with another last byte if they are valid.
fn spoilt(medium: &[u8], number: u64) -> PlaceBytes {
    let mut bytes = place(medium, number);
    bytes[PLACE_BYTES - 1] ^= u8::from(is_place(number, &bytes));
    bytes
}

/// The bytes of the place, with another last byte if they are valid with it, or else the replica's own record.
fn mended(medium: &[u8], number: u64, replica: u32) -> PlaceBytes {
    let mut bytes = place(medium, number);
    bytes[PLACE_BYTES - 1] ^= u8::from(!is_place(number, &bytes));
    if is_place(number, &bytes) {
        bytes
    } else {
        with_header(&record_bytes(number), 10 + replica)
    }
}

/// Too many or too few fields, numbers that are too great, digits that are no eight bytes each.
pub fn bad_lines(recorder: &mut Recorder) {
    let (one, top) = (numbers_hex(&[1]), "FFFFFFFFFFFFFFFF");
    for line in [
        "recover".to_string(),
        "recover\t0\t0\t0".to_string(),
        "recover\t0\t0\t0\t".to_string(),
        format!("recover\t0\t0\t0\t{one}"),
        format!("recover\t0\t0\t{one}\t"),
        format!("recover\t0\t0\t0\t{one}\t\t"),
        format!("recover\t0\t0\t0\t{one}\t\t0"),
        format!("recover\t\t0\t0\t{one}\t"),
        format!("recover\t18446744073709551616\t0\t0\t{one}\t"),
        format!("recover\t0\t2881\t0\t{one}\t"),
        format!("recover\t0\t18446744073709551615\t0\t{one}\t"),
        format!("recover\t0\t0\t40\t{one}\t"),
        format!("recover\t0\t72\t18446744073709551615\t{one}\t{top}"),
        format!("recover\t0\t0\t0\t{}\t", numbers_hex(&[1; MOST_LISTED + 1])),
        format!("recover\t0\t0\t0\t{one}\t{}", numbers_hex(&[0; MOST_FATES + 1])),
        format!("recover\t0\t0\t0\t{}\t", &one[1..]),
        format!("recover\t0\t0\t0\t{}\t", &one[2..]),
        format!("recover\t0\t0\t0\t{one}00\t"),
        format!("recover\t0\t72\t0\t{one}\t{}", &top[1..]),
        format!("recover\t0\t72\t0\t{one}\t{top}FF"),
        format!("recover\t0\t72\t0\t{}G\t{top}", &one[1..]),
        format!("recover\t0\t72\t0\t{one}\t{}G", &top[1..]),
        "recover\t0\t0\t0\t1\t0".to_string(),
        format!("Recover\t0\t0\t0\t{one}\t"),
        format!("drive\t0\t0\t0\t{one}\t"),
    ] {
        recorder.bad(&line);
    }
}
