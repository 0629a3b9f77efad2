//! The stored input and output of the script program: the output is what this implementation gives.

mod stored;

use std::collections::BTreeMap;

use twin::script;

#[test]
fn stored_output_answers_the_stored_input() {
    let expected = script::run(&stored::bytes("crates/script/stdin"));
    let expected = String::from_utf8(expected).expect("text");
    stored::assert_same_lines(&stored::text("crates/script/stdout"), &expected);
}

/// The refusals that a script reaches from a fresh cluster, each in the stored output.
#[test]
fn stored_output_meets_every_refusal_in_reach() {
    let stored = stored::text("crates/script/stdout");
    let met = |number: u64| stored.lines().any(|line| line == format!("no\t{number}"));
    let reached = [1, 3, 4, 5, 7, 8, 9, 10, 11, 12, 28, 13, 14, 15, 16, 17, 19, 22];
    for number in reached {
        assert!(met(number), "refusal {number}");
    }
}

/// Lines before the first accepted cluster line, the document's run, and a last line without newline.
#[test]
fn stored_input_begins_and_ends_so() {
    let stored = stored::bytes("crates/script/stdin");
    let start = b"take\t0\t0\ncluster\t2\t4\ncluster\t3\t4\ntake\t0\t0\nprep\t0\t0\t0\n";
    assert!(stored.starts_with(start));
    assert!(stored.len() < 400_000 && !stored.ends_with(b"\n"));
}

/// A lock on an empty log; then a client that has not read its writer, and one that has.
#[test]
fn stored_input_asks_for_a_lock_on_both_sides_of_the_clients_mark() {
    let stored = stored::bytes("crates/script/stdin");
    let lines = b"cluster\t3\t4\ntake\t0\t0\nprep\t0\t0\t0\nprep\t0\t1\t0\nopen\t0\t0\n\
        issue\t0\t0\t0\t9\tAA\t1\nsend\t0\t0\t0\nsend\t0\t1\t0\n\
        issue\t0\t0\t0\t9\tBB\t1\nissue\t0\t1\t0\t9\tBB\t1\n";
    assert!(stored.windows(lines.len()).any(|window| window == lines));
    let replies = b"ok\nok\t1\nok\t0\nok\t0\nok\t0\nok\t1\nok\t0\nok\t1\nno\t15\nok\t2\n";
    assert_eq!(script::run(lines), replies);
}

/// Requests that a gate may not send: the script is none, so that they are granted.
#[test]
fn stored_input_has_what_no_gate_may_send() {
    let (input, output) =
        (stored::bytes("crates/script/stdin"), stored::text("crates/script/stdout"));
    let lines = input.split(|&byte| byte == b'\n').zip(output.lines());
    let granted =
        lines.filter(|(line, reply)| line.starts_with(b"issue\t") && reply.starts_with("ok\t"));
    let amounts = granted.map(|(line, _)| {
        let fields: Vec<&[u8]> = line.split(|&byte| byte == b'\t').collect();
        (fields[5].len() / 2, fields.len() - 6)
    });
    let amounts: Vec<(usize, usize)> = amounts.collect();
    let count = |such: fn(&(usize, usize)) -> bool| amounts.iter().filter(|it| such(it)).count();
    assert!(count(|(data, locks)| *data > 12 && *locks <= 1) > 10);
    assert!(count(|(data, locks)| *data <= 12 && *locks > 1) > 10);
    assert!(amounts.iter().any(|(data, _)| *data == 28));
    assert!(amounts.iter().any(|(_, locks)| *locks == 4));
}

/// Eight records in flight and no ninth until one is acknowledged, a member that is sent nothing any
/// more and copied to, and a server that is overtaken with records in flight.
#[test]
fn stored_input_has_eight_in_flight() {
    let opening =
        ["cluster 3 12", "take 0 0", "prep 0 0 0", "prep 0 1 0", "prep 0 2 0", "open 0 0"];
    let opened = ["ok", "ok 1", "ok 0", "ok 0", "ok 0", "ok 0"];
    let issues = (1..=9).map(|byte| format!("issue 0 0 0 9 0{byte}"));
    let issued = (1..=8).map(|id| format!("ok {id}")).chain(["no 13".to_string()]);
    let rest = [
        ("send 0 0 0", "ok 0"),
        ("send 0 0 0", "ok 0"),
        ("send 0 0 0", "ok 0"),
        ("send 0 1 0", "ok 1"),
        ("issue 0 1 0 9 09", "ok 9"),
        ("issue 0 1 0 9 0A", "no 13"),
        ("send 0 2 0", "no 16"),
        ("copy 0 0 2 0", "ok 1"),
        ("send 0 2 0", "ok 2"),
        ("send 0 1 0", "ok 2"),
        ("take 1 0", "ok 2"),
        ("prep 1 0 0", "ok 3"),
        ("prep 1 1 0", "ok 2"),
        ("prep 1 2 0", "ok 2"),
        ("open 1 0", "ok 2"),
    ];
    let strings = |texts: [&str; 6]| texts.map(String::from).to_vec();
    let lines = [strings(opening), issues.collect(), rest.map(|it| it.0.to_string()).to_vec()];
    let replies = [strings(opened), issued.collect(), rest.map(|it| it.1.to_string()).to_vec()];
    let text = |lines: [Vec<String>; 3]| lines.concat().join("\n").replace(' ', "\t") + "\n";
    let (lines, replies) = (text(lines), text(replies));
    let stored = stored::bytes("crates/script/stdin");
    assert!(stored.windows(lines.len()).any(|window| window == lines.as_bytes()));
    assert_eq!(script::run(lines.as_bytes()), replies.as_bytes());
}

/// A line with header 0 fits its form and prints `no 28` in its turn: behind 3, 5, 10, 11 and 12, before 13, 14
/// and 15, and none is granted.
#[test]
fn stored_input_has_header_0_in_every_turn() {
    let (input, output) =
        (stored::bytes("crates/script/stdin"), stored::text("crates/script/stdout"));
    let mut replies: BTreeMap<&str, usize> = BTreeMap::new();
    for (line, reply) in input.split(|&byte| byte == b'\n').zip(output.lines()) {
        let fields: Vec<&[u8]> = line.split(|&byte| byte == b'\t').collect();
        let is_zero = |header: &[u8]| !header.is_empty() && header.iter().all(|&it| it == b'0');
        if fields[0] == b"issue" && fields.get(4).is_some_and(|header| is_zero(header)) {
            *replies.entry(reply).or_default() += 1;
        }
    }
    let kinds: Vec<&str> = replies.keys().copied().collect();
    assert_eq!(kinds, ["bad", "no\t10", "no\t11", "no\t12", "no\t28", "no\t3", "no\t5"]);
    assert!(replies["no\t28"] > 10 && replies["no\t12"] > 3, "{replies:?}");
}

/// The same line with header 0 and with another one: where the other is granted or is declined by 13, 14 or
/// 15, header 0 is declined by 28.
#[test]
fn stored_input_has_header_0_beside_others() {
    let rows = [
        ("issue 0 0 0 0 02 1", "no 28"),
        ("issue 0 0 0 4294967295 02 1", "no 15"),
        ("issue 0 0 0 4294967295 02", "ok 2"),
        ("issue 0 0 0 9 09", "no 13"),
        ("issue 0 0 0 0 09", "no 28"),
        ("issue 0 1 0 0 09", "no 28"),
        ("issue 0 1 0 9 09", "ok 9"),
        ("issue 1 0 0 0 AA 7", "no 28"),
        ("issue 1 0 0 3 AA 7", "no 15"),
        ("issue 0 1 0 6 AA", "no 14"),
        ("issue 0 1 0 0 AA", "no 28"),
    ];
    let (input, output) =
        (stored::bytes("crates/script/stdin"), stored::text("crates/script/stdout"));
    let lines: Vec<(&[u8], &str)> =
        input.split(|&byte| byte == b'\n').zip(output.lines()).collect();
    let start = lines.iter().rposition(|(line, _)| *line == b"cluster\t3\t10").expect("the list");
    let mut rest = lines[start..].iter();
    for (line, reply) in rows.map(|(line, reply)| (line.replace(' ', "\t"), reply)) {
        let found = rest.find(|(other, _)| *other == line.as_bytes()).expect("the line, in order");
        assert_eq!(found.1, reply.replace(' ', "\t"), "{line}");
    }
}

/// Bytes that the proved program reads at once, and that it prints at once.
const READ: usize = 65_536;
const PRINTED: usize = 65_536;

/// A line that is granted goes over the end of the first read, and the replies to what this read has
/// are more than the program prints at once.
#[test]
fn stored_input_crosses_reads_and_fills_the_output() {
    let stored = stored::bytes("crates/script/stdin");
    let start = 1 + stored[..READ].iter().rposition(|&byte| byte == b'\n').expect("a newline");
    assert!(stored[start..].starts_with(b"send\t0\t0\t0\n") && start < READ);
    let replies = script::run(&stored[..start]);
    assert!(replies.len() > PRINTED);
    let last = script::run(&stored[..READ + 7]);
    assert!(last[replies.len()..].starts_with(b"ok\t"));
}
