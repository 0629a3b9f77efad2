//! The script program: the document's own run, the forms of lines, and input in pieces.

use std::io::Write;
use std::process::{Command, Stdio};

use twin::cluster::HELD;
use twin::medium::{place, Record};
use twin::random::Random;
use twin::script::{run, Program, LINE_LIMIT};

/// Runs lines written with blanks between their fields; replies come back the same way.
fn replies(lines: &[&str]) -> Vec<String> {
    let input = lines.join("\n").replace(' ', "\t") + "\n";
    let output = String::from_utf8(run(input.as_bytes())).expect("text");
    output.lines().map(|line| line.replace('\t', " ")).collect()
}

/// Runs pairs of a line and the reply that it must give.
fn check(pairs: &[(&str, &str)]) {
    let lines: Vec<&str> = pairs.iter().map(|pair| pair.0).collect();
    let replies = replies(&lines);
    assert_eq!(replies.len(), pairs.len());
    for ((line, expected), reply) in pairs.iter().zip(replies) {
        assert_eq!(&reply, expected, "{line}");
    }
}

const RUN: [(&str, &str); 17] = [
    ("cluster 3 4", "ok"),
    ("take 0 0", "ok 1"),
    ("prep 0 0 0", "ok 0"),
    ("prep 0 1 0", "ok 0"),
    ("open 0 0", "ok 0"),
    ("issue 0 0 0 9 AB", "ok 1"),
    ("send 0 0 0", "ok 0"),
    ("send 0 1 0", "ok 1"),
    ("take 1 0", "ok 2"),
    ("prep 1 1 0", "ok 1"),
    ("prep 1 2 0", "ok 0"),
    ("open 1 0", "no 8"),
    ("copy 1 1 2 0", "ok 1"),
    ("open 1 0", "ok 1"),
    ("issue 0 1 0 9 CD", "ok 2"),
    ("send 0 0 0", "ok 1"),
    ("send 0 1 0", "no 19"),
];

#[test]
fn the_documents_run() {
    check(&RUN);
}

/// The program itself, on standard input and output.
#[test]
fn the_documents_run_by_the_program() {
    let mut program = Command::new(env!("CARGO_BIN_EXE_script"))
        .stdin(Stdio::piped())
        .stdout(Stdio::piped())
        .spawn()
        .expect("the program starts");
    let input = RUN.map(|(line, _)| line.replace(' ', "\t") + "\n").concat();
    let mut stdin = program.stdin.take().expect("standard input");
    stdin.write_all(input.as_bytes()).expect("the program reads");
    drop(stdin);
    let output = program.wait_with_output().expect("the program ends");
    assert!(output.status.success());
    let expected = RUN.map(|(_, reply)| reply.replace(' ', "\t") + "\n").concat();
    assert_eq!(output.stdout, expected.as_bytes());
}

/// An open cluster of one replica before each line, so that a form that fits gets past `bad`.
fn after_opening(line: &[u8]) -> Vec<u8> {
    let opening = b"cluster\t1\t4\ntake\t0\t0\nprep\t0\t0\t0\nopen\t0\t0\n";
    let output = run(&[opening, line, b"\n"].concat());
    let opened = b"ok\nok\t1\nok\t0\nok\t0\n";
    output
        .strip_prefix(opened)
        .expect("an open cluster")
        .strip_suffix(b"\n")
        .expect("a line")
        .to_vec()
}

fn is_bad(line: &[u8]) -> bool {
    after_opening(line) == b"bad"
}

#[test]
fn bad_lines() {
    let bad: [&str; 45] = [
        "",
        "\t",
        " ",
        "\r",
        "take",
        "take\t",
        "take\t1",
        "take\t1\t",
        "take\t1\t0\t",
        "take\t1\t0\t0",
        "take\t1\t3",
        "take\t1\t0\r",
        "take\t1 0",
        "take 1\t0",
        "Take\t1\t0",
        "take\t+1\t0",
        "take\t-1\t0",
        "take\t 1\t0",
        "take\t0x1\t0",
        "take\t18446744073709551616\t0",
        "take\t1\t18446744073709551616",
        "take\t\t0",
        "\ttake\t1\t0",
        "prep\t0\t0",
        "prep\t0\t0\t0\t0",
        "copy\t0\t0\t0",
        "open\t0",
        "send\t0\t0",
        "send\t0\t0\t4",
        "issue\t0\t0\t0\t9",
        "issue\t0\t0\t0\t9\tA",
        "issue\t0\t0\t0\t9\tAG",
        "issue\t0\t0\t4294967296\t9\tAB",
        "issue\t0\t0\t0\t4294967296\tAB",
        "issue\t0\t18446744073709551616\t0\t9\tAB",
        "issue\t0\t0\t0\t9\tAB\t",
        "issue\t0\t0\t0\t9\tAB\t1\t\t2",
        "issue\t0\t0\t0\t9\tAB\tx",
        "issue\t0\t0\t0\t9\tAB\t18446744073709551616",
        "cluster\t3",
        "cluster\t3\t4\t5",
        "cluster\t3\t",
        "trim\t0\t0\t0",
        "stop\t0",
        "reassign",
    ];
    for line in bad {
        assert!(is_bad(line.as_bytes()), "{line:?}");
    }
    for line in [&b"take\t1\t0\0"[..], b"\xFFtake\t1\t0", b"take\t\xB2\t0", b"\0"] {
        assert!(is_bad(line), "{line:?}");
    }
}

#[test]
fn lines_that_fit() {
    let fitting = [
        ("take\t1\t0", "ok\t2"),
        ("take\t001\t000", "ok\t2"),
        ("take\t18446744073709551615\t0", "no\t3"),
        ("take\t1\t1", "silent"),
        ("take\t1\t02", "silent"),
        ("send\t0\t18446744073709551615\t0", "no\t4"),
        ("issue\t0\t0\t0\t9\t", "ok\t1"),
        ("issue\t0\t0\t0\t4294967295\taBcDeF", "ok\t1"),
        ("issue\t0\t0\t0000000000000\t9\t00", "ok\t1"),
        ("issue\t0\t0\t1\t9\tAB", "no\t10"),
        ("issue\t0\t1\t0\t9\tAB", "no\t11"),
        ("issue\t0\t0\t0\t0\tAB", "no\t28"),
        ("issue\t0\t0\t0\t000\t\t1", "no\t28"),
        ("issue\t0\t0\t0\t1\tAB", "ok\t1"),
        ("issue\t0\t0\t1\t0\tAB", "no\t10"),
        ("issue\t0\t1\t0\t0\tAB", "no\t11"),
        ("issue\t0\t0\t0\t0\t\t1\t2\t3\t4\t5", "no\t12"),
        ("issue\t0\t0\t0\t9\tAB\t1", "ok\t1"),
        ("issue\t0\t0\t0\t9\t\t1\t2\t3\t4", "ok\t1"),
        ("issue\t0\t0\t0\t9\t\t1\t2\t3\t4\t5", "no\t12"),
        ("cluster\t2\t4", "no\t1"),
        ("cluster\t3\t0", "no\t1"),
        ("cluster\t3\t101", "no\t1"),
        ("cluster\t9\t18446744073709551615", "no\t1"),
        ("cluster\t3\t100", "ok"),
    ];
    for (line, reply) in fitting {
        let output = after_opening(line.as_bytes());
        assert_eq!(String::from_utf8_lossy(&output), reply, "{line:?}");
    }
}

#[test]
fn data_and_locks_up_to_their_limits() {
    let issue = |data: usize| format!("issue\t0\t0\t0\t9\t{}", "5a".repeat(data));
    assert_eq!(after_opening(issue(28).as_bytes()), b"ok\t1");
    assert_eq!(after_opening(issue(29).as_bytes()), b"no\t12");
    let many_locks = issue(0) + &"\t7".repeat(240);
    assert!(many_locks.len() <= LINE_LIMIT);
    assert_eq!(after_opening(many_locks.as_bytes()), b"no\t12");
}

/// "the script fills in client 100"; partition and sequence are 0 as before. The record as it is held, and
/// as a replica stores it.
#[test]
fn issue_fills_in_client_100() {
    let mut program = Program::default();
    let lines = "cluster\t3\t4\ntake\t0\t0\nprep\t0\t0\t0\nprep\t0\t1\t0\nopen\t0\t0\n\
        issue\t0\t0\t0\t9\tABCD\t1\t2\nsend\t0\t0\t0\n";
    program.feed(lines.as_bytes(), &mut Vec::new());
    let cluster = program.cluster().expect("an accepted cluster line");
    let (client, generation, partition, sequence, header) = (100, 0, 0, 0, 9);
    let data = &[0xAB, 0xCD];
    let record = Record { id: 1, client, generation, partition, sequence, header, data };
    for bytes in [cluster.records.servers[0].held[HELD - 1], place(cluster.medium(0), 1)] {
        assert_eq!(Record::decode(1, &bytes), Some(record));
        // Generation, partition and sequence have 16 bytes together.
        let fields = [&[0, 0, 0, 100][..], &[0; 16], &[0, 0, 0, 9, 0, 0, 0, 2]].concat();
        assert_eq!(bytes[8..36], fields);
    }
}

/// What a gate may not send, a script may: it is never one.
#[test]
fn a_script_is_no_gate() {
    let issue = |data: usize, locks: usize| {
        format!("issue\t0\t0\t0\t9\t{}{}", "5a".repeat(data), "\t7".repeat(locks))
    };
    for (data, locks) in [(13, 0), (13, 2), (0, 2), (12, 4), (28, 4)] {
        assert_eq!(after_opening(issue(data, locks).as_bytes()), b"ok\t1", "{data}, {locks}");
    }
    for (data, locks) in [(29, 0), (0, 5), (29, 5)] {
        assert_eq!(after_opening(issue(data, locks).as_bytes()), b"no\t12", "{data}, {locks}");
    }
}

#[test]
fn five_hundred_bytes_fit_and_one_more_does_not() {
    let padded = |length: usize| format!("take\t{}1\t0", "0".repeat(length - "take\t1\t0".len()));
    assert_eq!(padded(LINE_LIMIT).len(), 500);
    assert_eq!(after_opening(padded(500).as_bytes()), b"ok\t2");
    for length in [501, 502, 1_000, 100_000] {
        assert!(is_bad(padded(length).as_bytes()), "{length}");
    }
}

#[test]
fn before_the_first_accepted_cluster_line() {
    check(&[
        ("take 0 0", "bad"),
        ("cluster 2 4", "no 1"),
        ("take 0 0", "bad"),
        ("cluster 1 4", "ok"),
        ("take 0 0", "ok 1"),
        ("cluster 1 101", "no 1"),
        ("take 1 0", "ok 2"),
        ("cluster x 4", "bad"),
        ("take 2 0", "ok 3"),
        ("cluster 1 4", "ok"),
        ("take 2 0", "ok 1"),
    ]);
}

#[test]
fn ends_of_input() {
    assert_eq!(run(b""), b"");
    assert_eq!(run(b"\n"), b"bad\n");
    assert_eq!(run(b"\n\n"), b"bad\nbad\n");
    assert_eq!(run(b"cluster\t1\t1"), b"ok\n");
    assert_eq!(run(b"cluster\t1\t1\n"), b"ok\n");
    assert_eq!(run(b"cluster\t1\t1\r\n"), b"bad\n");
    assert_eq!(run(b"cluster\t1\t1\n\ntake\t0\t0"), b"ok\nbad\nok\t1\n");
}

/// Input in pieces of any size gives what it gives at once, long lines included.
#[test]
fn input_in_pieces() {
    let mut random = Random::new(7);
    let lines = RUN.map(|(line, _)| line.replace(' ', "\t"));
    for _ in 0..200 {
        let mut input = Vec::new();
        for line in &lines {
            if random.chance(4) {
                let length = 490 + random.below(20) as usize;
                input.extend(random.bytes(length).into_iter().map(|byte| byte | 0x80));
                input.push(b'\n');
            }
            input.extend(line.as_bytes());
            input.push(b'\n');
        }
        let mut program = Program::default();
        let (mut output, mut rest) = (Vec::new(), input.as_slice());
        while !rest.is_empty() {
            let (piece, later) = rest.split_at(rest.len().min(random.below(700) as usize));
            program.feed(piece, &mut output);
            rest = later;
        }
        program.end(&mut output);
        assert_eq!(output, run(&input));
    }
}
