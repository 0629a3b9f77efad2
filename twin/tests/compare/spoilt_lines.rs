//! Malformed lines are bad and unusual ones are not, whatever line they are made from.

use twin::compare::calls::{issue_line, Caller};
use twin::compare::line::Line;
use twin::compare::{malformed, unusual};
use twin::random::Random;
use twin::script::Program;

const OPENING: &[u8] = b"cluster\t3\t4\ntake\t0\t0\nprep\t0\t0\t0\nprep\t0\t1\t0\nopen\t0\t0\n";

/// Hands each of many calls on an open cluster to `check`, and a cluster line, both with an issue
/// line.
fn on_open_cluster(check: impl Fn(&mut Random, &Line, &Line, &mut Program)) {
    let mut random = Random::new(3);
    for _ in 0..100 {
        let mut program = Program::default();
        program.feed(OPENING, &mut Vec::new());
        let cluster = program.cluster().expect("a cluster").clone();
        let call = Caller::new(&mut random).next_call(&mut random, &cluster);
        let issue = issue_line(&mut random, &cluster);
        check(&mut random, &call, &issue, &mut program);
        let again = Line::new("cluster").number(3).number(4);
        check(&mut random, &again, &issue, &mut program);
    }
}

fn reply(program: &mut Program, line: &[u8]) -> String {
    let mut output = Vec::new();
    program.feed(&[line, b"\n"].concat(), &mut output);
    String::from_utf8(output).expect("text")
}

#[test]
fn malformed_lines_are_bad_and_do_nothing() {
    on_open_cluster(|random, call, issue, program| {
        let before = program.cluster().cloned();
        for &kind in malformed::ALL {
            let line = kind.line(random, call, issue);
            assert!(!line.contains(&b'\n'), "{kind:?}");
            assert_eq!(reply(program, &line), "bad\n", "{kind:?}: {}", line.escape_ascii());
        }
        assert!(program.cluster() == before.as_ref());
    });
}

#[test]
fn unusual_lines_fit() {
    on_open_cluster(|random, call, issue, program| {
        for &kind in unusual::ALL {
            let line = kind.line(random, call, issue);
            assert_ne!(reply(program, &line), "bad\n", "{kind:?}: {}", line.escape_ascii());
        }
    });
}

/// The line that a call was made from fits, so that its fault alone makes it bad.
#[test]
fn their_sources_fit() {
    on_open_cluster(|random, call, issue, program| {
        let [plain_call, plain_issue] = malformed::plain_lines(random);
        for line in [call, issue, &plain_call, &plain_issue] {
            assert_ne!(reply(program, &line.bytes()), "bad\n", "{line:?}");
        }
    });
}
