//! The first difference of two outputs.

use twin::compare::difference::{first_difference, Difference};
use twin::compare::scripts::script;
use twin::random::Random;
use twin::script::run;

fn is_newline(byte: &u8) -> bool {
    *byte == b'\n'
}

#[test]
fn none_in_equal_outputs() {
    for input in (1..=20).map(|seed| script(seed).input) {
        assert_eq!(first_difference(&input, [&run(&input), &run(&input)]), None);
    }
}

/// One altered reply is found with its line and number, on either side.
#[test]
fn an_altered_reply() {
    let mut random = Random::new(5);
    for input in (1..=40).map(|seed| script(seed).input) {
        let output = run(&input);
        let mut replies: Vec<&[u8]> = output.split_inclusive(is_newline).collect();
        if replies.is_empty() {
            continue;
        }
        let at = random.below(replies.len() as u64) as usize;
        let (right, wrong) = (replies[at].to_vec(), &b"ok\t77\n"[..]);
        replies[at] = wrong;
        let altered = replies.concat();
        let line = input.split(is_newline).nth(at).expect("a line").to_vec();
        let number = at + 1;
        let found = first_difference(&input, [&output, &altered]);
        let replies = [Some(right.clone()), Some(wrong.to_vec())];
        assert_eq!(found, Some(Difference { number, line: line.clone(), replies }));
        let found = first_difference(&input, [&altered, &output]);
        let replies = [Some(wrong.to_vec()), Some(right)];
        assert_eq!(found, Some(Difference { number, line, replies }));
    }
}

#[test]
fn a_reply_too_few_too_many_or_without_newline() {
    let input = b"one\ntwo";
    let find = |other: &[u8]| first_difference(input, [b"bad\nbad\n", other]);
    let bad = || Some(b"bad\n".to_vec());
    let on_two =
        |reply| Some(Difference { number: 2, line: b"two".to_vec(), replies: [bad(), reply] });
    assert_eq!(find(b"bad\n"), on_two(None));
    assert_eq!(find(b"bad\nbad"), on_two(Some(b"bad".to_vec())));
    assert_eq!(
        find(b"bad\nbad\nbad\n"),
        Some(Difference { number: 3, line: Vec::new(), replies: [None, bad()] })
    );
}
