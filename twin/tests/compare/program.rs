//! The comparing program itself, on programs that answer alike and on some that do not.

use std::fs;
use std::path::{Path, PathBuf};
use std::process::{Command, Output};

use twin::compare::scripts::script;

const RIGHT: &str = env!("CARGO_BIN_EXE_script");

/// Compares with `RIGHT` on scripts from the seed on, and keeps what differs in this folder.
fn compare(count: u64, seed: u64, program: &str, folder: &Path) -> Output {
    Command::new(env!("CARGO_BIN_EXE_compare"))
        .args([count.to_string(), seed.to_string()])
        .args([program, RIGHT])
        .arg(folder)
        .env("RIGHT", RIGHT)
        .output()
        .expect("the program starts")
}

fn folder(name: &str) -> PathBuf {
    Path::new(env!("CARGO_TARGET_TMPDIR")).join(name)
}

fn text(output: &Output) -> String {
    String::from_utf8_lossy(&output.stdout).into_owned()
}

#[test]
fn equal_programs() {
    let output = compare(30, 1, RIGHT, &folder("equal"));
    assert_eq!(output.status.code(), Some(0));
    let text = text(&output);
    assert!(text.starts_with("scripts: 30, ") && text.ends_with(", differences: 0\n"), "{text}");
}

#[test]
fn one_reply_differs() {
    let (seed, folder) = (11, folder("altered"));
    let altered = concat!(env!("CARGO_MANIFEST_DIR"), "/tests/compare/seventh_reply_altered");
    let output = compare(1, seed, altered, &folder);
    assert_eq!(output.status.code(), Some(1));
    let text = text(&output);
    assert!(text.starts_with("script of seed 11, line 7: "), "{text}");
    assert!(text.contains("first  program: altered\\n"), "{text}");
    assert!(text.ends_with(", differences: 1\n"), "{text}");
    let kept = fs::read(folder.join("11.script")).expect("the script is kept");
    assert_eq!(kept, script(seed).input);
}

/// One that prints what it reads, one that reads nothing, one that fails, one that is not there.
#[test]
fn programs_that_do_something_else() {
    for program in ["cat", "true", "false", "/no/such/program"] {
        let output = compare(5, 11, program, &folder("else"));
        assert_eq!(output.status.code(), Some(1), "{program}");
        assert!(text(&output).ends_with(", differences: 5\n"), "{program}: {}", text(&output));
    }
}

#[test]
fn wrong_words() {
    let output = Command::new(env!("CARGO_BIN_EXE_compare")).arg("x").output().expect("it starts");
    assert_eq!(output.status.code(), Some(2));
    assert!(output.stderr.starts_with(b"usage: "));
}
