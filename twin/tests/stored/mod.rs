//! Files of the repository that tests compare with what this implementation gives.

// Each test uses its own part of this.
#![allow(dead_code)]

use std::fs;
use std::path::Path;

/// A file's bytes, its name from the top of the repository.
pub fn bytes(name: &str) -> Vec<u8> {
    let file = Path::new(env!("CARGO_MANIFEST_DIR")).join("..").join(name);
    fs::read(&file).unwrap_or_else(|error| panic!("{}: {error}", file.display()))
}

pub fn text(name: &str) -> String {
    String::from_utf8(bytes(name)).unwrap_or_else(|error| panic!("{name}: {error}"))
}

/// Compares line by line, so that a failure shows one line and not two files.
pub fn assert_same_lines(stored: &str, expected: &str) {
    for (number, (stored, expected)) in (1..).zip(stored.lines().zip(expected.lines())) {
        assert_eq!(stored, expected, "line {number}");
    }
    assert!(stored == expected, "one has more lines than the other");
}
