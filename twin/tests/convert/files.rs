//! The files that `old_media` writes for trying a command that converts.

use std::process::Command;
use std::{env, fs};

use crate::words::by_the_words;
use twin::tries::old_media::old_media;

#[test]
fn each_old_medium_with_what_it_becomes() {
    let folder = env::temp_dir().join(format!("old-media-{}", std::process::id()));
    let program = env!("CARGO_BIN_EXE_old_media");
    let output = Command::new(program).arg(&folder).output().expect("the program runs");
    let lines = String::from_utf8(output.stdout).expect("text");
    let media = old_media();
    assert_eq!(lines.lines().count(), media.len());
    let mut declined = 0;
    for (medium, line) in media.iter().zip(lines.lines()) {
        let read = |ending: &str| fs::read(folder.join(format!("{}.{ending}", medium.name)));
        assert_eq!(read("old").expect("the old medium"), medium.bytes);
        let places = medium.bytes.len().saturating_sub(64) / 64;
        let word = match by_the_words(&medium.bytes, &vec![0; 64 + 72 * places]) {
            Some(new) => {
                assert_eq!(read("new").expect("the new medium"), new);
                assert!(read("declined").is_err());
                "ok"
            }
            None => {
                declined += 1;
                assert_eq!(read("declined").expect("the number"), b"27\n");
                assert!(read("new").is_err());
                "27"
            }
        };
        assert_eq!(line, format!("{}\t{word}", medium.name));
    }
    fs::remove_dir_all(&folder).expect("the folder is there");
    assert!(declined > 10 && media.len() - declined > 30);
}

/// Each name is a file's.
#[test]
fn names_differ() {
    let mut names: Vec<String> = old_media().into_iter().map(|medium| medium.name).collect();
    let fits =
        |letter: char| letter.is_ascii_lowercase() || letter.is_ascii_digit() || letter == '-';
    assert!(names.iter().all(|name| !name.is_empty() && name.chars().all(fits)), "{names:?}");
    let count = names.len();
    names.sort();
    names.dedup();
    assert_eq!(names.len(), count);
}
