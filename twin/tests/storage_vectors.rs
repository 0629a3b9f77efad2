//! The stored storage vectors are what this implementation gives.

mod stored;

use std::collections::BTreeMap;

use twin::crc::bitwise;
use twin::hex;
use twin::medium::{places, Record};
use twin::old;
use twin::segment::{import, Stamp};
use twin::tries::imports::RECORD;
use twin::tries::old_media::example;
use twin::vectors;

#[test]
fn stored_input_is_the_list_of_cases() {
    stored::assert_same_lines(&stored::text("crates/vectors/stdin"), &vectors::input());
}

#[test]
fn stored_output_answers_the_stored_input() {
    stored::assert_same_lines(
        &stored::text("crates/vectors/stdout"),
        &vectors::output(&stored::text("crates/vectors/stdin")),
    );
}

#[test]
fn lines_and_input_are_small() {
    let input = vectors::input();
    // Each byte and each length of a pair of segment files is a line that has the pair.
    assert!(input.len() < 1_600_000);
    assert!(input.lines().all(|line| line.len() <= 130_000));
    assert!(input.is_ascii() && input.ends_with('\n'));
}

/// The answers to the lines of a command, without what stands behind the number or ok.
fn answers(command: &str) -> BTreeMap<String, usize> {
    let (input, output) = (vectors::input(), vectors::output(&vectors::input()));
    let mut counts = BTreeMap::new();
    for (line, answer) in input.lines().zip(output.lines()) {
        if line.split('\t').next() == Some(command) {
            let words = if answer.starts_with("no") { 2 } else { 1 };
            let kind = answer.split('\t').take(words).collect::<Vec<_>>().join(" ");
            *counts.entry(kind).or_default() += 1;
        }
    }
    counts
}

/// Each reason to decline many times, since each byte and each length of a pair is tried.
#[test]
fn imports_meet_every_answer() {
    let counts = answers("import");
    println!("{counts:?}");
    let kinds: Vec<&str> = counts.keys().map(String::as_str).collect();
    assert_eq!(kinds, ["bad", "no 1", "no 24", "no 25", "no 26", "ok"]);
    assert!(counts.values().all(|&count| count > 10));
    // Of every byte of two headers, and of every length below theirs.
    assert!(counts["no 24"] > 3 * 128 && counts["no 1"] > 128);
}

/// Many of each: each byte of a place and of both slots, and each kind of length.
#[test]
fn conversions_meet_every_answer() {
    let counts = answers("convert");
    println!("{counts:?}");
    let kinds: Vec<&str> = counts.keys().map(String::as_str).collect();
    assert_eq!(kinds, ["bad", "no 27", "ok"]);
    assert!(counts["ok"] > 150 && counts["no 27"] > 30 && counts["bad"] > 15);
}

/// The place and the new medium of the examples, byte for byte.
#[test]
fn the_worked_examples_are_among_the_lines() {
    let place = "000000000000000100000102000000000000000500000001 0000004D000000090000000441424344";
    let place = format!("{}{}6598BC07", place.replace(' ', ""), "00".repeat(28));
    let input = vectors::input();
    let answer = |line: &str| {
        assert!(input.lines().any(|other| other == line), "{line}");
        vectors::output(line).trim_end().to_string()
    };
    assert_eq!(answer("record\t1\t258\t0\t5\t4294967373\t9\t41424344"), place);
    let read = "1\t1\t258\t0\t5\t4294967373\t9\t4\t41424344";
    assert_eq!(answer(&format!("place\t1\t{place}")), read);
    let mut new = example()[..64].to_vec();
    new.extend(Record { sequence: 77, ..RECORD }.encode());
    new.resize(64 + 72 * 3, 0);
    let convert = format!("convert\t{}\t280\t170", hex::encode(&example()));
    assert_eq!(answer(&convert), format!("ok\t{:08X}", bitwise(&new)));
    let short = format!("convert\t{}\t280\t204", hex::encode(&example()[..255]));
    assert_eq!(answer(&short), format!("no\t27\t{:08X}", bitwise(&[0xCC; 280])));
}

/// The records of a line that have header 0: the one that it names, or those of its log; of an import's file all
/// that the answer says were placed.
fn zeros(line: &str) -> usize {
    let fields: Vec<&str> = line.split('\t').collect();
    let bytes = |index: usize| hex::decode(fields[index].as_bytes()).expect("bytes");
    match fields[0] {
        "record" => usize::from(fields[6] == "0"),
        "place" => of_log(&[&[0; 64][..], &bytes(2)].concat()),
        "medium" => of_log(&bytes(2)),
        "pair" => of_log(&bytes(4)),
        "convert" => old::log(&bytes(1)).filter(|record| record.header == 0).count(),
        "import" => {
            let (places, time) = (fields[1].parse().expect("N"), fields[2].parse().expect("time"));
            let stamp = Stamp { time, key: bytes(3).try_into().expect("a key") };
            let mut medium = bytes(4);
            let [data, index] = [5, 6].map(bytes);
            import(places, &mut medium, stamp, &data, &index).map_or(0, |()| of_log(&medium))
        }
        _ => 0,
    }
}

/// Of a medium; a first place of any number is read too.
fn of_log(medium: &[u8]) -> usize {
    let record = |place| {
        let id = &<[u8]>::first_chunk(place).expect("eight bytes");
        Record::decode(u64::from_be_bytes(**id), place)
    };
    places(medium).map_while(record).filter(|record| record.header == 0).count()
}

/// "Stored ones stay readable, are copied in recovery and exported": records with header 0 are written and
/// read, make a log, and come to a pair of files, back from one, and out of an old medium.
#[test]
fn records_with_header_0_are_as_any_others() {
    let (input, output) = (vectors::input(), vectors::output(&vectors::input()));
    let mut met: BTreeMap<&str, usize> = BTreeMap::new();
    for (line, answer) in input.lines().zip(output.lines()).filter(|(_, answer)| *answer != "bad") {
        let command = line.split('\t').next().expect("a word");
        let read = command != "place" || answer.starts_with('1');
        let done = read && !answer.starts_with("no");
        *met.entry(command).or_default() += usize::from(done && zeros(line) > 0);
    }
    println!("{met:?}");
    let all = ["record", "place", "medium", "pair", "import", "convert"];
    assert!(all.iter().all(|command| met[command] > 5), "{met:?}");
}

/// The last lines: two records of gates, one with 13 bytes of data and one with 28, are written, are
/// valid and make a log; they come to a pair of files and back as any others do.
#[test]
fn storage_knows_no_limit_of_gates() {
    let input = vectors::input();
    let lines: Vec<&str> = input.lines().collect();
    let lines = &lines[lines.len() - 7..];
    let answers = lines.iter().map(|line| vectors::output(line));
    let words = |text: &str, count: usize| -> Vec<String> {
        text.trim_end().split('\t').take(count).map(String::from).collect()
    };
    let answers: Vec<Vec<String>> =
        answers.zip([1, 9, 1, 9, 3, 2, 1]).map(|(answer, count)| words(&answer, count)).collect();
    let field = |line: usize, index: usize| lines[line].split('\t').nth(index).expect("a field");
    for (record, client, length) in [(0, "99", "13"), (2, "0", "28")] {
        assert_eq!(field(record, 2), client);
        assert_eq!(field(record + 1, 2), answers[record][0]);
        assert_eq!(answers[record + 1][..3], ["1", field(record, 1), client]);
        assert_eq!(answers[record + 1][7..], [length, field(record, 7)]);
    }
    assert_eq!(answers[4], ["2", "0", "0"]);
    assert_eq!([field(6, 5), field(6, 6)], [&answers[5][0], &answers[5][1]]);
    assert_eq!(answers[6], ["ok"]);
}

/// A field is missing or too much, or is not what it should be; or the line is too long.
#[test]
fn lines_that_fit_no_form_are_bad() {
    let fits = |line: &str| vectors::output(line) != "bad\n";
    let key = "00112233445566778899AABBCCDDEEFF";
    let empty = format!("import\t1\t7\t{key}\t\t\t");
    let log = format!("pair\t7\t{key}\t1\t{}", "00".repeat(136));
    assert!(fits(&empty) && fits(&log) && fits("crc\t"));
    assert!(fits("convert\t\t73000\t255") && fits(&format!("crc\t{}", "0".repeat(129_996))));
    let spoilt = [
        format!("{empty}\t"),
        format!("{empty}0"),
        empty.replace("FF", "F"),
        format!("{log}\t"),
        format!("{log}0"),
        log.replace("FF", "FFFF"),
        log.replace("\t1\t", "\t2\t"),
        log.replace("\t1\t", "\t\t"),
        format!("crc\t{}", "0".repeat(129_998)),
    ];
    let short =
        ["\n", "crc", "wait\t1", "crc\t0", "slotof\t1\t2", "slotof\t1\t+2\t3", "place\t1\t"];
    let converts = ["\t\t73001\t0", "\t\t0\t256", "\t\t0", "\t\t0\t0\t", "\t0\t0\t0", ""];
    let converts = converts.map(|rest| format!("convert{rest}"));
    for line in spoilt.iter().chain(&converts).map(String::as_str).chain(short) {
        assert!(!fits(line), "{line:?}");
    }
}
