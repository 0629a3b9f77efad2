//! docs/RECOVERY.md shows the example recovery as it is: every line of the input in order, each with
//! the reply that this implementation gives; and recoveries in one call with what they give here.

mod stored;

use twin::script;
use twin::tries::recovery_rows::{cluster, outcome, parse, ROWS};

/// Above it, the script program's run; below it, the driver's.
const HEADING: &str = "\n## The same in one call\n";

/// The two parts of the page.
fn page() -> [String; 2] {
    let page = stored::text("docs/RECOVERY.md");
    let (run, driver) = page.split_once(HEADING).expect("the heading");
    [run, driver].map(str::to_string)
}

/// The indented lines, with one blank between words.
fn shown(part: &str) -> Vec<String> {
    let lines = part.lines().filter(|line| line.starts_with("    "));
    lines.map(|line| line.split_whitespace().collect::<Vec<_>>().join(" ")).collect()
}

#[test]
fn the_page_shows_the_run() {
    let input = stored::text("examples/recovery/input");
    let replies = String::from_utf8(script::run(input.as_bytes())).expect("text");
    let run: Vec<String> = input
        .lines()
        .zip(replies.lines())
        .map(|(line, reply)| format!("{line} → {reply}").replace('\t', " "))
        .collect();
    let [above, _] = page();
    assert_eq!(shown(&above), run);
}

/// Each from the state that the page tells of. All are rows of the table that is tried elsewhere too.
#[test]
fn the_page_shows_recoveries_in_one_call() {
    let [_, below] = page();
    let lines = shown(&below);
    assert!((1..=8).contains(&lines.len()), "{lines:?}");
    for line in lines {
        let (recovery, expected) = parse(&line).unwrap_or_else(|| panic!("no row: {line}"));
        assert_eq!(outcome(recovery.apply(&mut cluster())), expected, "{line}");
        assert!(ROWS.contains(&line.as_str()), "{line}");
    }
}
