//! docs/BACKUPS.md shows what this implementation does: its lines are played in order, each with the reply that stands
//! there.

mod stored;

use twin::cluster::{Cluster, Shape};
use twin::tries::restore_rows::play;

/// The indented lines, with one blank between words.
fn shown() -> Vec<String> {
    let page = stored::text("docs/BACKUPS.md");
    let lines = page.lines().filter(|line| line.starts_with("    "));
    lines.map(|line| line.split_whitespace().collect::<Vec<_>>().join(" ")).collect()
}

#[test]
fn the_page_shows_restores() {
    let lines = shown();
    assert_eq!(lines.iter().filter(|line| line.starts_with("restore ")).count(), 3, "{lines:?}");
    let mut cluster = Cluster::fresh(Shape::whole(3, 4)).expect("an allowed shape");
    play(&mut cluster, &lines.join("\n"));
}
