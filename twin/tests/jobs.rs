//! The stored answers of the benchmark's jobs are this implementation's.

mod stored;

use twin::jobs;

#[test]
fn stored_output_answers_the_stored_input() {
    assert_eq!(
        stored::text("crates/bench/stdout"),
        jobs::output(&stored::text("crates/bench/stdin"))
    );
}
