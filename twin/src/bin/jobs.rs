//! Does the benchmark's jobs that standard input names.

use std::io::{self, Read};

use twin::jobs;

fn main() -> io::Result<()> {
    let mut lines = String::new();
    io::stdin().read_to_string(&mut lines)?;
    print!("{}", jobs::output(&lines));
    Ok(())
}
