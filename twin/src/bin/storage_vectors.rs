//! Prints the storage vectors (`input`), the answers to them (`output`), or the answers to standard
//! input (`answer`).

use std::io::{self, Read, Write};
use std::process::ExitCode;

use twin::vectors;

fn main() -> io::Result<ExitCode> {
    let text = match std::env::args().nth(1).as_deref() {
        Some("input") => vectors::input(),
        Some("output") => vectors::output(&vectors::input()),
        Some("answer") => {
            let mut lines = String::new();
            io::stdin().read_to_string(&mut lines)?;
            vectors::output(&lines)
        }
        _ => {
            eprintln!("usage: storage_vectors input|output|answer");
            return Ok(ExitCode::FAILURE);
        }
    };
    io::stdout().write_all(text.as_bytes())?;
    Ok(ExitCode::SUCCESS)
}
