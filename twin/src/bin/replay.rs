//! Prints the lines of the replay program's stored run (`input`), what they print (`output`), or
//! what the run meets (`counts`). With a seed behind that, the same of another run.

use std::io::{self, Write};
use std::process::ExitCode;

use twin::replay;

fn main() -> io::Result<ExitCode> {
    let mut arguments = std::env::args().skip(1);
    let what = arguments.next();
    let run = match arguments.next().map(|seed| seed.parse()) {
        None => replay::run(),
        Some(Ok(seed)) => replay::run_of(seed),
        Some(Err(_)) => return usage(),
    };
    let text = match what.as_deref() {
        Some("input") => run.input,
        Some("output") => run.output,
        Some("counts") => run.counts.to_string(),
        _ => return usage(),
    };
    io::stdout().write_all(text.as_bytes())?;
    Ok(ExitCode::SUCCESS)
}

fn usage() -> io::Result<ExitCode> {
    eprintln!("usage: replay input|output|counts [SEED]");
    Ok(ExitCode::FAILURE)
}
