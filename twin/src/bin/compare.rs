//! Runs random scripts through two script programs and reports differences.

use std::path::{Path, PathBuf};
use std::process::ExitCode;
use std::{env, fs, io};

use twin::compare::counts::Counts;
use twin::compare::difference::first_difference;
use twin::compare::process::answer;
use twin::compare::scripts::{script, Script};

const USAGE: &str = "usage: compare COUNT SEED PROGRAM PROGRAM FOLDER
Script i of COUNT, from 0, is made from SEED + i. The first one that the programs answer differently
is written to FOLDER.";

struct Task {
    count: u64,
    seed: u64,
    programs: [PathBuf; 2],
    folder: PathBuf,
}

fn main() -> ExitCode {
    let Some(task) = read_task(env::args().skip(1).collect()) else {
        eprintln!("{USAGE}");
        return ExitCode::from(2);
    };
    match task.run() {
        Ok(counts) if counts.differences == 0 => ExitCode::SUCCESS,
        Ok(_) => ExitCode::from(1),
        Err(error) => {
            eprintln!("compare: {error}");
            ExitCode::from(2)
        }
    }
}

fn read_task(words: Vec<String>) -> Option<Task> {
    let [count, seed, first, second, folder] = words.try_into().ok()?;
    Some(Task {
        count: count.parse().ok()?,
        seed: seed.parse().ok()?,
        programs: [first.into(), second.into()],
        folder: folder.into(),
    })
}

impl Task {
    /// Compares on every script, tells the first difference and then the counts.
    fn run(&self) -> io::Result<Counts> {
        let mut counts = Counts::default();
        for i in 0..self.count {
            let seed = self.seed.wrapping_add(i);
            self.compare(seed, &script(seed), &mut counts)?;
        }
        println!("{counts}");
        Ok(counts)
    }

    fn compare(&self, seed: u64, script: &Script, counts: &mut Counts) -> io::Result<()> {
        let [first, second] = [0, 1].map(|at| named(&self.programs[at], script));
        counts.add_script(&script.input);
        let difference = match (&first, &second) {
            (Ok(first), Ok(second)) => {
                counts.add_replies(second);
                first_difference(&script.input, [first, second]).map(|found| found.to_string())
            }
            (Err(error), _) | (_, Err(error)) => Some(format!("{error}\n")),
        };
        let Some(difference) = difference else { return Ok(()) };
        counts.differences += 1;
        if counts.differences == 1 {
            println!("script of seed {seed}, {}", difference.trim_end());
            println!("  written to {}", self.keep(seed, script)?.display());
        }
        Ok(())
    }

    fn keep(&self, seed: u64, script: &Script) -> io::Result<PathBuf> {
        fs::create_dir_all(&self.folder)?;
        let file = self.folder.join(format!("{seed}.script"));
        fs::write(&file, &script.input)?;
        Ok(file)
    }
}

/// What a program answers, or an error that names it.
fn named(program: &Path, script: &Script) -> Result<Vec<u8>, String> {
    answer(program, script).map_err(|error| format!("{}: {error}", program.display()))
}
