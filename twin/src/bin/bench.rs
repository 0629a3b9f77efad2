//! Times the proved programs beside others: the jobs of crates/bench and the script program on its
//! stored input beside this implementation's, and the mark scan by a sum beside the one by a product,
//! this implementation's two, and C programs with a library's CRC-32. All are release builds, run as
//! processes on the same input one after the other; a job's time is that of many turns less that of
//! none, so that start and set-up fall out. The least of several rounds counts.

use std::env;
use std::fs::{self, File};
use std::io::{self, Write};
use std::path::{Path, PathBuf};
use std::process::{Command, ExitCode, Stdio};
use std::time::{Duration, Instant};

use twin::script::LINE_LIMIT;

/// How often each time is taken.
const ROUNDS: usize = 5;

/// A job, what it does, and how many turns: some tenths of a second, several times its set-up.
type Job = (&'static str, &'static str, u64);

const JOBS: [Job; 9] = [
    MARKS,
    ("send", "one send to a replica that holds 999 of 1,000", 30_000),
    ("prepare", "one prepare that truncates 1,000 places to 500", 30_000),
    ("open", "one open of seven replicas at N = 1,000", 2_000_000),
    ("export", "export of 1,000 places", 10_000),
    ("import", "import of 1,000 places", 10_000),
    ("convert", "conversion of 1,000 places", 10_000),
    ("issue", "one issue of 28 bytes, 500 of 1,000 issued", 2_000_000),
    CRC,
];

/// The jobs that a library's program does too.
const MARKS: Job = ("marks", "mark of seven full media of 1,000 places", 5_000);
const CRC: Job = ("crc", "CRC-32 of 64 KB", 30_000);

/// The job that finds the same marks with a product in the scan's loop: one for each group of four
/// places in the proved program, one for each place in this implementation.
const PRODUCTS: &str = "products";

/// The places that a turn of each scan reads.
const PLACES_READ: f64 = 7_000.0;

/// How often the script program's stored input is repeated.
const SCRIPT_TIMES: usize = 200;

/// The programs: proved jobs, proved script, this implementation's, and one for each library.
struct Programs {
    jobs: String,
    script: String,
    twin_jobs: String,
    twin_script: String,
    libraries: Vec<Library>,
}

/// A library that has a CRC-32, and the program that does jobs with it.
struct Library {
    name: String,
    jobs: String,
}

/// A job that a program is to do.
#[derive(Clone, Copy)]
struct Task<'a> {
    program: &'a str,
    job: &'a str,
}

impl Programs {
    fn named_by(mut words: impl Iterator<Item = String>) -> Option<Programs> {
        Some(Programs {
            jobs: words.next()?,
            script: words.next()?,
            twin_jobs: words.next()?,
            twin_script: words.next()?,
            libraries: words.map(|word| Library::named_by(&word)).collect::<Option<_>>()?,
        })
    }
}

impl Library {
    fn named_by(word: &str) -> Option<Library> {
        let (name, jobs) = word.split_once('=')?;
        Some(Library { name: name.to_string(), jobs: jobs.to_string() })
    }
}

fn main() -> io::Result<ExitCode> {
    let Some(programs) = Programs::named_by(env::args().skip(1)) else {
        eprintln!("usage: bench JOBS SCRIPT TWIN-JOBS TWIN-SCRIPT [LIBRARY=JOBS]..");
        return Ok(ExitCode::FAILURE);
    };
    println!(
        "Buffers are not cleared and caches are warm: each turn finds what the one before left."
    );
    println!("Least of {ROUNDS} rounds; a ratio below 1 says that the proved program is faster.\n");
    print_jobs(&programs)?;
    println!();
    print_scans(&programs)?;
    Ok(ExitCode::SUCCESS)
}

/// The proved jobs beside this implementation's, and the CRC beside each library's.
fn print_jobs(programs: &Programs) -> io::Result<()> {
    println!("| job | proved | Rust (or library) | ratio |");
    println!("|---|---|---|---|");
    for job in JOBS {
        print_job(job, "", &programs.jobs, &programs.twin_jobs)?;
    }
    print_script(programs)?;
    for library in &programs.libraries {
        let beside = format!(", beside {}", library.name);
        print_job(CRC, &beside, &programs.jobs, &library.jobs)?;
    }
    Ok(())
}

fn print_job(job: Job, beside: &str, proved: &str, other: &str) -> io::Result<()> {
    let (job, what, turns) = job;
    let times = turn_times(&[proved, other].map(|program| Task { program, job }), turns)?;
    let [proved, other] = [times[0], times[1]];
    println!("| {what}{beside} | {} | {} | {:.2} |", text(proved), text(other), proved / other);
    Ok(())
}

/// Every scan that finds the marks of the same media, the proved one by a sum first.
fn print_scans(programs: &Programs) -> io::Result<()> {
    let (names, tasks): (Vec<String>, Vec<Task>) = scans(programs).into_iter().unzip();
    let (_, _, turns) = MARKS;
    let times = turn_times(&tasks, turns)?;
    println!(
        "The mark scan: seven full media of 1,000 places. The next place is reached by a sum or by \
         a product; a ratio is that of the proved scan by a sum to the row's.\n"
    );
    println!("| scan | time | ns a place | ratio |");
    println!("|---|---|---|---|");
    for (name, time) in names.iter().zip(&times) {
        let place = time * 1e9 / PLACES_READ;
        println!("| {name} | {} | {place:.1} | {:.2} |", text(*time), times[0] / time);
    }
    Ok(())
}

fn scans(programs: &Programs) -> Vec<(String, Task<'_>)> {
    let (sum, _, _) = MARKS;
    let mut scans = Vec::new();
    for (by, program) in [("proved", &programs.jobs), ("Rust", &programs.twin_jobs)] {
        scans.push((format!("{by}, by a sum"), Task { program, job: sum }));
        scans.push((format!("{by}, by a product"), Task { program, job: PRODUCTS }));
    }
    for Library { name, jobs } in &programs.libraries {
        scans.push((format!("C with {name}'s CRC-32, by a sum"), Task { program: jobs, job: sum }));
    }
    scans
}

/// Lines a second of the script program.
fn print_script(programs: &Programs) -> io::Result<()> {
    let (input, lines) = script_input()?;
    let ([mut proved, mut twin], mut same) = ([Duration::MAX; 2], None);
    for _ in 0..ROUNDS {
        for (program, least) in
            [(&programs.script, &mut proved), (&programs.twin_script, &mut twin)]
        {
            let (time, output) = run(program, Stdio::from(File::open(&input)?), b"")?;
            *least = time.min(*least);
            assert!(*same.get_or_insert(output.clone()) == output, "{program}: another output");
        }
    }
    fs::remove_file(&input)?;
    let [proved, twin] = [proved, twin].map(|time| lines as f64 / time.as_secs_f64());
    println!(
        "| lines of the script program a second | {proved:.0} | {twin:.0} | {:.2} |",
        twin / proved
    );
    Ok(())
}

/// A file with the stored input many times over, and how many lines it has. Empty lines and those
/// that are too long for a form are left out: they ask for nothing.
fn script_input() -> io::Result<(PathBuf, usize)> {
    let stored = Path::new(env!("CARGO_MANIFEST_DIR")).join("../crates/script/stdin");
    let stored = fs::read(stored)?;
    let lines: Vec<&[u8]> = stored
        .split(|&byte| byte == b'\n')
        .filter(|line| (1..=LINE_LIMIT).contains(&line.len()))
        .collect();
    let mut once = lines.join(&b'\n');
    once.push(b'\n');
    let path = env::temp_dir().join(format!("bench-script-{}", std::process::id()));
    fs::write(&path, once.repeat(SCRIPT_TIMES))?;
    Ok((path, lines.len() * SCRIPT_TIMES))
}

/// The seconds that one turn of each task takes, all timed in the same rounds; they must answer alike.
fn turn_times(tasks: &[Task], turns: u64) -> io::Result<Vec<f64>> {
    let mut least = vec![[Duration::MAX; 2]; tasks.len()];
    let mut answers = [None, None];
    for _ in 0..ROUNDS {
        for (task, least) in tasks.iter().zip(&mut least) {
            for (which, turns) in [0, turns].into_iter().enumerate() {
                let (time, output) = task.run(turns)?;
                least[which] = time.min(least[which]);
                let answer = answers[which].get_or_insert(output.clone());
                assert!(*answer == output, "{}: another answer to {}", task.program, task.job);
            }
        }
    }
    let turn = |[none, all]: [Duration; 2]| all.saturating_sub(none).as_secs_f64() / turns as f64;
    Ok(least.into_iter().map(turn).collect())
}

impl Task<'_> {
    /// Does the job so often: how long it took, and the answer.
    fn run(&self, turns: u64) -> io::Result<(Duration, Vec<u8>)> {
        let line = format!("{}\t{turns}\n", self.job);
        run(self.program, Stdio::piped(), line.as_bytes())
    }
}

/// Runs a program: how long it took, and what it wrote.
fn run(program: &str, stdin: Stdio, input: &[u8]) -> io::Result<(Duration, Vec<u8>)> {
    let start = Instant::now();
    let mut child = Command::new(program).stdin(stdin).stdout(Stdio::piped()).spawn()?;
    if let Some(mut pipe) = child.stdin.take() {
        pipe.write_all(input)?;
    }
    let output = child.wait_with_output()?;
    let time = start.elapsed();
    assert!(output.status.success(), "{program}: {}", output.status);
    Ok((time, output.stdout))
}

fn text(seconds: f64) -> String {
    match seconds {
        _ if seconds >= 1e-3 => format!("{:.2} ms", seconds * 1e3),
        _ if seconds >= 1e-6 => format!("{:.2} µs", seconds * 1e6),
        _ => format!("{:.0} ns", seconds * 1e9),
    }
}
