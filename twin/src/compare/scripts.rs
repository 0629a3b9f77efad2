//! Random scripts, each made from its seed alone.

use std::collections::BTreeSet;

use super::calls::{self, Caller};
use super::line::Line;
use super::malformed::{self, Malformed};
use super::pieces;
use super::unusual::{self, Unusual};
use crate::random::Random;
use crate::script::Program;

/// More than programs read at once, so that a script of this length takes several reads.
const LARGE: usize = pieces::LONGEST + 5_000;

/// A run with so many lines in a row that are not answered ok has come to its end.
const STUCK: u64 = 25;

pub struct Script {
    pub input: Vec<u8>,
    /// How the input is to be cut on its way.
    pub pieces: Vec<usize>,
    /// Whether each piece is to be a read of its own.
    pub by_piece: bool,
    pub malformed: BTreeSet<Malformed>,
    pub unusual: BTreeSet<Unusual>,
}

/// The script of a seed.
pub fn script(seed: u64) -> Script {
    let random = &mut Random::new(seed);
    let mut writer = Writer::new(random);
    match random.below(32) {
        0 => {}
        1 => writer.empty_lines(random),
        2 => writer.before_cluster(random),
        3 | 4 => writer.runs(random, LARGE),
        _ => writer.runs(random, 1),
    }
    let mut input = writer.input;
    if random.chance(3) {
        // The newline of the last line.
        input.pop();
    }
    let pieces = pieces::draw(random, input.len());
    let by_piece = !random.chance(4);
    Script { input, pieces, by_piece, malformed: writer.malformed, unusual: writer.unusual }
}

/// A script as far as it is written, and the program that has answered it so far.
struct Writer {
    input: Vec<u8>,
    program: Program,
    /// Lines since the last one that was answered ok.
    since_ok: u64,
    /// Before one line in this many comes a malformed or an unusual one.
    oddity: u64,
    malformed: BTreeSet<Malformed>,
    unusual: BTreeSet<Unusual>,
}

impl Writer {
    fn new(random: &mut Random) -> Writer {
        Writer {
            input: Vec::new(),
            program: Program::default(),
            since_ok: 0,
            oddity: *random.pick(&[5, 12, 40, 300]),
            malformed: BTreeSet::new(),
            unusual: BTreeSet::new(),
        }
    }

    fn line(&mut self, line: &[u8]) {
        let start = self.input.len();
        self.input.extend_from_slice(line);
        self.input.push(b'\n');
        let mut reply = Vec::new();
        self.program.feed(&self.input[start..], &mut reply);
        self.since_ok = if reply.starts_with(b"ok") { 0 } else { self.since_ok + 1 };
    }

    /// A few, or so many that the replies to one read are more than is printed at once.
    fn empty_lines(&mut self, random: &mut Random) {
        let most = *random.pick(&[300, 70_000]);
        (0..1 + random.below(most)).for_each(|_| self.line(b""));
    }

    /// Lines before the first accepted cluster line, refused ones among them.
    fn before_cluster(&mut self, random: &mut Random) {
        for _ in 0..1 + random.below(6) {
            let [call, issue] = malformed::plain_lines(random);
            match random.below(4) {
                0 => self.odd_line(random, &call, &issue),
                1 => self.refused_cluster(random),
                _ => self.line(&random.pick(&[call, issue]).bytes()),
            }
        }
    }

    fn refused_cluster(&mut self, random: &mut Random) {
        let kind = *random.pick(&[Unusual::OtherReplicas, Unusual::OtherPlaces]);
        let [call, issue] = malformed::plain_lines(random);
        self.unusual.insert(kind);
        self.line(&kind.line(random, &call, &issue));
    }

    /// Runs on fresh clusters, one at least, until the script has this many bytes.
    fn runs(&mut self, random: &mut Random, least: usize) {
        if random.chance(4) {
            self.before_cluster(random);
        }
        let more = random.below(6);
        for _ in 0..=more {
            self.run(random);
        }
        while self.input.len() < least {
            self.run(random);
        }
    }

    fn run(&mut self, random: &mut Random) {
        let replicas = *random.pick(&[1, 3, 3, 3, 5, 5, 7]);
        let any_places = 1 + random.below(100);
        let places = *random.pick(&[1, 2, 3, 4, 6, 10, 25, 100, any_places]);
        self.line(&Line::new("cluster").number(replicas).number(places).bytes());
        let caller = Caller::new(random);
        // Enough calls to fill the log now and then: an issue and a quorum of sends a place.
        let calls = *random.pick(&[10, 40, 120, 30 + places * (replicas + 2)]);
        for _ in 0..calls {
            if self.since_ok > STUCK {
                break;
            }
            self.call(random, &caller);
        }
    }

    fn call(&mut self, random: &mut Random, caller: &Caller) {
        let Some(cluster) = self.program.cluster() else { return };
        let call = caller.next_call(random, cluster);
        if random.chance(self.oddity) {
            let issue = calls::issue_line(random, cluster);
            let cluster = Line::new("cluster").number(3).number(4);
            let source = if random.chance(8) { &cluster } else { &call };
            self.odd_line(random, source, &issue);
        }
        self.line(&call.bytes());
    }

    /// A malformed or an unusual line.
    fn odd_line(&mut self, random: &mut Random, call: &Line, issue: &Line) {
        if random.chance(3) {
            let kind = *random.pick(unusual::ALL);
            self.unusual.insert(kind);
            return self.line(&kind.line(random, call, issue));
        }
        let kind = match *random.pick(malformed::ALL) {
            // Rarely, as a script may have many malformed lines.
            Malformed::Megabyte if !random.chance(6) => Malformed::Bytes5000,
            kind => kind,
        };
        self.malformed.insert(kind);
        self.line(&kind.line(random, call, issue));
    }
}
