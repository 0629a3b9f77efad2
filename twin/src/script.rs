//! The script program: lines of calls in, one line of reply each out.

mod line;

use crate::cluster::{Answer, Cluster, Reply, Shape};
use line::Form;

/// The longest line that may fit a form, without its newline.
pub const LINE_LIMIT: usize = 500;

/// The most places that the script program gives a medium.
const SCRIPT_PLACES: u64 = 100;

/// What the program prints for the whole input.
pub fn run(input: &[u8]) -> Vec<u8> {
    let mut program = Program::default();
    let mut output = Vec::new();
    program.feed(input, &mut output);
    program.end(&mut output);
    output
}

/// The program between two pieces of input: the line begun, and the cluster if one was accepted.
#[derive(Default)]
pub struct Program {
    /// At most one byte more than a line may have: enough to know that it is too long.
    line: Vec<u8>,
    cluster: Option<Cluster>,
}

impl Program {
    /// The cluster as the lines so far left it, if one was accepted.
    pub fn cluster(&self) -> Option<&Cluster> {
        self.cluster.as_ref()
    }

    /// Takes the next piece of input and appends the replies to the lines that it ends.
    pub fn feed(&mut self, input: &[u8], output: &mut Vec<u8>) {
        let mut pieces = input.split(|&byte| byte == b'\n');
        // `split` gives one piece more than there are newlines; that last one ends no line.
        let last = pieces.next_back().unwrap_or_default();
        for piece in pieces {
            self.extend_line(piece);
            self.end_line(output);
        }
        self.extend_line(last);
    }

    /// A last line without newline counts.
    pub fn end(&mut self, output: &mut Vec<u8>) {
        if !self.line.is_empty() {
            self.end_line(output);
        }
    }

    fn extend_line(&mut self, piece: &[u8]) {
        let room = LINE_LIMIT + 1 - self.line.len();
        self.line.extend_from_slice(&piece[..piece.len().min(room)]);
    }

    fn end_line(&mut self, output: &mut Vec<u8>) {
        let form = line::parse(&self.line);
        self.line.clear();
        let reply = match (form, &mut self.cluster) {
            (Some(Form::Cluster(shape)), _) => self.start(shape),
            (Some(Form::Call(mut call)), Some(cluster)) => reply_text(cluster.apply(&mut call)),
            _ => "bad".to_string(),
        };
        output.extend_from_slice(reply.as_bytes());
        output.push(b'\n');
    }

    /// An accepted cluster line starts afresh; a refused one leaves the cluster before it.
    fn start(&mut self, shape: Shape) -> String {
        let cluster = if shape.places <= SCRIPT_PLACES { Cluster::fresh(shape) } else { None };
        if cluster.is_none() {
            return "no\t1".to_string();
        }
        self.cluster = cluster;
        "ok".to_string()
    }
}

fn reply_text(reply: Reply) -> String {
    match reply {
        Ok(Answer::Number(value)) => format!("ok\t{value}"),
        Ok(Answer::Nothing | Answer::Bytes(_)) => "ok".to_string(),
        Ok(Answer::Silent) => "silent".to_string(),
        Err(refusal) => format!("no\t{}", refusal.number()),
    }
}
