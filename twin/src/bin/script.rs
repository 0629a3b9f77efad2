//! The script program on standard input and output.

use std::io::{self, ErrorKind, Read, Write};

use twin::script::Program;

/// Bytes read at once.
const CHUNK: usize = 64 * 1024;

fn main() -> io::Result<()> {
    let (mut input, mut output) = (io::stdin().lock(), io::stdout().lock());
    let mut program = Program::default();
    let mut chunk = vec![0; CHUNK];
    let mut replies = Vec::new();
    loop {
        let count = match input.read(&mut chunk) {
            Ok(0) => break,
            Ok(count) => count,
            Err(error) if error.kind() == ErrorKind::Interrupted => continue,
            Err(error) => return Err(error),
        };
        program.feed(&chunk[..count], &mut replies);
        flush(&mut replies, &mut output)?;
    }
    program.end(&mut replies);
    flush(&mut replies, &mut output)
}

/// Prints the replies at once, so that whoever feeds the program line by line sees them.
fn flush(replies: &mut Vec<u8>, output: &mut impl Write) -> io::Result<()> {
    output.write_all(replies)?;
    replies.clear();
    output.flush()
}
