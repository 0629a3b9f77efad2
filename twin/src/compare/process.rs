//! A program as a process: gets an input in pieces and hands back what it prints.

use std::io::{self, Write};
use std::os::fd::OwnedFd;
use std::os::unix::net::UnixDatagram;
use std::path::Path;
use std::process::{Child, ChildStdin, Command, Stdio};
use std::thread;

use super::scripts::Script;

/// What the program printed. An error if it does not start, leaves input unread or fails.
pub fn answer(program: &Path, script: &Script) -> io::Result<Vec<u8>> {
    let (child, input) = start(program, script.by_piece)?;
    // A thread writes while this one reads: a program that prints before it has read all would
    // otherwise wait for a reader while its writer waits for it.
    thread::scope(|scope| {
        let writer = scope.spawn(|| input.write(script));
        let output = child.wait_with_output()?;
        if !output.status.success() {
            return Err(io::Error::other(format!("it ends with {}", output.status)));
        }
        writer.join().map_err(|_| io::Error::other("its writer fails"))??;
        Ok(output.stdout)
    })
}

fn start(program: &Path, by_piece: bool) -> io::Result<(Child, Input)> {
    let mut command = Command::new(program);
    command.stdout(Stdio::piped());
    if by_piece {
        let (ours, theirs) = UnixDatagram::pair()?;
        let child = command.stdin(OwnedFd::from(theirs)).spawn()?;
        return Ok((child, Input::Datagrams(ours)));
    }
    let mut child = command.stdin(Stdio::piped()).spawn()?;
    let pipe = child.stdin.take().ok_or_else(|| io::Error::other("it has no input"))?;
    Ok((child, Input::Pipe(pipe)))
}

/// A program's standard input.
enum Input {
    /// What is written may come together in one read.
    Pipe(ChildStdin),
    /// Each datagram is one read, whenever it is written, and an empty one ends the input.
    Datagrams(UnixDatagram),
}

impl Input {
    /// Writes the script in its pieces, then ends the input.
    fn write(self, script: &Script) -> io::Result<()> {
        let mut rest = script.input.as_slice();
        for &length in &script.pieces {
            let (piece, later) = rest.split_at(length);
            match &self {
                Input::Pipe(pipe) => (&mut &*pipe).write_all(piece)?,
                Input::Datagrams(socket) => drop(socket.send(piece)?),
            }
            rest = later;
        }
        match self {
            Input::Pipe(pipe) => drop(pipe),
            Input::Datagrams(socket) => drop(socket.send(&[])?),
        }
        Ok(())
    }
}
