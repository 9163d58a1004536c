//! Another program fed a journal on its standard input.

use std::io::{self, Read, Write};
use std::path::Path;
use std::process::{Child, Command, Stdio};
use std::sync::mpsc::{self, Receiver};
use std::thread;
use std::time::Duration;

/// How long a program may take over one journal before it counts as hanging.
const PATIENCE: Duration = Duration::from_secs(60);

/// All that the program prints for a journal written to it in pieces of this many bytes; an
/// error says why there is no such output.
pub fn output_of(program: &Path, journal: &[u8], piece: usize) -> Result<Vec<u8>, String> {
    let spawned = Command::new(program).stdin(Stdio::piped()).stdout(Stdio::piped()).spawn();
    let mut child = spawned.map_err(|error| format!("does not start: {error}"))?;
    let input = child.stdin.take().expect("standard input is piped");
    let mut output = child.stdout.take().expect("standard output is piped");
    thread::scope(|scope| {
        scope.spawn(move || feed(input, journal, piece));
        let (sender, receiver) = mpsc::channel();
        scope.spawn(move || {
            let mut bytes = Vec::new();
            let read = output.read_to_end(&mut bytes).map(|_| bytes);
            sender.send(read)
        });
        finish(&mut child, receiver)
    })
}

/// Writes the journal; a program may stop reading at a bad record, so a closed pipe is no fault.
fn feed(mut input: impl Write, journal: &[u8], piece: usize) {
    for bytes in journal.chunks(piece) {
        if input.write_all(bytes).is_err() {
            return;
        }
    }
}

/// Waits for the output and the program's end; a program that hangs is stopped.
fn finish(child: &mut Child, output: Receiver<io::Result<Vec<u8>>>) -> Result<Vec<u8>, String> {
    let received = output.recv_timeout(PATIENCE);
    if received.is_err() {
        // Failing to stop it means that it has ended by itself.
        let _ = child.kill();
    }
    let status = child.wait().map_err(|error| format!("cannot be waited for: {error}"))?;
    let Ok(read) = received else {
        return Err(format!("does not end within {} seconds", PATIENCE.as_secs()));
    };
    if status.code().is_none() {
        return Err(format!("is broken off: {status}"));
    }
    read.map_err(|error| format!("cannot be read from: {error}"))
}
