//! Standard input and output.

use crate::failure::Failure;
use std::io::{self, ErrorKind, Read, Write};

/// Reads at most this many bytes of standard input.
pub fn read(most: u64) -> Result<Vec<u8>, Failure> {
    let mut bytes = Vec::new();
    match io::stdin().take(most).read_to_end(&mut bytes) {
        Ok(_) => Ok(bytes),
        Err(error) => Err(Failure::CannotRead(format!("standard input: cannot be read: {error}"))),
    }
}

/// Writes bytes to standard output.
pub fn write(bytes: &[u8]) -> Result<(), Failure> {
    let mut out = io::stdout();
    let written = out.write_all(bytes).and_then(|()| out.flush());
    written.map_err(|error| Failure::Interrupted(format!("standard output: {error}")))
}

/// Writes a text to standard output. That nobody wants to read on is no failure.
pub fn say(text: &str) -> Result<(), Failure> {
    let mut out = io::stdout();
    match out.write_all(text.as_bytes()).and_then(|()| out.flush()) {
        Err(error) if error.kind() != ErrorKind::BrokenPipe => {
            Err(Failure::Interrupted(format!("standard output: {error}")))
        }
        _ => Ok(()),
    }
}

/// Writes a text to standard error. There is nobody left to tell if this fails.
pub fn complain(text: &str) {
    let _ = io::stderr().write_all(text.as_bytes());
}
