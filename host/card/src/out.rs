//! What a verb gives out: a report, or bytes to a file or a stream.

use crate::failure::Failure;
use crate::files::{guard, replace};
use crate::hex;
use crate::store::{Place, Store};
use crate::stream::{self, complain, say};
use hamutsigra::DATA_BYTES;
use std::io::{self, IsTerminal};

/// Says what was done; beside an image on standard output on standard error. It is
/// done whether or not it can be said.
pub fn report(store: &Store, text: &str) -> Result<(), Failure> {
    if store.is_stream() {
        complain(text);
        return Ok(());
    }
    say(text).map_err(|failure| unsaid(&failure, text))
}

fn unsaid(failure: &Failure, text: &str) -> Failure {
    Failure::Unsaid(format!("{failure}\n      All was done all the same: {}", text.trim_end()))
}

/// Writes a page, for people in hexadecimal.
pub fn write_page(
    page: &[u8; DATA_BYTES],
    to: &Place,
    hex: bool,
    force: bool,
) -> Result<(), Failure> {
    let hex = hex || *to == Place::Stream && io::stdout().is_terminal();
    let text = hex.then(|| hex::dump(page));
    match to {
        Place::Stream => text.map_or_else(|| stream::write(page), |text| say(&text)),
        Place::File(_) => write(text.as_ref().map_or(page, |text| text.as_bytes()), to, force),
    }
}

/// Writes bytes, and says what they are.
pub fn write_file(bytes: &[u8], to: &Place, force: bool, text: &str) -> Result<(), Failure> {
    write(bytes, to, force)?;
    if *to == Place::Stream {
        complain(text);
        return Ok(());
    }
    say(text).map_err(|failure| unsaid(&failure, text))
}

fn write(bytes: &[u8], to: &Place, force: bool) -> Result<(), Failure> {
    let Place::File(path) = to else {
        return stream::write(bytes);
    };
    if !force {
        guard::no_card(path, bytes.len())?;
        guard::one_name(path)?;
    }
    replace::write_out(path, bytes)
}
