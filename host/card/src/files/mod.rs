//! Files: written whole, never lost, never taken from somebody else.

pub mod guard;
pub mod hold;
pub mod left;
pub mod names;
pub mod note;
pub mod replace;

use crate::failure::Failure;
use std::fs::{self, File};
use std::io::{self, ErrorKind, Read};
use std::path::Path;

/// What goes on longer than this is no image: the largest card is far smaller,
/// and a device may go on for ever.
pub const MOST_BYTES: u64 = 1 << 24;

/// Reads at most this many bytes of a file.
pub fn read(path: &Path, most: u64) -> Result<Vec<u8>, Failure> {
    let mut bytes = Vec::new();
    let read = File::open(path).and_then(|file| {
        if file.metadata()?.is_dir() {
            return Err(io::Error::other("it is a folder"));
        }
        file.take(most).read_to_end(&mut bytes)
    });
    read.map_err(|error| Failure::cannot_read(path, &error))?;
    Ok(bytes)
}

/// The bytes of a plain file; none for a link or a folder, which the tool never makes.
pub fn read_if_plain(path: &Path) -> Result<Option<Vec<u8>>, Failure> {
    if fs::symlink_metadata(path).is_ok_and(|is| is.is_file()) {
        return read_if_there(path);
    }
    Ok(None)
}

/// The bytes of a file as far as an image can go; none if there is no file.
pub fn read_if_there(path: &Path) -> Result<Option<Vec<u8>>, Failure> {
    match File::open(path) {
        Err(error) if error.kind() == ErrorKind::NotFound => Ok(None),
        _ => read(path, MOST_BYTES + 1).map(Some),
    }
}
