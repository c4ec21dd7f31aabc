//! The names of files: of a file itself, of its folder, and of what is made beside it.

use std::ffi::OsString;
use std::fs;
use std::path::{Path, PathBuf};

/// The name of the file that is to replace another.
pub fn new_name(path: &Path) -> PathBuf {
    beside(path, ".card-new")
}

/// The name of the note on a write that is not finished.
pub fn note_name(path: &Path) -> PathBuf {
    beside(path, NOTE)
}

/// The end of the name of every note.
pub const NOTE: &str = ".card-note";

fn beside(path: &Path, end: &str) -> PathBuf {
    let mut name = OsString::from(followed(path));
    name.push(end);
    PathBuf::from(name)
}

/// The file itself, where the name is a link to it: it is the file that is
/// replaced, and the link stays.
pub fn followed(path: &Path) -> PathBuf {
    fs::canonicalize(path).unwrap_or_else(|_| path.to_path_buf())
}

/// The folder that a file itself is in, and not a link to it; by one name, however the
/// file was named.
pub fn folder(path: &Path) -> PathBuf {
    let file = followed(path);
    let folder = file.parent().filter(|folder| *folder != Path::new(""));
    followed(folder.unwrap_or(Path::new(".")))
}

/// Whether two names are of one file.
pub fn is_same(one: &Path, other: &Path) -> bool {
    followed(one) == followed(other)
}

/// Whether anything has this name, be it a link that leads nowhere.
pub fn is_taken(path: &Path) -> bool {
    fs::symlink_metadata(path).is_ok()
}
