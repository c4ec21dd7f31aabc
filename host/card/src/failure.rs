//! Why a command of the tool did not succeed, and the exit status that says so.

use hamutsigra::Refusal;
use std::fmt;
use std::io;
use std::path::Path;

/// A failure, with the message for standard error.
#[derive(Debug)]
pub enum Failure {
    /// The card refused: its answer is the exit status.
    Refused(Refusal, String),
    /// The arguments are wrong.
    Usage(String),
    /// A file is no image.
    NoImage(String),
    /// A file cannot be opened and read.
    CannotRead(String),
    /// The library did not do what document 01 says.
    Surprise(String),
    /// What an interrupted write has left does not belong to what is there.
    Left(String),
    /// A file cannot be created or replaced.
    CannotCreate(String),
    /// Reading or writing broke off.
    Interrupted(String),
    /// All was done and stored, but could not be said.
    Unsaid(String),
}

impl Failure {
    /// The answer of the card, or a number from 64 on as in `sysexits.h`.
    pub fn exit_status(&self) -> u8 {
        match self {
            Failure::Refused(refusal, _) => refusal.number(),
            Failure::Usage(_) => 64,
            Failure::NoImage(_) => 65,
            Failure::CannotRead(_) => 66,
            Failure::Surprise(_) => 70,
            Failure::Left(_) => 72,
            Failure::CannotCreate(_) => 73,
            Failure::Interrupted(_) => 74,
            Failure::Unsaid(_) => 75,
        }
    }

    pub fn cannot_read(path: &Path, error: &io::Error) -> Failure {
        Failure::CannotRead(format!("{}: cannot be read: {error}", path.display()))
    }

    pub fn cannot_create(path: &Path, error: &io::Error) -> Failure {
        Failure::CannotCreate(format!("{}: cannot be created or replaced: {error}", path.display()))
    }

    pub fn cannot_remove(path: &Path, error: &io::Error) -> Failure {
        Failure::CannotCreate(format!("{}: cannot be removed: {error}", path.display()))
    }

    /// What has a name that the tool needs is somebody else's, as far as it can tell.
    pub fn in_the_way(path: &Path) -> Failure {
        let message = "is in the way of a new file, and was not left by this tool; move it away";
        Failure::CannotCreate(format!("{}: {message}", path.display()))
    }

    pub fn exists(path: &Path) -> Failure {
        let path = path.display();
        let message = "cannot be created: it exists already; give another name, or move it away";
        Failure::CannotCreate(format!("{path}: {message}"))
    }

    pub fn interrupted(path: &Path, error: &io::Error) -> Failure {
        Failure::Interrupted(format!("{}: cannot be written: {error}", path.display()))
    }
}

impl fmt::Display for Failure {
    fn fmt(&self, out: &mut fmt::Formatter) -> fmt::Result {
        let message = match self {
            Failure::Refused(refusal, words) => {
                return write!(out, "answer {}: {words}", refusal.number());
            }
            Failure::Usage(message)
            | Failure::NoImage(message)
            | Failure::CannotRead(message)
            | Failure::Surprise(message)
            | Failure::Left(message)
            | Failure::CannotCreate(message)
            | Failure::Interrupted(message)
            | Failure::Unsaid(message) => message,
        };
        out.write_str(message)
    }
}
