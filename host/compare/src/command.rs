//! A command, what is lent to it, and what it gives back.

use crate::guarded::Guarded;
use second::{Answer, Shape};
use std::fmt;

/// A command, but for what is lent to it.
#[derive(Clone, Copy)]
pub struct Command {
    pub shape: Shape,
    pub action: Action,
}

#[derive(Clone, Copy)]
pub enum Action {
    Format { cut: usize },
    PowerUp { cut: usize },
    Read { number: usize },
    Write { number: usize, cut: usize },
    BlockWrite { number: usize, cut: usize },
    Lend { number: usize },
}

/// What is lent to a command. All five parts are there for every command, so that
/// all are compared after it.
#[derive(Clone, PartialEq)]
pub struct Lent {
    pub data: Guarded<u8>,
    pub spare: Guarded<u8>,
    pub table: Guarded<u16>,
    pub page: Guarded<u8>,
    pub block: Guarded<u8>,
}

/// What a command gives back.
#[derive(Clone, Debug, PartialEq)]
pub enum Reply {
    Answer(Answer),
    /// The place of the page lent and its bytes.
    Lent(Option<(usize, Vec<u8>)>),
    /// The layer broke off.
    Panicked,
}

impl Command {
    /// The command with another cut.
    pub fn cut_at(self, cut: usize) -> Command {
        let action = match self.action {
            Action::Format { .. } => Action::Format { cut },
            Action::PowerUp { .. } => Action::PowerUp { cut },
            Action::Write { number, .. } => Action::Write { number, cut },
            Action::BlockWrite { number, .. } => Action::BlockWrite { number, cut },
            action => action,
        };
        Command { action, ..self }
    }
}

impl fmt::Display for Command {
    fn fmt(&self, out: &mut fmt::Formatter) -> fmt::Result {
        let Shape { pages, logical, logs } = self.shape;
        match self.action {
            Action::Format { .. } => write!(out, "format")?,
            Action::PowerUp { .. } => write!(out, "power-up")?,
            Action::Read { number } => write!(out, "read of page {number}")?,
            Action::Write { number, .. } => write!(out, "write of page {number}")?,
            Action::BlockWrite { number, .. } => write!(out, "block write of block {number}")?,
            Action::Lend { number } => write!(out, "lend of page {number}")?,
        }
        match self.action {
            Action::Format { cut }
            | Action::PowerUp { cut }
            | Action::Write { cut, .. }
            | Action::BlockWrite { cut, .. }
                if cut != usize::MAX =>
            {
                write!(out, ", cut at {cut}")?;
            }
            _ => (),
        }
        write!(out, ", P {pages}, L {logical}, K {logs}")
    }
}

impl fmt::Display for Lent {
    fn fmt(&self, out: &mut fmt::Formatter) -> fmt::Result {
        let (data, spare) = (self.data.part().len(), self.spare.part().len());
        let (page, block) = (self.page.part().len(), self.block.part().len());
        write!(out, "{data} data and {spare} spare bytes, table of {}, ", self.table.part().len())?;
        write!(out, "page of {page}, block of {block}")
    }
}

impl fmt::Display for Reply {
    fn fmt(&self, out: &mut fmt::Formatter) -> fmt::Result {
        match self {
            Reply::Answer(Answer { number, programs, erases }) => {
                write!(out, "answer {number}, {programs} programs, {erases} erases")
            }
            Reply::Lent(None) => write!(out, "nothing lent"),
            Reply::Lent(Some((at, bytes))) => write!(out, "{} bytes lent at {at}", bytes.len()),
            Reply::Panicked => write!(out, "it panicked"),
        }
    }
}
