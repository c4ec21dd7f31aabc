//! A line that says how far a long command has come, on a terminal only.

use crate::stream::complain;
use std::io::{self, IsTerminal};
use std::time::{Duration, Instant};

const EVERY: Duration = Duration::from_millis(100);

pub struct Progress {
    what: &'static str,
    in_all: usize,
    shown: Option<Instant>,
}

impl Progress {
    pub fn new(what: &'static str, in_all: usize) -> Progress {
        let shown = io::stderr().is_terminal().then(Instant::now);
        Progress { what, in_all, shown }
    }

    pub fn show(&mut self, done: usize) {
        if self.shown.is_some_and(|shown| shown.elapsed() >= EVERY) {
            self.shown = Some(Instant::now());
            complain(&format!("\r{}: page {done} of {} ", self.what, self.in_all));
        }
    }
}

/// The line is taken away, so that what follows stands at its place.
impl Drop for Progress {
    fn drop(&mut self) {
        if self.shown.is_some() {
            complain("\r\x1b[K");
        }
    }
}
