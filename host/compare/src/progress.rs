//! A line that says how far the comparison has come, on a terminal only.

use crate::tally::Tally;
use std::io::{self, IsTerminal, Write};
use std::time::{Duration, Instant};

const EVERY: Duration = Duration::from_millis(200);

pub struct Progress {
    wanted: bool,
    last: Instant,
    /// The cards in all, in words, if their number is given.
    in_all: String,
}

impl Progress {
    pub fn new(cards: Option<u64>) -> Progress {
        let in_all = cards.map_or(String::new(), |cards| format!(" of {cards}"));
        Progress { wanted: io::stderr().is_terminal(), last: Instant::now(), in_all }
    }

    pub fn show(&mut self, tally: &Tally) {
        if self.wanted && self.last.elapsed() >= EVERY {
            self.last = Instant::now();
            eprint!("\r{}{} ", tally.size(), self.in_all);
            let _ = io::stderr().flush();
        }
    }

    /// Takes the line away, so that what follows stands at its place.
    pub fn clear(&self) {
        if self.wanted {
            eprint!("\r\x1b[K");
        }
    }
}
