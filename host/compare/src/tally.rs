//! What a run of the comparison has reached.

use crate::command::{Action, Command, Lent, Reply};
use crate::near_miss::{NearMiss, PLACES};
use second::Answer;
use std::collections::BTreeMap;
use std::fmt;

/// Counts of commands, by what came of them.
#[derive(Default)]
pub struct Tally {
    pub cards: u64,
    commands: u64,
    /// By the number of the answer.
    answers: [u64; 9],
    /// Writes that were all done: one program alone; one program and an erase; a
    /// merge.
    appended: u64,
    completed: u64,
    merged: u64,
    /// Block writes that were all done, by the blocks that they replaced: none; the
    /// data block or the log block; both.
    block_writes: [u64; 3],
    pub near_misses: NearMisses,
}

/// What was reached with near misses.
#[derive(Default)]
pub struct NearMisses {
    pub cards: u64,
    /// How many there were at each place.
    places: BTreeMap<usize, u64>,
    /// Commands to which a chip with the near miss on it was lent.
    commands: u64,
    /// The one that is tried now.
    tried: Option<NearMiss>,
}

impl Tally {
    pub fn count(&mut self, command: Command, lent: &Lent, reply: &Reply) {
        self.commands += 1;
        self.near_misses.count(lent);
        let Reply::Answer(Answer { number, programs, erases }) = *reply else {
            return;
        };
        if let Some(count) = self.answers.get_mut(usize::from(number)) {
            *count += 1;
        }
        match (command.action, number) {
            (Action::Write { .. }, 0) => match (programs, erases) {
                (1, 0) => self.appended += 1,
                (1, _) => self.completed += 1,
                _ => self.merged += 1,
            },
            (Action::BlockWrite { .. }, 0) => self.block_writes[erases.min(2)] += 1,
            _ => (),
        }
    }

    /// How much was compared.
    pub fn size(&self) -> String {
        format!("{} commands on {} cards", self.commands, self.cards)
    }
}

impl fmt::Display for Tally {
    fn fmt(&self, out: &mut fmt::Formatter) -> fmt::Result {
        let counts = self.answers.iter().enumerate();
        let answers: Vec<String> =
            counts.map(|(number, count)| format!("{number}: {count}")).collect();
        writeln!(out, "answers      {}", answers.join("  "))?;
        let Tally { appended, completed, merged, block_writes: [none, one, both], .. } = self;
        write!(
            out,
            "whole writes {appended} to a log block, {completed} replacing a data block, "
        )?;
        writeln!(out, "{merged} with a merge")?;
        writeln!(
            out,
            "block writes {none} replacing no block, {one} one block, {both} two blocks"
        )?;
        write!(out, "near misses  {}", self.near_misses)
    }
}

impl NearMisses {
    /// A near miss is on the chip, and commands are tried on it.
    pub fn begin(&mut self, near_miss: NearMiss) {
        *self.places.entry(near_miss.place).or_default() += 1;
        self.tried = Some(near_miss);
    }

    pub fn end(&mut self) {
        self.tried = None;
    }

    fn count(&mut self, lent: &Lent) {
        self.commands += u64::from(self.tried.is_some_and(|near_miss| near_miss.is_in(lent)));
    }
}

impl fmt::Display for NearMisses {
    fn fmt(&self, out: &mut fmt::Formatter) -> fmt::Result {
        let NearMisses { cards, places, commands, .. } = self;
        let in_all: u64 = places.values().sum();
        let at_each = places.values().min().unwrap_or(&0);
        write!(out, "{in_all} on {cards} cards, at {} of the {PLACES} places, ", places.len())?;
        write!(out, "{at_each} or more at each; {commands} commands on chips that have one")
    }
}
