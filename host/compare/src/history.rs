//! The history of one card: commands that lead to where the rules meet, and on the
//! way every cut of every command.

use crate::chip::{fill_page, Chip};
use crate::command::{Action, Command, Lent, Reply};
use crate::guarded::Guarded;
use crate::lockstep::{Difference, Lockstep};
use crate::near_miss::{self, NearMiss};
use crate::odd::spoil;
use crate::random::Random;
use second::shape::DATA_BYTES;
use second::{Answer, Shape};

/// A cut number that no list reaches.
const NO_CUT: usize = usize::MAX;
/// An image of more bytes is a large one, with which little is done.
const LARGE: usize = 1 << 18;

/// Plays the history of the card that this seed gives, with both layers. It begins
/// with near misses on some cards, or on every card.
pub fn play(lockstep: &mut Lockstep, seed: u64, on_every_card: bool) -> Result<(), Difference> {
    let mut random = Random::new(seed);
    let near_misses = near_miss::numbers(seed, on_every_card);
    let chip = match near_misses {
        Some(_) => near_miss::chip(&mut random),
        None => Chip::any(&mut random),
    };
    let steps = if chip.data.len() > LARGE { 8 } else { random.between(10, 60) };
    let made_for = chip.shape;
    let pattern = Pattern::any(made_for, &mut random);
    let mut history = History { lockstep, random, chip, made_for, pattern, obsolete: false };
    if let Some(numbers) = near_misses {
        history.near_misses(numbers)?;
    }
    for _ in 0..steps {
        history.step()?;
    }
    Ok(())
}

/// The order in which pages are written.
#[derive(Clone, Copy)]
enum Pattern {
    /// In order in one logical block: its log blocks become complete.
    InOrder { l: usize, next: usize },
    /// Anyhow in one logical block: its log blocks are filled and merged.
    Within { l: usize },
    /// Anywhere: more logical blocks are written to than there are log blocks.
    Anywhere,
}

impl Pattern {
    fn any(shape: Shape, random: &mut Random) -> Pattern {
        let l = random.below(shape.logical);
        match random.below(3) {
            0 => Pattern::InOrder { l, next: 0 },
            1 => Pattern::Within { l },
            _ => Pattern::Anywhere,
        }
    }

    /// The logical block that is written whole. In order, its pages begin anew then.
    fn next_block(&mut self, shape: Shape, random: &mut Random) -> usize {
        match self {
            Pattern::InOrder { l, next } => {
                *next = 0;
                *l
            }
            Pattern::Within { l } => *l,
            Pattern::Anywhere => random.below(shape.logical),
        }
    }

    fn next_page(&mut self, shape: Shape, random: &mut Random) -> usize {
        match self {
            Pattern::InOrder { l, next } => {
                let offset = *next;
                *next = (offset + 1) % shape.pages;
                *l * shape.pages + offset
            }
            Pattern::Within { l } => *l * shape.pages + random.below(shape.pages),
            Pattern::Anywhere => random.below(shape.logical * shape.pages),
        }
    }
}

struct History<'a> {
    lockstep: &'a mut Lockstep,
    random: Random,
    chip: Chip,
    /// The shape for which the chip was made; that of the commands may be another
    /// for a while.
    made_for: Shape,
    pattern: Pattern,
    /// The last write was answered with 6.
    obsolete: bool,
}

impl History<'_> {
    /// Near misses one after the other, each on the chip as it is before them. The
    /// card then goes on as it was, or as the last of them has left it.
    fn near_misses(&mut self, numbers: impl Iterator<Item = u64>) -> Result<(), Difference> {
        self.lockstep.tally.near_misses.cards += 1;
        let unspoiled = self.chip.clone();
        for number in numbers {
            self.chip = unspoiled.clone();
            let near_miss = NearMiss::put(&mut self.chip, number, &mut self.random);
            self.lockstep.tally.near_misses.begin(near_miss);
            self.every_command()?;
            self.lockstep.tally.near_misses.end();
        }
        if self.random.one_in(2) {
            self.chip = unspoiled;
        }
        Ok(())
    }

    /// Every command. Format is the last one: it puts right what is wrong.
    fn every_command(&mut self) -> Result<(), Difference> {
        self.change(Action::PowerUp { cut: NO_CUT })?;
        self.look_at_a_page()?;
        self.write()?;
        self.block_write()?;
        self.change(Action::Format { cut: NO_CUT })
    }

    fn step(&mut self) -> Result<(), Difference> {
        if self.obsolete && !self.random.one_in(4) {
            return self.change(Action::PowerUp { cut: NO_CUT });
        }
        match self.random.below(100) {
            0..55 => self.write(),
            55..65 => self.block_write(),
            65..75 => self.change(Action::PowerUp { cut: NO_CUT }),
            75..77 => self.change(Action::Format { cut: NO_CUT }),
            77..90 => self.odd_command(),
            90..92 => {
                self.chip.damage(&mut self.random);
                Ok(())
            }
            92..94 => {
                self.change_shape();
                Ok(())
            }
            94..96 => self.look_at_every_page(),
            _ => self.look_at_a_page(),
        }
    }

    fn write(&mut self) -> Result<(), Difference> {
        if self.random.one_in(10) {
            self.pattern = Pattern::any(self.made_for, &mut self.random);
        }
        let number = self.pattern.next_page(self.made_for, &mut self.random);
        self.change(Action::Write { number, cut: NO_CUT })
    }

    fn block_write(&mut self) -> Result<(), Difference> {
        let number = self.pattern.next_block(self.made_for, &mut self.random);
        self.change(Action::BlockWrite { number, cut: NO_CUT })
    }

    /// A command that changes the image, with every cut. The card then goes on from
    /// the whole command or from a cut one.
    fn change(&mut self, action: Action) -> Result<(), Difference> {
        let command = Command { shape: self.chip.shape, action };
        let lent = self.lent();
        let (reply, _) = self.lockstep.run(command, &lent)?;
        let Reply::Answer(Answer { number, programs, erases }) = reply else {
            return Ok(());
        };
        self.obsolete = number == 6;
        if number != 0 {
            return Ok(());
        }
        let length = programs + erases;
        let goes_on_from =
            if self.random.one_in(4) { self.random.below(length + 1) } else { length };
        for cut in 0..=length {
            let (_, left) = self.lockstep.run(command.cut_at(cut), &lent)?;
            self.recover(command, &left)?;
            if cut == goes_on_from {
                self.keep(&left);
            }
        }
        Ok(())
    }

    /// Power-up after a cut, and a look at the page written and at another.
    fn recover(&mut self, command: Command, left: &Lent) -> Result<(), Difference> {
        let shape = command.shape;
        let power_up = Command { shape, action: Action::PowerUp { cut: NO_CUT } };
        let (_, recovered) = self.lockstep.run(power_up, left)?;
        let any = self.random.below(self.made_for.logical * self.made_for.pages);
        let written = match command.action {
            Action::Write { number, .. } => number,
            Action::BlockWrite { number, .. } => {
                number * shape.pages + self.random.below(shape.pages)
            }
            _ => any,
        };
        for number in [written, any] {
            self.look(shape, number, &recovered)?;
        }
        Ok(())
    }

    fn look(&mut self, shape: Shape, number: usize, lent: &Lent) -> Result<(), Difference> {
        self.lockstep.run(Command { shape, action: Action::Read { number } }, lent)?;
        self.lockstep.run(Command { shape, action: Action::Lend { number } }, lent)?;
        Ok(())
    }

    fn look_at_a_page(&mut self) -> Result<(), Difference> {
        let number = self.random.below(self.made_for.logical * self.made_for.pages);
        let lent = self.lent();
        self.look(self.chip.shape, number, &lent)
    }

    fn look_at_every_page(&mut self) -> Result<(), Difference> {
        let lent = self.lent();
        let pages = self.made_for.logical * self.made_for.pages;
        let every = if self.chip.data.len() > LARGE { 100 } else { 1 };
        (0..=pages).step_by(every).try_for_each(|number| self.look(self.chip.shape, number, &lent))
    }

    /// A command with something wrong with it; what comes of it is not kept.
    fn odd_command(&mut self) -> Result<(), Difference> {
        let number = self.random.below(self.made_for.logical * self.made_for.pages);
        let block = self.random.below(self.made_for.logical);
        let cut = NO_CUT;
        let action = self.random.one_of(&[
            Action::Format { cut },
            Action::PowerUp { cut },
            Action::Read { number },
            Action::Write { number, cut },
            Action::BlockWrite { number: block, cut },
            Action::Lend { number },
        ]);
        let mut command = Command { shape: self.chip.shape, action };
        let mut lent = self.lent();
        for _ in 0..self.random.between(1, 2) {
            spoil(&mut command, &mut lent, &mut self.random);
        }
        self.lockstep.run(command, &lent)?;
        Ok(())
    }

    /// Another L or K for the commands to come, or again the first ones.
    fn change_shape(&mut self) {
        let other = self.random.between(1, self.chip.blocks);
        self.chip.shape = match self.random.below(4) {
            0 => Shape { logical: other, ..self.made_for },
            1 => Shape { logs: other, ..self.made_for },
            _ => self.made_for,
        };
    }

    /// The image, a page, a block and a table, lent at any place of the memory.
    fn lent(&mut self) -> Lent {
        let mut page = [0; DATA_BYTES];
        fill_page(&mut page, &mut self.random);
        let mut block = vec![[0; DATA_BYTES]; self.chip.shape.pages];
        block.iter_mut().for_each(|page| fill_page(page, &mut self.random));
        let table = vec![7; 2 * self.chip.shape.logical];
        let random = &mut self.random;
        Lent {
            data: Guarded::new(&self.chip.data, random.below(16)),
            spare: Guarded::new(&self.chip.spare, random.below(16)),
            table: Guarded::new(&table, random.below(16)),
            page: Guarded::new(&page, random.below(16)),
            block: Guarded::new(block.as_flattened(), random.below(16)),
        }
    }

    fn keep(&mut self, left: &Lent) {
        self.chip.data.copy_from_slice(left.data.part());
        self.chip.spare.copy_from_slice(left.spare.part());
    }
}
