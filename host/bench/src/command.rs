//! The commands that are timed, done by the proved layer or by the second program.

use crate::card::{Image, BLOCK, DATA_BYTES, K, L, P, SHAPE};
use std::hint::black_box;
use std::ops::Add;

pub enum Command {
    Format,
    PowerUp,
    Read(usize),
    Lend(usize),
    Write(usize),
    /// A write cut at 0: all of it but its steps.
    CutWrite(usize),
    BlockWrite(usize),
}

/// What was done: by this it is seen that both do the same.
#[derive(Clone, Copy, Debug, Default, PartialEq)]
pub struct Done {
    pub programs: usize,
    pub erases: usize,
    pub pages_read: usize,
}

impl Add for Done {
    type Output = Done;

    fn add(self, other: Done) -> Done {
        Done {
            programs: self.programs + other.programs,
            erases: self.erases + other.erases,
            pages_read: self.pages_read + other.pages_read,
        }
    }
}

/// A way to do a command.
pub type Doer = fn(&Command, &mut Image) -> Done;

/// A command to be timed on an image that it leaves as it is.
pub fn done_by(doer: Doer, command: &Command) -> impl Fn(&mut Image) + '_ {
    move |image| {
        black_box(doer(command, image));
    }
}

pub fn by_proved(command: &Command, image: &mut Image) -> Done {
    use hamutsigra::{Card, Refusal, Shape, Steps, TableEntry};
    let shape = Shape { pages: P, logical: L, logs: K };
    let mut card = Card::new(&mut image.data[..], &mut image.spare[..], shape);
    let mut page = [7; DATA_BYTES];
    let mut pages_read = 0;
    let answer = match command {
        Command::Format => card.format(None),
        Command::PowerUp => card.power_up(&mut [TableEntry::default(); L], None),
        Command::Read(number) => {
            pages_read = 1;
            card.read_into(*number, &mut page).map(|()| Steps::default())
        }
        Command::Write(number) => card.write(*number, &page, None),
        Command::CutWrite(number) => {
            let answer = card.write(*number, &page, Some(0));
            assert_eq!(answer, Err(Refusal::Cut(Steps::default())));
            return Done::default();
        }
        Command::BlockWrite(number) => card.block_write(*number, &BLOCK, None),
        Command::Lend(number) => {
            assert!(card.lend(*number).is_some());
            return Done::default();
        }
    };
    let steps = answer.expect("the commands timed are all done");
    Done { programs: steps.programs as usize, erases: steps.erases as usize, pages_read }
}

pub fn by_second(command: &Command, image: &mut Image) -> Done {
    use second::{block_write, format, lend, power_up, read, write};
    const NO_CUT: usize = usize::MAX;
    let Image { data, spare } = image;
    let mut page = [7; DATA_BYTES];
    let mut pages_read = 0;
    let answer = match command {
        Command::Format => format(data, spare, SHAPE, NO_CUT),
        Command::PowerUp => power_up(data, spare, &mut [0; 2 * L], SHAPE, NO_CUT),
        Command::Read(number) => {
            pages_read = 1;
            read(data, spare, &mut page, SHAPE, *number)
        }
        Command::Write(number) => write(data, spare, &page, SHAPE, *number, NO_CUT),
        Command::CutWrite(number) => {
            let answer = write(data, spare, &page, SHAPE, *number, 0);
            assert_eq!((answer.number, answer.programs, answer.erases), (8, 0, 0));
            return Done::default();
        }
        Command::BlockWrite(number) => block_write(data, spare, &BLOCK, SHAPE, *number, NO_CUT),
        Command::Lend(number) => {
            assert!(lend(data, spare, SHAPE, *number).is_some());
            return Done::default();
        }
    };
    assert_eq!(answer.number, 0, "the commands timed are all done");
    Done { programs: answer.programs, erases: answer.erases, pages_read }
}
