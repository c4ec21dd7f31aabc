//! What is compared: a layer is anything that has the six commands.

use crate::command::{Action, Command, Lent, Reply};
use crate::faults;
use second::Answer;

/// The proved layer by its functions: the comparison lends buffers of any length.
mod proved {
    pub use hamutsigra::raw::{block_write, format, lend, power_up, read, write};
    pub use hamutsigra::{Answer, Shape};
}

/// A layer by its name, and what it does with a command.
#[derive(Clone, Copy)]
pub struct Layer {
    pub name: &'static str,
    pub run: fn(Command, &mut Lent) -> Reply,
}

/// The layer that a crate or module is. It has the commands as functions; what they
/// answer is made an answer of the second program by a function given as well.
macro_rules! layer {
    ($name:literal, $($module:ident)::+, $answer:expr) => {
        Layer {
            name: $name,
            run: |Command { shape, action }, lent| {
                use $($module)::+ as layer;
                let shape = layer::Shape {
                    pages: shape.pages,
                    logical: shape.logical,
                    logs: shape.logs,
                };
                let answer = $answer;
                let Lent { data, spare, table, page, block } = lent;
                let (data, spare) = (data.part_mut(), spare.part_mut());
                let (table, page, block) = (table.part_mut(), page.part_mut(), block.part_mut());
                Reply::Answer(answer(match action {
                    Action::Format { cut } => layer::format(data, spare, shape, cut),
                    Action::PowerUp { cut } => layer::power_up(data, spare, table, shape, cut),
                    Action::Read { number } => layer::read(data, spare, page, shape, number),
                    Action::Write { number, cut } => {
                        layer::write(data, spare, page, shape, number, cut)
                    }
                    Action::BlockWrite { number, cut } => {
                        layer::block_write(data, spare, block, shape, number, cut)
                    }
                    Action::Lend { number } => {
                        let lent = layer::lend(data, spare, shape, number);
                        return Reply::Lent(lent.map(|lent| (lent.at, lent.bytes.to_vec())));
                    }
                }))
            },
        }
    };
    // A copy of the second program.
    ($name:literal, $($module:ident)::+) => {
        layer!($name, $($module)::+, |answer: layer::Answer| Answer {
            number: answer.number,
            programs: answer.programs,
            erases: answer.erases,
        })
    };
}

/// The proved layer.
pub const PROVED: Layer = layer!("the proved layer", self::proved, |answer: layer::Answer| {
    let (number, steps) = match answer {
        Ok(steps) => (0, steps),
        Err(refusal) => (refusal.number(), refusal.steps()),
    };
    Answer { number, programs: steps.programs as usize, erases: steps.erases as usize }
});

/// The second program.
pub const SECOND: Layer = layer!("the second program", second);

/// The second program with a fault planted, under the name of the fault.
pub const FAULTY: [Layer; 8] = [
    layer!("first-copy", faults::first_copy),
    layer!("early-erase", faults::early_erase),
    layer!("half-copy", faults::half_copy),
    layer!("erased-by-data", faults::erased_by_data),
    layer!("complete-out-of-order", faults::complete_out_of_order),
    layer!("data-left", faults::data_left),
    layer!("first-page-alone", faults::first_page_alone),
    layer!("last-group-not-looked-at", faults::last_group_not_looked_at),
];
