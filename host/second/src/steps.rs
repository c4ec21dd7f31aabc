//! A step programs one page or erases one block, whole.

use crate::shape::{DATA_BYTES, SPARE_BYTES};

/// One step of a command.
pub enum Step {
    /// Program a flash page with these bytes.
    Program { page: usize, data: Vec<u8>, spare: [u8; SPARE_BYTES] },
    /// Erase a block: all bytes of its pages become 255.
    Erase { block: usize },
}

/// What the card replies to a command: the number of the answer, and the
/// programs and erases done.
#[derive(Clone, Copy, Debug, Default, PartialEq, Eq)]
pub struct Answer {
    /// 0 when all is done, else 1 to 8.
    pub number: u8,
    /// The pages programmed.
    pub programs: usize,
    /// The blocks erased.
    pub erases: usize,
}

/// The steps done are the first `cut` of the list, or all if there are fewer, on
/// an image with P `pages` to a block. The answer carries the programs and erases
/// done; it is 8 when the cut number is below the list's length.
pub fn run(steps: &[Step], cut: usize, pages: usize, data: &mut [u8], spare: &mut [u8]) -> Answer {
    let mut answer = Answer::default();
    for step in steps.iter().take(cut) {
        match step {
            Step::Program { page, data: d, spare: s } => {
                part(data, *page, DATA_BYTES).copy_from_slice(d);
                part(spare, *page, SPARE_BYTES).copy_from_slice(s);
                answer.programs += 1;
            }
            Step::Erase { block } => {
                part(data, *block, pages * DATA_BYTES).fill(255);
                part(spare, *block, pages * SPARE_BYTES).fill(255);
                answer.erases += 1;
            }
        }
    }
    if cut < steps.len() {
        answer.number = 8;
    }
    answer
}

/// Part number `index` of an image seen as parts of `bytes` bytes, end to end.
fn part(image: &mut [u8], index: usize, bytes: usize) -> &mut [u8] {
    &mut image[index * bytes..(index + 1) * bytes]
}
