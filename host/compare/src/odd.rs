//! Wrong lengths, wrong shapes, and numbers at the top.

use crate::command::{Action, Command, Lent};
use crate::guarded::Guarded;
use crate::random::Random;
use second::shape::{DATA_BYTES, SPARE_BYTES};
use second::Shape;

/// 2^63: doubled, it is 0 in 64 bits.
const HALF: usize = 1 << 63;
/// 2^55: as P, P x 512 is 0 in 64 bits.
const NO_BYTES: usize = 1 << 55;

/// Puts one thing wrong with a command or with what is lent to it.
pub fn spoil(command: &mut Command, lent: &mut Lent, random: &mut Random) {
    let pages = command.shape.pages;
    match random.below(11) {
        0 => spoil_pages(command, lent, random),
        1 => spoil_logical(command, lent, random),
        2 => spoil_logs(command, random),
        3 => spoil_number(command, random),
        4 => *command = command.cut_at(random.one_of(&[0, 1, 2, HALF, usize::MAX - 1])),
        5 => {
            let length = random.one_of(&[0, 1, 511, 513, 1024]);
            resize(&mut lent.page, length, random);
        }
        6 => {
            let length = lent.block.part().len();
            let other = other_length(length, DATA_BYTES, pages, random);
            resize(&mut lent.block, other, random);
        }
        7 => {
            let length = lent.table.part().len();
            let other = random.one_of(&[0, length.saturating_sub(1), length + 1, length + 2]);
            resize(&mut lent.table, other, random);
        }
        8 => {
            let length = other_length(lent.data.part().len(), DATA_BYTES, pages, random);
            resize(&mut lent.data, length, random);
        }
        9 => {
            let length = other_length(lent.spare.part().len(), SPARE_BYTES, pages, random);
            resize(&mut lent.spare, length, random);
        }
        _ => {
            // Whole blocks, but more or fewer of them, or larger or smaller ones.
            let pages = random.one_of(&[1, 2, 32, 33, pages.min(32)]);
            let blocks = random.one_of(&[0, 2, 3, 4, 64, 65]);
            command.shape.pages = pages;
            resize(&mut lent.data, blocks * pages * DATA_BYTES, random);
            resize(&mut lent.spare, blocks * pages * SPARE_BYTES, random);
            resize(&mut lent.block, pages * DATA_BYTES, random);
        }
    }
}

fn spoil_pages(command: &mut Command, lent: &mut Lent, random: &mut Random) {
    let other = [0, 1, 2, 3, 4, 8, 16, 32, 33, NO_BYTES, NO_BYTES + 2, HALF, usize::MAX];
    command.shape.pages = random.one_of(&other);
    // With a block that fits, or fits in 64 bits, what comes after it is asked too.
    if random.one_in(2) {
        let bytes = command.shape.pages.wrapping_mul(DATA_BYTES);
        resize(&mut lent.block, bytes.min(33 * DATA_BYTES), random);
    }
}

fn spoil_logical(command: &mut Command, lent: &mut Lent, random: &mut Random) {
    let (logical, logs) = (command.shape.logical, command.shape.logs);
    let near = [0, 1, logical.wrapping_sub(1), logical.wrapping_add(1)];
    // With the last two, L + K + 1 is 0 or 1 in 64 bits.
    let sum_0 = usize::MAX.wrapping_sub(logs);
    let far = [HALF, HALF + 1, usize::MAX, sum_0, sum_0.wrapping_add(1)];
    let choices = random.one_of::<&[usize]>(&[&near, &far]);
    command.shape.logical = random.one_of(choices);
    // With a table that fits, or fits in 64 bits, what comes after it is asked too.
    if random.one_in(2) {
        let entries = command.shape.logical.wrapping_mul(2);
        resize(&mut lent.table, entries.min(200), random);
    }
}

fn spoil_logs(command: &mut Command, random: &mut Random) {
    let (logical, logs) = (command.shape.logical, command.shape.logs);
    let near = [0, 1, logs.wrapping_sub(1), logs.wrapping_add(1)];
    let sum_0 = usize::MAX.wrapping_sub(logical);
    let far = [HALF, usize::MAX, sum_0, sum_0.wrapping_add(1)];
    let choices = random.one_of::<&[usize]>(&[&near, &far]);
    command.shape.logs = random.one_of(choices);
}

fn spoil_number(command: &mut Command, random: &mut Random) {
    let Shape { pages, logical, .. } = command.shape;
    let in_range = match command.action {
        Action::BlockWrite { .. } => logical,
        _ => logical.wrapping_mul(pages),
    };
    let near = [in_range.wrapping_sub(1), in_range, in_range.wrapping_add(1)];
    let far = [65_535, 65_536, 1 << 32, HALF, usize::MAX];
    let choices = random.one_of::<&[usize]>(&[&near, &far]);
    let other = random.one_of(choices);
    match &mut command.action {
        Action::Read { number }
        | Action::Write { number, .. }
        | Action::BlockWrite { number, .. }
        | Action::Lend { number } => *number = other,
        Action::Format { .. } | Action::PowerUp { .. } => (),
    }
}

/// A length near the right one: a byte, a page or a block more or less; or none.
fn other_length(length: usize, page_bytes: usize, pages: usize, random: &mut Random) -> usize {
    let by = random.one_of(&[1, page_bytes, page_bytes * pages.min(32)]);
    random.one_of(&[0, length + by, length.saturating_sub(by)])
}

fn resize<T>(part: &mut Guarded<T>, length: usize, random: &mut Random)
where
    T: Copy + std::fmt::Display + From<u8> + PartialEq,
{
    let mut items = part.part().to_vec();
    items.resize(length, T::from(255));
    *part = Guarded::new(&items, random.below(16));
}
