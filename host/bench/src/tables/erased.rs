//! The erased test by itself.
//!
//! Format of a card that is all erased has nothing to erase: it tests every page for
//! erased, looks at the two marks of each block, and that is all.

use super::Five;
use crate::card::{self, Image, B, DATA_BYTES, P, SPARE_BYTES};
use crate::command::{by_proved, by_second, done_by, Command};
use crate::measure;
use crate::scan::erased;
use std::hint::black_box;

pub fn print() {
    let times = measure::in_turn(
        &card::formatted(),
        [
            &done_by(by_proved, &Command::Format),
            &done_by(by_second, &Command::Format),
            &|image| test_all(image, erased::plain),
            &|image| test_all(image, erased::quick),
            &look_at_all,
        ],
    );
    let [proved, second, plain, quick, floor] = times;
    println!("The erased test");
    println!();
    Five::print_head();
    Five { proved, second, plain, quick, floor }.print("2,048 erased pages tested");
    println!();
    println!("proved and second are a format of the card just formatted, which does nothing else;");
    println!("plain and quick are the tests of ordinary Rust, byte by byte and 64 at a time. The");
    println!("floor is a look at every byte. The ratio is that of proved to quick.");
}

fn look_at_all(image: &mut Image) {
    black_box(measure::look(&image.data) & measure::look(&image.spare));
}

/// Tests every page of a card that is all erased.
fn test_all(image: &Image, is_erased: impl Fn(&[u8; DATA_BYTES], &[u8; SPARE_BYTES]) -> bool) {
    let (data, _) = image.data.as_chunks();
    let (spare, _) = image.spare.as_chunks();
    let erased = data.iter().zip(spare).filter(|(data, spare)| is_erased(data, spare)).count();
    assert_eq!(erased, B * P);
}
