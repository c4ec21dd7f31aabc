//! The look at the image that every command takes, on cards from empty to full.
//!
//! The proved commands and those of the second program are timed where they do nothing
//! else, or little: a read, a write cut at 0, a power-up that has nothing to erase. Beside
//! each stands a read in ordinary Rust, in two ways. As the floor stands one look at the
//! bytes that have to be looked at: every spare byte, and the data bytes of the pages
//! whose spare bytes are all 255.

use super::Five;
use crate::card::{self, Image, Named, DATA_BYTES, SHAPE, SPARE_BYTES};
use crate::command::{by_proved, by_second, done_by, Command};
use crate::measure;
use crate::scan::{self, Read};
use std::hint::black_box;

/// The page that is read.
const READ: usize = card::IN_DATA_BLOCK;

pub fn print() {
    println!("The look at the image");
    println!();
    Five::print_head();
    for Named { name, image, .. } in card::from_empty_to_full() {
        see_that_all_agree(&image);
        row(&format!("{name}, read"), &image, Command::Read(READ));
        row("  write, cut at 0", &image, Command::CutWrite(card::TO_LOG_BLOCK));
        row("  power-up", &image, Command::PowerUp);
    }
    println!();
    println!("Of the 64 blocks 31 are in use on the card half full, 63 on the full one. plain and");
    println!("quick are a read in ordinary Rust by the same rules, beside write and power-up too:");
    println!("plain tests each page for erased byte by byte, quick is written for speed. As floor");
    println!("stands a look at every spare byte, and at the data bytes of the pages whose spare");
    println!("bytes are all 255. The ratio is that of proved to quick.");
}

fn row(name: &str, image: &Image, command: Command) {
    let erased = erased_by_spare(image);
    let times = measure::in_turn(
        image,
        [
            &done_by(by_proved, &command),
            &done_by(by_second, &command),
            &|image| read_by(scan::plain, image),
            &|image| read_by(scan::quick, image),
            &|image| look_at_least(image, &erased),
        ],
    );
    let [proved, second, plain, quick, floor] = times;
    Five { proved, second, plain, quick, floor }.print(name);
}

/// Reads a page as the commands do, into bytes of its own.
fn read_by(read: Read, image: &Image) {
    let mut page = [7; DATA_BYTES];
    assert_eq!(read(image, &mut page, black_box(SHAPE), black_box(READ)), 0);
    black_box(&page);
}

/// The pages whose spare bytes are all 255.
fn erased_by_spare(image: &Image) -> Vec<usize> {
    let (spare, _) = image.spare.as_chunks();
    (0..spare.len()).filter(|page| spare[*page] == [255; SPARE_BYTES]).collect()
}

/// Looks at every spare byte, and at the data bytes of these pages.
fn look_at_least(image: &Image, pages: &[usize]) {
    let (data, _) = image.data.as_chunks::<DATA_BYTES>();
    let all = pages.iter().fold(255, |all, page| all & measure::look(&data[*page]));
    black_box(all & measure::look(&image.spare));
}

/// Sees to it that all four read the same: the page that is timed, and some others.
fn see_that_all_agree(image: &Image) {
    let shape = hamutsigra::Shape { pages: card::P, logical: card::L, logs: card::K };
    let proved = hamutsigra::Card::new(&image.data, &image.spare, shape);
    for number in card::anywhere(100).chain([READ, card::IN_LOG_BLOCK, card::MERGES]) {
        let page = proved.read(number).expect("the cards are well-formed");
        let mut others = [[7; DATA_BYTES]; 3];
        let [second, plain, quick] = &mut others;
        let answer = second::read(&image.data, &image.spare, second, SHAPE, number);
        let answers = [
            answer.number,
            scan::plain(image, plain, SHAPE, number),
            scan::quick(image, quick, SHAPE, number),
        ];
        assert!(answers == [0; 3] && others == [page; 3], "page {number} is read differently");
    }
}
