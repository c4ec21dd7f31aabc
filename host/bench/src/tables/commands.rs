//! The commands beside those of the second program.
//!
//! As the floor stands the time of moving the bytes that must move: of the pages
//! programmed or read out, and of the blocks erased. The look at the image that every
//! command takes is no part of it; what that takes at least is said below the table.
//! The block write stands beside single writes of the same pages, in order, from the
//! same image.

use crate::card::{self, Image};
use crate::command::Command;
use crate::measure::{self, Times};

pub fn print() {
    let worn = card::worn();
    let pulled_out = card::pulled_out();
    let writes = card::anywhere(1000).map(Command::Write).collect();
    let cases: [(&str, &Image, Vec<Command>); 10] = [
        ("format, 63 blocks to erase", &worn, vec![Command::Format]),
        ("power-up, nothing to erase", &worn, vec![Command::PowerUp]),
        ("power-up, 1 block to erase", &pulled_out, vec![Command::PowerUp]),
        ("read from a data block", &worn, vec![Command::Read(card::IN_DATA_BLOCK)]),
        ("read from a log block", &worn, vec![Command::Read(card::IN_LOG_BLOCK)]),
        ("lend", &worn, vec![Command::Lend(card::IN_DATA_BLOCK)]),
        ("write to a log block", &worn, vec![Command::Write(card::TO_LOG_BLOCK)]),
        ("write that completes a log block", &worn, vec![Command::Write(card::COMPLETES)]),
        ("write with a merge", &worn, vec![Command::Write(card::MERGES)]),
        ("1,000 writes anywhere", &worn, writes),
    ];
    println!("The commands, on the full card");
    println!();
    println!("{:<34}{:>11}{:>11}{:>8}{:>11}", "", "proved", "second", "ratio", "floor");
    for (name, image, commands) in cases {
        row(name, image, &commands);
    }
    let l = card::WITHOUT_LOG;
    let block = row("block write", &worn, &[Command::BlockWrite(l)]);
    let pages: Vec<Command> = (l * card::P..(l + 1) * card::P).map(Command::Write).collect();
    let writes = row("32 writes of the same block", &worn, &pages);
    let spare = measure::look_at(&worn.spare);
    let all = spare + measure::look_at(&worn.data);
    println!();
    println!("The ratio is that of proved to second. A look at every spare byte takes {spare:.2},");
    println!("at every byte {all:.2}.");
    let ratio = block / writes;
    println!("The block that is written has a data block and no log block. By a block write this");
    println!("takes {ratio:.3} of the time of 32 writes of its pages in order, both proved.");
}

/// Times commands on an image and prints their row; gives the time of the proved layer.
fn row(name: &str, image: &Image, commands: &[Command]) -> f64 {
    let Times { proved, second, floor } = measure::least(image, commands);
    let ratio = proved / second;
    println!("{name:<34}{proved:>11.2}{second:>11.2}{ratio:>8.2}{floor:>11.2}");
    proved
}
