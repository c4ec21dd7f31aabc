//! The tour of README.md: its commands print what it says.

mod common;

use common::{run, Folder};
use std::process::Command;

const README: &str = include_str!("../../../README.md");

/// The commands of the tour, each with the lines that are shown below it.
fn tour() -> Vec<(&'static str, String)> {
    let mut tour: Vec<(&str, String)> = Vec::new();
    let from_first = README.lines().skip_while(|line| !line.starts_with("    $ card "));
    for line in from_first.take_while(|line| line.starts_with("    ") || line.is_empty()) {
        let line = line.strip_prefix("    ").unwrap_or("");
        match (line.strip_prefix("$ card "), tour.last_mut()) {
            (Some(command), _) => tour.push((command, String::new())),
            (None, Some((_, shown))) => *shown += &format!("{line}\n"),
            (None, None) => unreachable!("the first line is a command"),
        }
    }
    tour
}

#[test]
fn the_tour_is_true() {
    let folder = Folder::new();
    folder.card("demo worked-card.img").expect_done();
    folder.put("page.bin", &[9; 512]);
    folder.put("block.bin", &[8; 2048]);
    assert!(README.contains("; export CARD_SHAPE=4,2,1\n"));
    let card = |line: &str| {
        let mut command = Command::new(env!("CARGO_BIN_EXE_card"));
        command.args(line.split_whitespace()).current_dir(&folder).env("CARD_SHAPE", "4,2,1");
        run(command, &[])
    };
    let read = |page: usize| card(&format!("read worked-card.img {page}")).out;
    let tour = tour();
    assert_eq!(tour.len(), 8);
    for (command, shown) in tour {
        if command.starts_with("restore") {
            assert_eq!(read(4), [9; 512], "page 4 is the one written");
            assert_eq!(read(0), [11; 512], "page 0 is as it was");
        }
        let run = card(command);
        assert_eq!((run.error + &run.text).trim_end(), shown.trim_end(), "{command}");
    }
    assert_eq!(read(4), [20; 512], "page 4 is put back");
    assert_eq!(read(0), [8; 512], "block 0 is the one loaded");
}
