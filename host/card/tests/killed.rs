//! The tool killed at every call that changes a file: nothing is lost then, and who
//! only looks afterwards changes nothing, whatever has been put there since.

mod common;
mod killer;

use common::Folder;
use killer::{killed_at, End};
use std::collections::{BTreeMap, BTreeSet};

const PAIR: &str = "--data d --spare s -P 4 -L 2 -K 1";
const DUMP: &str = "card.img -P 4 -L 2 -K 1";

/// The bytes of all files of a folder.
type Files = BTreeMap<String, Vec<u8>>;

fn files(folder: &Folder) -> Files {
    folder.names().into_iter().map(|name| (name.clone(), folder.bytes(&name))).collect()
}

fn set(folder: &Folder, files: &Files) {
    for name in folder.names() {
        std::fs::remove_file(folder.path(&name)).expect("a file");
    }
    files.iter().for_each(|(name, bytes)| folder.put(name, bytes));
}

/// The card after case 4 of document 01 in `d` and `s`, or in `card.img`.
fn card(image: &str) -> Folder {
    let folder = Folder::new();
    folder.card(&format!("new {} -P 4 -B 4", image.replace("-P 4 -L 2 -K 1", ""))).expect_done();
    for (number, fill) in [(1, 10), (0, 11), (1, 12), (2, 13), (3, 14)] {
        write(&folder, image, number, fill).expect_done();
    }
    folder
}

fn write(folder: &Folder, image: &str, number: usize, fill: u8) -> common::Run {
    folder.card_with_input(&line("write", image, number), &[fill; 512])
}

/// A line with a page number: before the options, after the name of a dump.
fn line(verb: &str, image: &str, number: usize) -> String {
    match image.split_once(" -P") {
        Some((name, shape)) if !name.starts_with('-') => {
            format!("{verb} {name} {number} -P{shape}")
        }
        _ if image.starts_with('-') => format!("{verb} {number} {image}"),
        _ => format!("{verb} {image} {number}"),
    }
}

/// Every verb that only looks.
fn looks(image: &str) -> Vec<String> {
    let numbered = ["read", "lend", "check"].map(|verb| line(verb, image, 4));
    let (files, shape) = image.split_once(" -P").unwrap_or((image, ""));
    // A file that is no file of the folder.
    let to_nowhere = ["dump", "salvage"].map(|verb| match files.starts_with('-') {
        true => format!("{verb} /dev/null {image}"),
        false => format!("{verb} {files} /dev/null -P{shape}"),
    });
    let others = ["show", "check --json", "show --json"].map(|verb| format!("{verb} {image}"));
    let shapeless = [format!("shape {files}"), format!("raw {}", line("", files, 3).trim_start())];
    [&numbered[..], &to_nowhere, &others, &shapeless].concat()
}

/// All states in which a command leaves a folder when it is killed, and the last, in
/// which it has come to its end.
fn states(folder: &Folder, line: &str, input: &[u8]) -> Vec<Files> {
    let before = files(folder);
    let mut states = Vec::new();
    for call in 1.. {
        set(folder, &before);
        let end = killed_at(folder, call, line, input);
        states.push(files(folder));
        if end != End::Killed {
            assert_eq!(end, End::Status(0), "{line}");
            break;
        }
    }
    assert!(states.len() > 4, "{line}: {} states", states.len());
    // Not every call changes the bytes of a file.
    states.dedup();
    states
}

/// Looks at a card that is as the killed write found it, or as it was to leave it.
fn look_at_a_killed_write(folder: &Folder, image: &str) {
    let before = files(folder);
    for look in looks(image) {
        let run = folder.card(&look);
        assert_eq!(run.status, 0, "{look}: {}", run.error);
    }
    let written = folder.card(&line("read", image, 4)).out;
    assert!(written == [15; 512] || written == [255; 512]);
    for (number, fill) in [(0, 11), (1, 12), (2, 13), (3, 14)] {
        assert_eq!(folder.card(&line("read", image, number)).out, [fill; 512]);
    }
    assert_eq!(files(folder), before, "a look has changed something");
}

/// The same command again does it, and leaves nothing behind.
fn write_again(folder: &Folder, image: &str, names: &[&str]) {
    write(folder, image, 4, 15).expect_done();
    assert_eq!(folder.card(&line("read", image, 4)).expect_done().out, [15; 512]);
    assert_eq!(folder.card(&line("read", image, 3)).expect_done().out, [14; 512]);
    assert_eq!(folder.names(), names);
}

#[test]
fn a_write_to_two_files() {
    let folder = card(PAIR);
    for state in states(&folder, &line("write", PAIR, 4), &[15; 512]) {
        set(&folder, &state);
        look_at_a_killed_write(&folder, PAIR);
        write_again(&folder, PAIR, &["d", "s"]);
    }
}

#[test]
fn a_write_to_a_dump() {
    let folder = card(DUMP);
    for state in states(&folder, &line("write", DUMP, 4), &[15; 512]) {
        set(&folder, &state);
        look_at_a_killed_write(&folder, DUMP);
        write_again(&folder, DUMP, &["card.img"]);
    }
}

/// All pages of the block are old or all are new.
#[test]
fn a_load() {
    for (image, names) in [(PAIR, &["d", "s"][..]), (DUMP, &["card.img"])] {
        let folder = card(image);
        let load = line("load", image, 1) + " -";
        let pages = || [4, 5, 6, 7].map(|number| folder.card(&line("read", image, number)).out);
        let mut kinds = BTreeSet::new();
        for state in states(&folder, &load, &[15; 2048]) {
            set(&folder, &state);
            look_at_a_killed_write(&folder, image);
            let [first, others @ ..] = pages();
            assert!(others.iter().all(|page| *page == first));
            kinds.insert(first);
            folder.card_with_input(&load, &[15; 2048]).expect_done();
            assert_eq!(pages(), [[15; 512]; 4]);
            assert_eq!(folder.names(), names);
        }
        assert_eq!(kinds.len(), 2, "both old and new");
    }
}

/// Another card is put where a write to two files was killed. Every verb that looks
/// leaves it as it is; a change is refused or is one of the card that is there.
#[test]
fn another_card_is_put_there() {
    let folder = card(PAIR);
    let states = states(&folder, &line("write", PAIR, 4), &[15; 512]);
    let other = card(PAIR);
    for number in [5, 6, 7] {
        write(&other, PAIR, number, 77).expect_done();
    }
    let other = files(&other);
    let mut refused = 0;
    for state in states {
        set(&folder, &state);
        other.iter().for_each(|(name, bytes)| folder.put(name, bytes));
        let before = files(&folder);
        for look in looks(PAIR) {
            let run = folder.card(&look);
            assert!([0, 72].contains(&run.status), "{look}: {}", run.error);
        }
        assert_eq!(files(&folder), before, "a look has changed something");

        let run = write(&folder, PAIR, 4, 15);
        if run.status == 72 {
            refused += 1;
            run.expect_failure(72, &["s.card-new", "interrupted write to d and s", "move "]);
            run.expect_failure(72, &["d is not the data that it was made with"]);
            assert_eq!(files(&folder), before);
        } else {
            run.expect_done();
            for (number, fill) in [(3, 14), (4, 15), (5, 77), (7, 77)] {
                let page = folder.card(&line("read", PAIR, number)).expect_done().out.clone();
                assert_eq!(page, [fill; 512]);
            }
            assert_eq!(folder.names(), ["d", "s"]);
        }
    }
    assert!(refused > 0, "no state between the two renames");
}

/// Only one of the two is put back from a copy.
#[test]
fn half_of_an_old_copy_is_put_there() {
    let folder = card(PAIR);
    let old = files(&folder);
    let states = states(&folder, &line("write", PAIR, 4), &[15; 512]);
    for (state, name) in states.iter().flat_map(|state| [(state, "d"), (state, "s")]) {
        set(&folder, state);
        folder.put(name, &old[name]);
        let before = files(&folder);
        for look in looks(PAIR) {
            let _ = folder.card(&look);
        }
        assert_eq!(files(&folder), before, "a look has changed something");
    }
}

/// The two files are copied, and what was left beside them is not.
#[test]
fn a_pair_copied_in_between_is_named() {
    let folder = card(PAIR);
    let mut named = 0;
    for state in states(&folder, &line("write", PAIR, 4), &[15; 512]) {
        set(&folder, &state);
        folder.put("d2", &state["d"]);
        folder.put("s2", &state["s"]);
        let before = files(&folder);
        let run = folder.card("check 4 --data d2 --spare s2 -P 4 -L 2 -K 1");
        if run.status != 0 {
            let words = ["d2 and s2 are a copy of", "made between the two halves", "copy both"];
            run.expect_failure(72, &words);
            named += 1;
        }
        assert_eq!(files(&folder), before);
    }
    assert!(named > 0);
}

/// Both files and what is left beside them, in another folder: the copy is ended there.
#[test]
fn a_folder_copied_in_between_is_whole() {
    let folder = card(PAIR);
    for state in states(&folder, &line("write", PAIR, 4), &[15; 512]) {
        let copy = Folder::new();
        set(&copy, &state);
        copy.card(&format!("check {PAIR}")).expect_status(0);
        write_again(&copy, PAIR, &["d", "s"]);
    }
}

/// The command that ends a killed write is killed as well, at every point.
#[test]
fn the_next_write_is_killed_too() {
    let folder = card(PAIR);
    let states_of_first = states(&folder, &line("write", PAIR, 4), &[15; 512]);
    let has = |state: &Files, name: &str| state.contains_key(name);
    let follows = |state: &&Files| has(state, "s.card-new") && !has(state, "d.card-new");
    let not_yet = |state: &&Files| has(state, "s.card-new") && has(state, "d.card-new");
    let first = states_of_first.iter().find(follows).expect("between the two renames");
    let last = states_of_first.iter().rfind(not_yet).expect("before the first");
    for state in [first, last] {
        set(&folder, state);
        for state in states(&folder, &line("write", PAIR, 5), &[16; 512]) {
            set(&folder, &state);
            folder.card(&format!("check {PAIR}")).expect_status(0);
            for (number, old, new) in [(3, 14, 14), (4, 255, 15), (5, 255, 16)] {
                let page = folder.card(&line("read", PAIR, number)).out;
                assert!(page == [old; 512] || page == [new; 512], "page {number}");
            }
            write_again(&folder, PAIR, &["d", "s"]);
        }
    }
}

#[test]
fn power_up_ends_what_was_left() {
    let folder = card(PAIR);
    for state in states(&folder, &line("write", PAIR, 4), &[15; 512]) {
        set(&folder, &state);
        folder.card(&format!("power-up {PAIR}")).expect_done();
        if state.contains_key("s.card-new") && !state.contains_key("d.card-new") {
            assert_eq!(folder.names(), ["d", "s"]);
            assert_eq!(folder.bytes("s"), state["s.card-new"]);
        }
        assert_eq!(folder.card(&format!("check {PAIR}")).expect_done().status, 0);
    }
}

/// `new` can be run again, wherever it was killed.
#[test]
fn new_is_run_again() {
    for (image, names) in [("card.img", &["card.img"][..]), ("--data d --spare s", &["d", "s"])] {
        let folder = Folder::new();
        let new = format!("new {image} -P 4 -B 4 --bad 1");
        let states = states(&folder, &new, &[]);
        let (last, killed) = states.split_last().expect("a state");
        for state in killed {
            set(&folder, state);
            let run = folder.card(&new);
            // It may have been made before it was killed.
            if run.status != 0 {
                run.expect_failure(73, &["it exists already"]);
                assert!(names.iter().all(|name| state.get(*name) == last.get(*name)));
            }
            let made: Vec<_> = names.iter().map(|name| folder.bytes(name)).collect();
            let expected: Vec<_> = names.iter().map(|name| last[*name].clone()).collect();
            assert_eq!(made, expected);
        }
    }
}
