//! The Makefile, with a kit that only notes that it was called: the library is made
//! when something has changed, and only then.

mod common;

use common::{run, Folder, Run};
use std::fs::{self, Permissions};
use std::os::unix::fs::PermissionsExt;
use std::path::Path;
use std::process::Command;
use std::time::{Duration, SystemTime};

const KIT: &str = "#!/bin/sh
echo \"$@\" >> \"${0%/*}/calls\"
mkdir -p out
echo library > out/libhamutsigra.a
";

const CRATES: &str = include_str!("../../../crates.txt");

/// Each crate, and what it needs. A static library has its kind after its name.
fn crates() -> Vec<(&'static str, Vec<&'static str>)> {
    let lines = CRATES.lines().filter_map(|line| line.split('#').next()?.split_once(':'));
    let name = |words: &'static str| words.split_whitespace().next().expect("a name");
    lines.map(|(words, needs)| (name(words), needs.split_whitespace().collect())).collect()
}

/// A folder with the Makefile, a source for each crate, and the kit, all a minute old.
fn project() -> Folder {
    let folder = Folder::new();
    folder.put("Makefile", include_bytes!("../../../Makefile"));
    folder.put("crates.txt", CRATES.as_bytes());
    for (name, _) in crates() {
        let source = folder.path("crates").join(name).join("src");
        fs::create_dir_all(&source).expect("a folder");
        fs::write(source.join("lib.rt"), "").expect("a source");
        set_age(&source.join("lib.rt"), 60);
    }
    folder.put("rt", KIT.as_bytes());
    fs::set_permissions(folder.path("rt"), Permissions::from_mode(0o755)).expect("a program");
    ["crates.txt", "rt"].iter().for_each(|name| set_age(&folder.path(name), 60));
    folder
}

/// Makes a file so many seconds old.
fn set_age(path: &Path, seconds: u64) {
    let file = fs::File::options().append(true).open(path).expect("a file");
    file.set_modified(SystemTime::now() - Duration::from_secs(seconds)).expect("a time");
}

fn make(folder: &Folder, target: &str) -> Run {
    let path = std::env::var("PATH").expect("a path");
    let mut command = Command::new("make");
    command.arg(target).current_dir(folder).env_remove("HAMUTSIGRA_LIB_DIR");
    command.env_remove("MAKEFLAGS").env_remove("MAKELEVEL");
    command.env("PATH", format!("{}:{path}", folder.path("").display()));
    run(command, &[])
}

fn calls(folder: &Folder) -> usize {
    String::from_utf8(folder.bytes("calls")).expect("text").lines().count()
}

#[test]
fn the_library_is_made_only_when_something_has_changed() {
    let folder = project();
    let text = make(&folder, "lib").expect_done().text.clone();
    let words: Vec<&str> = text.lines().next().unwrap_or("").split(' ').collect();
    assert!(matches!(words[..], ["proving", _, "crates,", "some", "minutes"]), "{text}");
    assert!(words[1].parse::<u32>().is_ok_and(|crates| crates > 5), "{text}");
    assert_eq!(calls(&folder), 2);
    assert!(!make(&folder, "lib").expect_done().text.contains("proving"));
    assert_eq!(calls(&folder), 2, "nothing has changed");

    // What the library does not need, then what it needs.
    let crates = crates();
    let needed = &crates.iter().find(|(name, _)| *name == "hamutsigra").expect("it").1;
    let is_needed = |name: &str| name == "hamutsigra" || needed.contains(&name);
    let not_needed = crates.iter().find(|(name, _)| !is_needed(name)).expect("one").0;
    set_age(&folder.path("target/staticlib/libhamutsigra.a"), 30);
    for (name, expected) in [(not_needed, 2), (needed[0], 4)] {
        set_age(&folder.path("crates").join(name).join("src/lib.rt"), 20);
        make(&folder, "lib").expect_done();
        assert_eq!(calls(&folder), expected, "{name} has changed");
    }
}
