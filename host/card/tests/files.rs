//! Files that are not as they should be, and that nothing is lost.

mod common;

use common::{run, Folder, Run, DUMP_BYTES, SHAPE_ARGUMENTS};
use std::fs::{self, Permissions};
use std::os::unix::fs::{chown, symlink, FileTypeExt, MetadataExt, PermissionsExt};
use std::os::unix::process::CommandExt;
use std::process::Command;

/// All verbs that take the image of a card.
const VERBS: [&str; 8] = ["format", "power-up", "read", "write", "load", "lend", "show", "check"];

fn line(verb: &str, image: &str) -> String {
    let rest = match verb {
        "read" | "write" | "lend" => "0",
        "load" => "0 -",
        _ => "",
    };
    format!("{verb} {image} {rest} {SHAPE_ARGUMENTS}")
}

#[test]
fn a_missing_file() {
    let folder = Folder::new();
    for verb in VERBS {
        let run = folder.card_with_input(&line(verb, "none.img"), &[1; 512]);
        run.expect_failure(66, &["none.img: cannot be read: No such file"]);
    }
    assert_eq!(folder.names(), [""; 0]);
}

#[test]
fn a_missing_page_or_block_file() {
    let folder = Folder::with_card();
    let before = folder.state("card.img");
    for verb in ["write", "load"] {
        folder.on_card(verb, "0 none").expect_failure(66, &["none: cannot be read"]);
        folder.on_card(verb, "0 .").expect_failure(66, &["it is a folder"]);
    }
    assert_eq!(folder.state("card.img"), before);
}

#[test]
fn a_short_or_odd_file() {
    let folder = Folder::new();
    for bytes in [0, 1, 511, 527, 528, 529, 5 * 528, DUMP_BYTES - 1, DUMP_BYTES + 1] {
        folder.put("card.img", &vec![255; bytes]);
        let before = folder.state("card.img");
        let word = match bytes {
            0 => "it is empty",
            528 | 2640 => "it has fewer pages than any card: ",
            _ => "not whole pages of 528 bytes",
        };
        for verb in VERBS {
            let run = folder.card_with_input(&line(verb, "card.img"), &[1; 512]);
            run.expect_failure(65, &["card.img: no image: ", word]);
        }
        assert_eq!(folder.state("card.img"), before);
    }
    assert_eq!(folder.names(), ["card.img"]);
}

#[test]
fn a_file_larger_than_any_card() {
    let folder = Folder::new();
    let file = fs::File::create(folder.path("card.img")).expect("a file");
    file.set_len(1 << 30).expect("a large file");
    folder.on_card("format", "").expect_failure(65, &["larger than any card"]);
    folder.card(&line("show", "/dev/zero")).expect_failure(65, &["larger than any card"]);
}

#[test]
fn a_folder_for_an_image() {
    let folder = Folder::new();
    fs::create_dir(folder.path("card.img")).expect("a folder");
    for verb in VERBS {
        let run = folder.card_with_input(&line(verb, "card.img"), &[1; 512]);
        run.expect_failure(66, &["card.img: cannot be read: it is a folder"]);
    }
    folder.card("new card.img -P 4 -B 4").expect_failure(73, &["card.img: cannot be created"]);
    let read_to = Folder::after_case_4();
    fs::create_dir(read_to.path("out")).expect("a folder");
    read_to.on_card("read", "0 out").expect_failure(73, &["out: cannot be created"]);
    assert_eq!(read_to.names(), ["card.img", "out"]);
}

#[test]
fn a_device_is_not_replaced_by_a_file() {
    let folder = Folder::new();
    for verb in ["format", "power-up", "write"] {
        let run = folder.card_with_input(&line(verb, "/dev/null"), &[1; 512]);
        run.expect_failure(66, &["/dev/null: not a plain file"]);
    }
    let kind = fs::metadata("/dev/null").expect("the device").file_type();
    assert!(kind.is_char_device());
}

#[test]
fn new_and_demo_do_not_overwrite() {
    let folder = Folder::after_case_4();
    let before = folder.state("card.img");
    let words = ["card.img: cannot be created: it exists already; give another name"];
    folder.card("new card.img -P 4 -B 4").expect_failure(73, &words);
    assert_eq!(folder.card("demo card.img").expect_failure(73, &words).out, []);
    assert_eq!(folder.state("card.img"), before);

    // Of a pair none is made if one is there.
    folder.card("new --data d --spare card.img -P 4 -B 4").expect_failure(73, &["card.img"]);
    assert_eq!(folder.names(), ["card.img"]);
}

#[test]
fn a_folder_that_is_not_there() {
    let folder = Folder::with_card();
    folder.card("new none/card.img -P 4 -B 4").expect_failure(73, &["none/card.img"]);
    folder.on_card("read", "0 none/page").expect_failure(73, &["none/page"]);
}

/// Runs the tool as a user without rights of its own. Root may write anywhere, so
/// root runs it as nobody; a copy of it, since nobody may not come where it was
/// built.
fn as_nobody(folder: &Folder, line: &str) -> Run {
    let mut command = Command::new(folder.path("tool"));
    command.args(line.split_whitespace()).current_dir(folder);
    if fs::metadata(folder).expect("the folder").uid() == 0 {
        command.uid(65534).gid(65534);
    }
    run(command, &[15; 512])
}

/// The copy is made by another process: a file that is open for writing here might
/// be so in a child of another test too, and could not be run.
fn with_tool() -> Folder {
    let folder = Folder::after_case_4();
    let mut copy = Command::new("cp");
    copy.arg(env!("CARGO_BIN_EXE_card")).arg(folder.path("tool"));
    run(copy, &[]).expect_done();
    folder
}

fn set_mode(folder: &Folder, name: &str, mode: u32) {
    fs::set_permissions(folder.path(name), Permissions::from_mode(mode)).expect(name);
}

#[test]
fn an_unwritable_folder() {
    let folder = with_tool();
    let before = folder.state("card.img");
    set_mode(&folder, "card.img", 0o666);
    set_mode(&folder, ".", 0o555);
    let denied = |line: &str, name: &str| {
        as_nobody(&folder, line).expect_failure(73, &[name, "denied"]);
    };
    denied(&line("write", "card.img"), "card.img.card-note: cannot be created");
    denied("new other.img -P 4 -B 4", "other.img.card-note: cannot be created");
    denied(&format!("read card.img 0 page {SHAPE_ARGUMENTS}"), "page.card-note");
    as_nobody(&folder, &line("show", "card.img")).expect_done();

    set_mode(&folder, ".", 0o755);
    assert_eq!(folder.state("card.img"), before);
    assert_eq!(folder.names(), ["card.img", "tool"]);
}

#[test]
fn an_unwritable_file_in_a_writable_folder() {
    let folder = with_tool();
    let before = folder.state("card.img");
    set_mode(&folder, "card.img", 0o444);
    set_mode(&folder, ".", 0o777);
    let run = as_nobody(&folder, &line("write", "card.img"));
    run.expect_failure(73, &["card.img: cannot be created or replaced", "denied"]);
    as_nobody(&folder, &line("show", "card.img")).expect_done();
    assert_eq!(folder.state("card.img"), before);
    assert_eq!(folder.names(), ["card.img", "tool"]);
}

#[test]
fn an_unreadable_file() {
    let folder = with_tool();
    set_mode(&folder, "card.img", 0o200);
    let run = as_nobody(&folder, &line("show", "card.img"));
    run.expect_failure(66, &["card.img: cannot be read", "denied"]);
}

/// What has the name of a new file is not known to be the tool's: it stays.
#[test]
fn something_in_the_way_of_the_new_file() {
    let folder = Folder::after_case_4();
    let before = folder.state("card.img");
    folder.put("other", b"of somebody else");
    for name in ["card.img.card-new", "card.img.card-note"] {
        let way = folder.path(name);
        let refused = || {
            let words = [name, "is in the way of a new file", "move it away"];
            folder.write(4, 15, "").expect_failure(73, &words);
            folder.on_card("show", "").expect_done();
            assert_eq!(folder.state("card.img"), before);
        };
        fs::create_dir(&way).expect("a folder in the way");
        refused();
        fs::remove_dir(&way).expect("still there");
        symlink("other", &way).expect("a link in the way");
        refused();
        fs::remove_file(&way).expect("still there");
        folder.put(name, b"my own");
        refused();
        assert_eq!(folder.bytes(name), b"my own");
        fs::remove_file(&way).expect("still there");
    }
    assert_eq!(folder.bytes("other"), b"of somebody else");
    folder.write(4, 15, "").expect_done();
    assert_eq!(folder.names(), ["card.img", "other"]);
}

/// A file with two names: after a write the other one would have the old bytes.
#[test]
fn a_hard_link_is_not_cut_off() {
    let folder = Folder::after_case_4();
    fs::hard_link(folder.path("card.img"), folder.path("backup")).expect("a hard link");
    let before = folder.state("card.img");
    for verb in ["write", "format"] {
        let run = folder.card_with_input(&line(verb, "card.img"), &[15; 512]);
        run.expect_failure(73, &["card.img: this file has 2 names (hard links)", "--force"]);
        assert_eq!(
            (folder.state("card.img"), folder.state("backup")),
            (before.clone(), before.clone())
        );
    }
    folder.on_card("show", "").expect_done();
    folder.on_card("power-up", "").expect_failure(73, &["hard links"]);
    folder.write(0, 15, "--force").expect_done();
    assert_eq!(folder.state("backup"), before);
    assert_eq!(folder.on_card("read", "0").out, [15; 512]);
}

/// A page is not written over what may be a card.
#[test]
fn a_read_does_not_overwrite_a_card() {
    let folder = Folder::after_case_4();
    folder.card("new blank.img -P 2 -B 3").expect_done();
    folder.card("new --data d --spare s -P 8 -B 4").expect_done();
    let write = "write 1 --data d --spare s -P 8 -L 2 -K 1";
    folder.card_with_input(write, &[1; 512]).expect_done();
    assert_eq!(folder.bytes("s").len(), 512, "as long as a page");
    fs::copy(folder.path("card.img"), folder.path("other.img")).expect("a copy");
    for (name, what) in [
        ("other.img", "the image of a card"),
        ("blank.img", "the image of a card"),
        ("d", "the data bytes of a card"),
        ("s", "the spare bytes of a card"),
    ] {
        let before = folder.state(name);
        for hex in ["", "--hex"] {
            let run = folder.on_card("read", &format!("1 {name} {hex}"));
            run.expect_failure(73, &[name, "this may be ", what, "Give another name, or --force"]);
            assert_eq!(folder.state(name), before);
        }
        folder.on_card("read", &format!("1 {name} --force")).expect_done();
        assert_eq!(folder.bytes(name), [12; 512]);
    }
    // A page read before is no card, whatever is in it.
    folder.on_card("read", "2 d").expect_done();
    fs::hard_link(folder.path("d"), folder.path("d2")).expect("a hard link");
    folder.on_card("read", "3 d").expect_failure(73, &["d: this file has 2 names"]);
    assert_eq!(folder.bytes("d2"), [13; 512]);
}

/// Where a file may not grow, writing to it ends the tool on the spot.
#[test]
fn a_crash_while_writing_loses_nothing() {
    let folder = Folder::after_case_4();
    let before = folder.state("card.img");
    let mut command = Command::new("sh");
    let tool = env!("CARGO_BIN_EXE_card");
    let script = format!("ulimit -c 0; ulimit -f 1; '{tool}' write card.img 4 {SHAPE_ARGUMENTS}");
    command.args(["-c", &script]).current_dir(&folder);
    let crashed = run(command, &[15; 512]);
    assert!(crashed.status > 128, "ended by a signal, not with {}", crashed.status);
    assert_eq!(folder.state("card.img"), before);
    assert_eq!(folder.names(), ["card.img", "card.img.card-new", "card.img.card-note"]);
    folder.on_card("show", "").expect_done();

    folder.write(4, 15, "").expect_done();
    assert_eq!(folder.on_card("read", "4").out, [15; 512]);
    assert_eq!(folder.names(), ["card.img"]);
}

/// The same where the tool lives on to say so, as on a full disk.
#[test]
fn a_full_disk_loses_nothing() {
    let folder = Folder::after_case_4();
    let before = folder.state("card.img");
    folder.put("page", &[15; 512]);
    let tool = env!("CARGO_BIN_EXE_card");
    for line in [format!("write card.img 4 page {SHAPE_ARGUMENTS}"), "new n -P 4 -B 4".into()] {
        let mut command = Command::new("sh");
        let script = format!("trap '' XFSZ; ulimit -f 1; '{tool}' {line}");
        command.args(["-c", &script]).current_dir(&folder);
        run(command, &[]).expect_failure(74, &["cannot be written"]);
        assert_eq!(folder.state("card.img"), before);
        assert_eq!(folder.names(), ["card.img", "page"]);
    }
}

#[test]
fn a_full_device() {
    let folder = Folder::after_case_4();
    let words = ["/dev/full: cannot be written", "No space left"];
    folder.on_card("read", "1 /dev/full").expect_failure(74, &words);
    let mut command = Command::new("sh");
    let tool = env!("CARGO_BIN_EXE_card");
    let script = format!("'{tool}' show card.img {SHAPE_ARGUMENTS} > /dev/full");
    command.args(["-c", &script]).current_dir(&folder);
    run(command, &[]).expect_failure(74, &["standard output", "No space left"]);
}

#[test]
fn the_image_is_replaced_by_a_new_file_with_its_permissions() {
    let folder = Folder::after_case_4();
    fs::set_permissions(folder.path("card.img"), Permissions::from_mode(0o640)).expect("set");
    let before = fs::metadata(folder.path("card.img")).expect("the image");
    folder.write(4, 15, "").expect_done();
    let after = fs::metadata(folder.path("card.img")).expect("the image");
    assert_ne!(after.ino(), before.ino());
    assert_eq!(after.mode(), before.mode());
    assert_eq!((after.uid(), after.gid()), (before.uid(), before.gid()));
    assert_eq!(folder.names(), ["card.img"]);
}

/// A user who may write to the image by its group: the image stays the group's, even
/// where new files in the folder are given to another group. (Only root can try.)
#[test]
fn the_group_of_the_image_is_kept() {
    let folder = with_tool();
    if fs::metadata(&folder).expect("the folder").uid() != 0 {
        return;
    }
    chown(folder.path("card.img"), Some(0), Some(65534)).expect("root");
    set_mode(&folder, "card.img", 0o664);
    chown(folder.path("."), Some(0), Some(12345)).expect("root");
    set_mode(&folder, ".", 0o2777);
    as_nobody(&folder, &line("write", "card.img")).expect_done();
    let after = fs::metadata(folder.path("card.img")).expect("the image");
    assert_eq!((after.uid(), after.gid(), after.mode() & 0o7777), (65534, 65534, 0o664));
}

/// What was done is done, whether or not it can be said: that has a status of its own.
#[test]
fn a_write_that_cannot_be_reported_is_done() {
    let folder = Folder::after_case_4();
    folder.put("page", &[15; 512]);
    let tool = env!("CARGO_BIN_EXE_card");
    let to_full = |line: &str| {
        let mut command = Command::new("sh");
        command.args(["-c", &format!("'{tool}' {line} > /dev/full")]).current_dir(&folder);
        run(command, &[])
    };
    let words =
        ["standard output", "No space left", "All was done all the same", "write of page 4"];
    to_full(&format!("write card.img 4 page {SHAPE_ARGUMENTS}")).expect_failure(75, &words);
    assert_eq!(folder.on_card("read", "4").out, [15; 512]);
    to_full(&format!("power-up card.img {SHAPE_ARGUMENTS}")).expect_failure(75, &["All was done"]);
    to_full(&format!("format card.img {SHAPE_ARGUMENTS}")).expect_failure(75, &["All was done"]);
    assert_eq!(folder.bytes("card.img"), [255; DUMP_BYTES]);
    // What there is to show is not shown: that is a write that broke off.
    to_full(&format!("show card.img {SHAPE_ARGUMENTS}")).expect_failure(74, &["standard output"]);
    let help = folder.card("--help").text;
    assert!(help.contains("75 all was done, but could not be said"), "{help}");
    assert!(help.contains("74 writing broke off"));
}

#[test]
fn a_link_stays_a_link() {
    let folder = Folder::after_case_4();
    fs::create_dir(folder.path("links")).expect("a folder");
    symlink("../card.img", folder.path("links/link")).expect("a link");
    folder.card_with_input(&line("write", "links/link"), &[15; 512]).expect_done();
    assert!(folder.path("links/link").is_symlink());
    assert_eq!(folder.on_card("read", "0").out, [15; 512]);
    assert_eq!(folder.names(), ["card.img", "links"]);
    folder.card(&format!("read links/link 0 card.img {SHAPE_ARGUMENTS}")).expect_failure(64, &[]);
}

#[test]
fn a_reader_that_stops_early_is_no_failure() {
    let folder = Folder::after_case_4();
    let script =
        format!("'{}' show card.img {SHAPE_ARGUMENTS} | true; true", env!("CARGO_BIN_EXE_card"));
    let mut command = Command::new("sh");
    command.args(["-c", &script]).current_dir(&folder);
    run(command, &[]).expect_done();
}

#[test]
fn commands_on_one_image_wait_for_each_other() {
    let folder = Folder::with_card();
    // By whatever name.
    fs::create_dir(folder.path("links")).expect("a folder");
    symlink("../card.img", folder.path("links/link")).expect("a link");
    std::thread::scope(|scope| {
        for number in 0..8 {
            let name = if number % 2 == 0 { "card.img" } else { "links/link" };
            let line = format!("write {name} {number} {SHAPE_ARGUMENTS}");
            let folder = &folder;
            scope.spawn(move || {
                // On a busy machine it may say that it waits.
                folder.card_with_input(&line, &[100 + number; 512]).expect_status(0);
            });
        }
    });
    for number in 0..8 {
        assert_eq!(folder.on_card("read", &number.to_string()).out, [100 + number; 512]);
    }
    assert_eq!(folder.names(), ["card.img", "links"]);
}
