//! The tool killed at each call that changes a file.

use crate::common::Folder;
use std::io::Write;
use std::path::PathBuf;
use std::process::{Command, Stdio};
use std::sync::OnceLock;

/// How a run ended.
#[derive(Debug, PartialEq, Eq)]
pub enum End {
    Killed,
    /// It came to its end before the call with this number.
    Status(i32),
}

/// Runs the tool, with bytes on its standard input, and kills it at a call.
pub fn killed_at(folder: &Folder, call: usize, line: &str, input: &[u8]) -> End {
    let mut command = Command::new(env!("CARGO_BIN_EXE_card"));
    command.args(line.split_whitespace()).current_dir(folder);
    command.env("LD_PRELOAD", killer()).env("KILL_AT", call.to_string());
    command.stdin(Stdio::piped()).stdout(Stdio::piped()).stderr(Stdio::piped());
    let mut child = command.spawn().expect("the tool runs");
    let _ = child.stdin.take().expect("an input").write_all(input);
    let status = child.wait_with_output().expect("the tool ends").status;
    status.code().map_or(End::Killed, End::Status)
}

/// The library that kills, compiled once.
fn killer() -> &'static PathBuf {
    static KILLER: OnceLock<PathBuf> = OnceLock::new();
    KILLER.get_or_init(|| {
        let folder = PathBuf::from(env!("CARGO_TARGET_TMPDIR"));
        let (library, new) = (folder.join("killer.so"), folder.join("killer.so.new"));
        let source = concat!(env!("CARGO_MANIFEST_DIR"), "/tests/killer/killer.c");
        let mut compiler = Command::new("cc");
        compiler.args(["-shared", "-fPIC", "-o"]).arg(&new).arg(source).arg("-ldl");
        assert!(compiler.status().expect("a C compiler").success());
        std::fs::rename(&new, &library).expect("the folder of the build is writable");
        library
    })
}
