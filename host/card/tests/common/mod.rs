//! What the tests of the tool have in common: a folder of their own, and the tool
//! run in it.
#![allow(dead_code)] // Each test file uses its own part of this.

use hamutsigra::Shape;
use std::env;
use std::ffi::OsStr;
use std::fs;
use std::io::Write;
use std::os::unix::fs::MetadataExt;
use std::path::{Path, PathBuf};
use std::process::{Command, Output, Stdio};
use std::sync::atomic::{AtomicU32, Ordering};

/// The small card of document 01: 4 blocks, and this shape.
pub const SHAPE: Shape = Shape { pages: 4, logical: 2, logs: 1 };
pub const SHAPE_ARGUMENTS: &str = "-P 4 -L 2 -K 1";
pub const PAGE_IN_DUMP: usize = 528;
pub const DUMP_BYTES: usize = 4 * 4 * PAGE_IN_DUMP;

/// A folder that is removed at the end of the test.
pub struct Folder(PathBuf);

/// What a run of the tool gave.
#[derive(Debug)]
pub struct Run {
    pub status: i32,
    pub out: Vec<u8>,
    pub text: String,
    pub error: String,
}

impl Folder {
    pub fn new() -> Folder {
        static COUNT: AtomicU32 = AtomicU32::new(0);
        let count = COUNT.fetch_add(1, Ordering::Relaxed);
        let folder = env::temp_dir().join(format!("card-test-{}-{count}", std::process::id()));
        fs::create_dir(&folder).expect("a new folder");
        Folder(folder)
    }

    /// A folder with the image of the small card, erased, as `card.img`.
    pub fn with_card() -> Folder {
        let folder = Folder::new();
        folder.card("new card.img -P 4 -B 4").expect_done();
        folder
    }

    pub fn path(&self, name: &str) -> PathBuf {
        self.0.join(name)
    }

    pub fn bytes(&self, name: &str) -> Vec<u8> {
        fs::read(self.path(name)).expect(name)
    }

    pub fn put(&self, name: &str, bytes: &[u8]) {
        fs::write(self.path(name), bytes).expect(name);
    }

    /// The names in the folder.
    pub fn names(&self) -> Vec<String> {
        let entries = fs::read_dir(&self.0).expect("the folder");
        let names = entries.map(|entry| entry.expect("an entry").file_name());
        let mut names: Vec<String> = names.map(|name| name.into_string().expect("text")).collect();
        names.sort();
        names
    }

    /// Runs the tool in the folder; the arguments are the words of a line.
    pub fn card(&self, line: &str) -> Run {
        self.card_with_input(line, &[])
    }

    /// Runs the tool in the folder with bytes on its standard input.
    pub fn card_with_input(&self, line: &str, input: &[u8]) -> Run {
        self.card_with_words(line.split_whitespace(), input)
    }

    /// The same with arguments that need not be text, nor without a space.
    pub fn card_with_words<W>(&self, words: W, input: &[u8]) -> Run
    where
        W: IntoIterator<Item: AsRef<OsStr>>,
    {
        let mut command = Command::new(env!("CARGO_BIN_EXE_card"));
        command.args(words).current_dir(&self.0);
        run(command, input)
    }

    /// Runs a verb on the small card in `card.img`.
    pub fn on_card(&self, verb: &str, rest: &str) -> Run {
        self.card(&format!("{verb} card.img {rest} {SHAPE_ARGUMENTS}"))
    }

    /// Writes a page filled with one byte to `card.img`.
    pub fn write(&self, number: usize, fill: u8, rest: &str) -> Run {
        let line = format!("write card.img {number} {SHAPE_ARGUMENTS} {rest}");
        self.card_with_input(&line, &[fill; 512])
    }

    /// Loads bytes as a logical block of `card.img`.
    pub fn load(&self, number: usize, block: &[u8], rest: &str) -> Run {
        let line = format!("load card.img {number} - {SHAPE_ARGUMENTS} {rest}");
        self.card_with_input(&line, block)
    }

    /// The pages of `card.img` from one to another, each filled with one byte: these
    /// bytes.
    pub fn fills(&self, from: usize, to: usize) -> Vec<u8> {
        let run = self.on_card("dump", &format!("- --from {from} --to {to}"));
        let (pages, rest) = run.expect_status(0).out.as_chunks::<512>();
        assert!(rest.is_empty() && pages.iter().all(|page| *page == [page[0]; 512]));
        pages.iter().map(|page| page[0]).collect()
    }

    /// The small card after case 4 of document 01, in `card.img`.
    pub fn after_case_4() -> Folder {
        let folder = Folder::with_card();
        for (number, fill) in [(1, 10), (0, 11), (1, 12), (2, 13), (3, 14)] {
            folder.write(number, fill, "").expect_done();
        }
        folder
    }

    /// The state of a file: its bytes, and which file it is.
    pub fn state(&self, name: &str) -> (Vec<u8>, u64) {
        (self.bytes(name), fs::metadata(self.path(name)).expect(name).ino())
    }
}

impl Drop for Folder {
    fn drop(&mut self) {
        let _ = fs::remove_dir_all(&self.0);
    }
}

impl AsRef<Path> for Folder {
    fn as_ref(&self) -> &Path {
        &self.0
    }
}

/// Runs a command with bytes on its standard input.
pub fn run(mut command: Command, input: &[u8]) -> Run {
    // A terminal's variables do not reach the tool: it writes to a pipe here.
    command.stdin(Stdio::piped()).stdout(Stdio::piped()).stderr(Stdio::piped());
    // The shape is set only where a test sets it.
    if !command.get_envs().any(|(name, _)| name == "CARD_SHAPE") {
        command.env_remove("CARD_SHAPE");
    }
    let mut child = command.spawn().expect("the tool runs");
    // The tool may refuse before it has read all.
    let _ = child.stdin.take().expect("an input").write_all(input);
    let Output { status, stdout, stderr } = child.wait_with_output().expect("the tool ends");
    Run {
        status: status.code().expect("an exit status"),
        text: String::from_utf8_lossy(&stdout).into_owned(),
        out: stdout,
        error: String::from_utf8(stderr).expect("a message in text"),
    }
}

impl Run {
    #[track_caller]
    pub fn expect_done(&self) -> &Run {
        assert_eq!((self.status, self.error.as_str()), (0, ""));
        self
    }

    #[track_caller]
    pub fn expect_status(&self, status: i32) -> &Run {
        assert_eq!(self.status, status, "{}{}", self.text, self.error);
        self
    }

    /// It ended with this status and a message that has these words.
    #[track_caller]
    pub fn expect_failure(&self, status: i32, words: &[&str]) -> &Run {
        assert_eq!(self.status, status, "{}", self.error);
        assert!(self.error.starts_with("card: "), "{}", self.error);
        for word in words {
            assert!(self.error.contains(word), "{word:?} is missing in: {}", self.error);
        }
        self
    }
}

/// A logical block of the small card, each page filled with one byte.
pub fn block(fills: [u8; 4]) -> Vec<u8> {
    fills.map(|fill| [fill; 512]).concat()
}

/// Puts bytes over the spare bytes of a flash page of `card.img`.
pub fn set_spare(folder: &Folder, page: usize, byte: usize, bytes: &[u8]) {
    let mut image = folder.bytes("card.img");
    let at = page * PAGE_IN_DUMP + 512 + byte;
    image[at..at + bytes.len()].copy_from_slice(bytes);
    folder.put("card.img", &image);
}

/// The dump of a data and a spare image.
pub fn dump(data: &[u8], spare: &[u8]) -> Vec<u8> {
    let pages = data.chunks(512).zip(spare.chunks(16));
    pages.flat_map(|(data, spare)| [data, spare].concat()).collect()
}
