//! The note that stands beside a file while it is replaced. It says to which files a
//! write that is not finished belongs, by their names and checksums, so that what a
//! crash leaves is neither taken for somebody else's file nor put to another card.

use crate::failure::Failure;
use crate::files::names::{followed, note_name};
use crate::files::{self, replace::Whole};
use std::ffi::{OsStr, OsString};
use std::fmt::Write;
use std::os::unix::ffi::{OsStrExt, OsStringExt};
use std::path::Path;

/// How every note begins. What is no more than the start of it is a note as well, of a
/// write that broke off there.
const HEAD: &str =
    "card-note 1: a write that is not finished; the next command that changes the card ends it\n";

/// The files of one write, in the order in which they are replaced.
#[derive(Clone, Debug, PartialEq, Eq)]
pub struct Note {
    pub files: Vec<Noted>,
}

/// A file that is to be replaced.
#[derive(Clone, Debug, PartialEq, Eq)]
pub struct Noted {
    /// Its name without its folder: a folder may be copied whole.
    pub name: OsString,
    /// What it is to be.
    pub new: Sum,
    /// What it was, if it was there.
    pub old: Option<Sum>,
}

/// The length and the checksum of bytes.
#[derive(Clone, Copy, Debug, PartialEq, Eq)]
pub struct Sum {
    pub length: usize,
    pub checksum: u64,
}

/// What has the name of a note.
pub enum Found {
    /// Nothing, or what is somebody else's.
    Nothing,
    /// A note that was not written to its end: nothing else had been made.
    Part,
    Whole(Note),
}

impl Sum {
    /// The checksum is FNV-1a of 64 bits: it has to tell one card from another, and not
    /// to withstand anybody.
    pub fn of(bytes: &[u8]) -> Sum {
        let step = |sum: u64, byte: &u8| (sum ^ u64::from(*byte)).wrapping_mul(0x100_0000_01b3);
        Sum { length: bytes.len(), checksum: bytes.iter().fold(0xcbf2_9ce4_8422_2325, step) }
    }

    /// That of a file, if it is there.
    pub fn of_file(path: &Path) -> Result<Option<Sum>, Failure> {
        Ok(files::read_if_there(path)?.map(|bytes| Sum::of(&bytes)))
    }
}

impl Note {
    /// The note on a replacement that is about to begin.
    pub fn on(files: &[Whole]) -> Result<Note, Failure> {
        let noted = files.iter().map(|(path, bytes)| {
            Ok(Noted { name: name(path), new: Sum::of(bytes), old: Sum::of_file(path)? })
        });
        Ok(Note { files: noted.collect::<Result<_, Failure>>()? })
    }

    /// What has the name of the note beside a file.
    pub fn beside(path: &Path) -> Result<Found, Failure> {
        Ok(files::read_if_plain(&note_name(path))?.map_or(Found::Nothing, |bytes| read(&bytes)))
    }

    /// Whether it is of these files.
    pub fn is_of(&self, files: &[&Path]) -> bool {
        files.iter().map(|path| name(path)).eq(self.files.iter().map(|noted| noted.name.clone()))
    }

    pub fn to_text(&self) -> String {
        let mut text = HEAD.to_string();
        for Noted { name, new, old } in &self.files {
            let old = old.map_or("none".into(), |old| words(&old));
            let _ = writeln!(text, "file {} new {} old {old}", escaped(name), words(new));
        }
        let sum = Sum::of(text.as_bytes()).checksum;
        text + &format!("end {sum:016x}\n")
    }
}

/// A note from what a file by its name has.
fn read(bytes: &[u8]) -> Found {
    let head = HEAD.as_bytes();
    if !bytes.starts_with(head) && !head.starts_with(bytes) {
        return Found::Nothing;
    }
    parse(bytes).map_or(Found::Part, Found::Whole)
}

/// None where it was not written to its end.
fn parse(bytes: &[u8]) -> Option<Note> {
    let text = str::from_utf8(bytes).ok()?;
    let lines: Vec<&str> = text.strip_prefix(HEAD)?.lines().collect();
    let (_, lines) = lines.split_last()?;
    let note = Note { files: lines.iter().map(|line| noted(line)).collect::<Option<_>>()? };
    // With its last line, which has the checksum of those above.
    (note.to_text() == text).then_some(note)
}

fn noted(line: &str) -> Option<Noted> {
    let words: Vec<&str> = line.split(' ').collect();
    let old = match words.get(5..)? {
        ["old", "none"] => None,
        ["old", length, checksum] => Some(sum(length, checksum)?),
        _ => return None,
    };
    let ["file", name, "new", length, checksum] = words[..5] else {
        return None;
    };
    Some(Noted { name: unescaped(name)?, new: sum(length, checksum)?, old })
}

fn sum(length: &str, checksum: &str) -> Option<Sum> {
    let checksum = u64::from_str_radix(checksum, 16).ok()?;
    Some(Sum { length: length.parse().ok()?, checksum })
}

fn words(sum: &Sum) -> String {
    format!("{} {:016x}", sum.length, sum.checksum)
}

fn name(path: &Path) -> OsString {
    followed(path).file_name().unwrap_or_default().to_owned()
}

/// A name as one word of text: it may have spaces, and need not be text at all.
fn escaped(name: &OsStr) -> String {
    let letter = |byte: &u8| match byte {
        b'%' => "%25".to_string(),
        byte if byte.is_ascii_graphic() => char::from(*byte).to_string(),
        byte => format!("%{byte:02x}"),
    };
    name.as_bytes().iter().map(letter).collect()
}

fn unescaped(word: &str) -> Option<OsString> {
    let mut parts = word.split('%');
    let mut name = parts.next()?.as_bytes().to_vec();
    for part in parts {
        let (code, rest) = part.split_at_checked(2)?;
        name.push(u8::from_str_radix(code, 16).ok()?);
        name.extend_from_slice(rest.as_bytes());
    }
    Some(OsString::from_vec(name))
}

#[cfg(test)]
mod tests {
    use super::*;

    fn note() -> Note {
        let name = OsString::from_vec(b"a b%\xff".to_vec());
        let new = Sum::of(b"new");
        let spare = Noted { name: "s".into(), new, old: None };
        Note { files: vec![Noted { name, new, old: Some(Sum::of(b"old")) }, spare] }
    }

    #[test]
    fn a_note_is_read_as_it_was_written() {
        let text = note().to_text();
        assert!(matches!(read(text.as_bytes()), Found::Whole(read) if read == note()));
    }

    #[test]
    fn a_note_broken_off_anywhere_is_a_part() {
        let text = note().to_text();
        for end in 0..text.len() {
            assert!(matches!(read(&text.as_bytes()[..end]), Found::Part), "{end}");
        }
        assert!(matches!(read(b"of somebody else"), Found::Nothing));
        let other = text.replace("file s", "file t");
        assert!(matches!(read(other.as_bytes()), Found::Part), "its checksum is another");
    }

    /// Published values of FNV-1a.
    #[test]
    fn the_checksum_is_fnv_1a() {
        assert_eq!(Sum::of(b"").checksum, 0xcbf2_9ce4_8422_2325);
        assert_eq!(Sum::of(b"a").checksum, 0xaf63_dc4c_8601_ec8c);
        assert_eq!(Sum::of(b"foobar").checksum, 0x8594_4171_f739_67e8);
    }
}
