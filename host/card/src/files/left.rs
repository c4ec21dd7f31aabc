//! What an interrupted write has left, and to what it belongs.
//!
//! A write makes its note, then the new files, then renames the first one, then the
//! second (see `replace`). So a new second file without a new first one has only to
//! follow; in any other state the write has not happened, and the old files are there.
//! But a name may have been given to another card since then: the second file follows
//! only where both files are those of the note. Who only looks sees it so in memory.

use crate::failure::Failure;
use crate::files;
use crate::files::names::{folder, is_taken, new_name, note_name, NOTE};
use crate::files::note::{Found, Note, Sum};
use crate::files::replace::put_in_place;
use std::fs;
use std::path::Path;

/// What a write that was interrupted has left.
pub enum Left {
    Nothing,
    /// Of a write that has not happened, or that has only to be tidied up after.
    Remains(Option<Note>),
    /// The second file has still to follow: these are its bytes.
    Follows(Note, Vec<u8>),
}

/// What is left beside the files of an image: one, or the first and the second.
pub fn find(files: &[&Path]) -> Result<Left, Failure> {
    let Some(last) = files.last() else {
        return Ok(Left::Nothing);
    };
    let note = match Note::beside(last)? {
        Found::Whole(note) => note,
        Found::Part => return Ok(Left::Remains(None)),
        Found::Nothing => {
            not_copied_in_between(files)?;
            return Ok(Left::Nothing);
        }
    };
    let [first, second] = files[..] else {
        return Ok(Left::Remains(Some(note)));
    };
    let Some(bytes) = files::read_if_plain(&new_name(second))? else {
        return Ok(Left::Remains(Some(note)));
    };
    match misfit(&note, first, second, &bytes)? {
        None => Ok(Left::Follows(note, bytes)),
        Some(_) if is_taken(&new_name(first)) => Ok(Left::Remains(Some(note))),
        Some(misfit) => Err(misfit),
    }
}

/// Ends what is left: the second file follows, or the new files are removed. Says
/// whether a second file has followed.
pub fn end(files: &[&Path]) -> Result<bool, Failure> {
    match find(files)? {
        Left::Nothing => Ok(false),
        Left::Follows(note, _) => {
            put_in_place(files[1])?;
            remove(files, &note)?;
            Ok(true)
        }
        Left::Remains(Some(note)) => {
            if !note.is_of(files) {
                return Err(of_others(files, &note));
            }
            remove(files, &note)?;
            Ok(false)
        }
        Left::Remains(None) => remove_file(&note_name(files[files.len() - 1])).map(|()| false),
    }
}

/// Removes the new files of a note, then the note. The last one goes first, so that
/// none is left that looks as if it had only to follow.
fn remove(files: &[&Path], note: &Note) -> Result<(), Failure> {
    for (path, noted) in files.iter().zip(&note.files).rev() {
        let new = new_name(path);
        if is_part_of(&new, noted.new)? {
            remove_file(&new)?;
        }
    }
    remove_file(&note_name(files[files.len() - 1]))
}

/// Whether a file may be what was written of new bytes. If not it is somebody else's.
fn is_part_of(new: &Path, whole: Sum) -> Result<bool, Failure> {
    let there = files::read_if_plain(new)?.map(|bytes| Sum::of(&bytes));
    Ok(there.is_some_and(|there| there == whole || there.length < whole.length))
}

fn remove_file(path: &Path) -> Result<(), Failure> {
    fs::remove_file(path).map_err(|error| Failure::cannot_remove(path, &error))
}

/// Why a second file must not follow, if it must not.
fn misfit(
    note: &Note,
    first: &Path,
    second: &Path,
    follows: &[u8],
) -> Result<Option<Failure>, Failure> {
    let [of_first, of_second] = &note.files[..] else {
        return Ok(Some(of_others(&[first, second], note)));
    };
    let what = if !note.is_of(&[first, second]) {
        return Ok(Some(of_others(&[first, second], note)));
    } else if Sum::of(follows) != of_second.new {
        format!("{} is not what it was", new_name(second).display())
    } else if Sum::of_file(first)? != Some(of_first.new) {
        format!("{} is not the data that it was made with", first.display())
    } else if ![of_second.old, Some(of_second.new)].contains(&Sum::of_file(second)?) {
        format!("{} is not the file that it was to replace", second.display())
    } else {
        return Ok(None);
    };
    Ok(Some(does_not_belong(first, second, &what)))
}

fn does_not_belong(first: &Path, second: &Path, what: &str) -> Failure {
    let (new, note) = (new_name(second), note_name(second));
    let (first, second) = (first.display(), second.display());
    let (new, note) = (new.display(), note.display());
    Failure::Left(format!(
        "{new} was left by an interrupted write to {first} and {second}, and does not belong to \
         what is there now: {what}.\n      \
         If another card was put there, move {new} and {note} away. If not, put back {first} \
         and {second} as that write left them."
    ))
}

fn of_others(files: &[&Path], note: &Note) -> Failure {
    let shown = |names: Vec<String>| names.join(" and ");
    let these = shown(files.iter().map(|path| path.display().to_string()).collect());
    let noted = note.files.iter().map(|noted| noted.name.display().to_string());
    let those = shown(noted.collect());
    let note = note_name(files[files.len() - 1]);
    let note = note.display();
    Failure::Left(format!(
        "{note} was left by an interrupted write to {those}, and not to {these}.\n      \
         Give the files the names that they had then, or move {note} away with the .card-new \
         files that belong to it."
    ))
}

/// A pair that is the copy of one whose second file had still to follow: by itself
/// it is neither the old card nor the new one.
fn not_copied_in_between(files: &[&Path]) -> Result<(), Failure> {
    let [first, second] = files[..] else {
        return Ok(());
    };
    let Ok(entries) = fs::read_dir(folder(second)) else {
        return Ok(());
    };
    for entry in entries.flatten() {
        let name = entry.file_name();
        let Some(noted) = name.to_str().and_then(|name| name.strip_suffix(NOTE)) else {
            continue;
        };
        let original = folder(second).join(noted);
        if let Found::Whole(note) = Note::beside(&original)? {
            if is_between(&note, first, second)? {
                return Err(copied(first, second, &note, &original));
            }
        }
    }
    Ok(())
}

/// Whether these are the new first and the old second file of a note.
fn is_between(note: &Note, first: &Path, second: &Path) -> Result<bool, Failure> {
    let [of_first, of_second] = &note.files[..] else {
        return Ok(false);
    };
    Ok(Some(of_first.new) != of_first.old
        && Sum::of_file(first)? == Some(of_first.new)
        && Sum::of_file(second)? == of_second.old)
}

fn copied(first: &Path, second: &Path, note: &Note, original: &Path) -> Failure {
    let of_first = original.with_file_name(&note.files[0].name);
    let (of_first, of_second) = (of_first.display(), original.display());
    let (first, second) = (first.display(), second.display());
    Failure::Left(format!(
        "{first} and {second} are a copy of {of_first} and {of_second}, made between the two \
         halves of an interrupted write: the data are new, the spare bytes old.\n      \
         Run `card power-up --data {of_first} --spare {of_second}`, then copy both again."
    ))
}
