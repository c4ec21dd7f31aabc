//! Files written whole: a crash at any moment leaves the old bytes or the new
//! ones, never a part.
//!
//! New bytes go to a file beside the old one, named as it with `.card-new` at the
//! end, and reach the disk there; then this file is renamed over the old one. Before
//! that a note, `.card-note`, says which files the write is of: see `note`.
//!
//! The two files of a two-file image are replaced as one. Both new files are made,
//! the first one first; then the first is renamed, then the second; then the note is
//! removed. What a crash leaves in between is for `left` to tell.

use crate::failure::Failure;
use crate::files;
use crate::files::hold::{hold, For};
use crate::files::left;
use crate::files::names::{folder, followed, is_taken, new_name, note_name};
use crate::files::note::Note;
use std::fs::{self, File, OpenOptions};
use std::io::{self, ErrorKind, Write};
use std::os::unix::fs::{fchown, MetadataExt};
use std::path::{Path, PathBuf};

/// A file and all the bytes that it is to have.
pub type Whole<'a> = (&'a Path, &'a [u8]);

/// Replaces files (or makes them, where there are none) by these bytes.
pub fn replace(files: &[Whole]) -> Result<(), Failure> {
    left::end(&paths(files))?;
    put(files, put_in_place)
}

/// Makes files that must not be there yet.
pub fn create(files: &[Whole]) -> Result<(), Failure> {
    let _held = hold(paths(files), For::Changing);
    let finished = left::end(&paths(files))?;
    if finished && are_there(files)? {
        // They are what an interrupted `create` was about to make.
        return Ok(());
    }
    match files.iter().find(|(path, _)| is_taken(path)) {
        Some((path, _)) => Err(Failure::exists(path)),
        None => put(files, link_in_place),
    }
}

/// Writes bytes out to a file that is no image. What is there and is no plain file
/// (a device, for one) is written to, not replaced.
pub fn write_out(path: &Path, bytes: &[u8]) -> Result<(), Failure> {
    if fs::metadata(path).is_ok_and(|is| !is.is_file()) {
        let opened = OpenOptions::new().write(true).open(path);
        let mut file = opened.map_err(|error| Failure::cannot_create(path, &error))?;
        return file.write_all(bytes).map_err(|error| Failure::interrupted(path, &error));
    }
    let _held = hold([path], For::Changing);
    replace(&[(path, bytes)])
}

/// Renames a new file over the old one.
pub fn put_in_place(path: &Path) -> Result<(), Failure> {
    let renamed = fs::rename(new_name(path), followed(path));
    renamed.map_err(|error| Failure::interrupted(path, &error))?;
    sync_folder(path);
    Ok(())
}

/// Gives a new file its name, which must be free. Where a file cannot have two names
/// it is renamed: no other command of the tool is at work then.
fn link_in_place(path: &Path) -> Result<(), Failure> {
    let new = new_name(path);
    match fs::hard_link(&new, path) {
        Err(error) if error.kind() == ErrorKind::AlreadyExists => Err(Failure::exists(path)),
        Err(_) => put_in_place(path),
        Ok(()) => {
            // Its other name is in nobody's way while the note is there.
            let _ = fs::remove_file(&new);
            sync_folder(path);
            Ok(())
        }
    }
}

/// A new name reaches the disk with the folder; not every file system can be told so.
fn sync_folder(path: &Path) {
    let _ = File::open(folder(path)).and_then(|folder| folder.sync_all());
}

fn put(files: &[Whole], place: fn(&Path) -> Result<(), Failure>) -> Result<(), Failure> {
    let Some((first, rest)) = files.split_first() else {
        return Ok(());
    };
    let note = make_note(files)?;
    let made = files.iter().try_for_each(make_new);
    // What says to which files a new one belongs is on the disk before any is replaced.
    files.iter().for_each(|(path, _)| sync_folder(path));
    made.and_then(|()| place(first.0)).inspect_err(|_| {
        // Nothing has been replaced yet; what cannot be removed is told from its note.
        let _ = left::end(&paths(files));
    })?;
    rest.iter().try_for_each(|(path, _)| place(path).map_err(|failure| begun(&failure)))?;
    // All is done. A note that stays says no more than that, and goes with the next one.
    let _ = fs::remove_file(&note);
    Ok(())
}

/// The second file could not follow: it will with the next command.
fn begun(failure: &Failure) -> Failure {
    let message = "the write has begun, and the next command that changes the card ends it";
    Failure::Interrupted(format!("{failure}\n      Nothing is lost: {message}."))
}

/// Makes the note on the replacement of these files. A file that has the name of a new
/// one is somebody else's then, and stays.
fn make_note(files: &[Whole]) -> Result<PathBuf, Failure> {
    let note = note_name(files[files.len() - 1].0);
    let mut names: Vec<_> = files.iter().map(|(path, _)| new_name(path)).collect();
    names.push(note.clone());
    if let Some(taken) = names.iter().find(|name| is_taken(name)) {
        return Err(Failure::in_the_way(taken));
    }
    let text = Note::on(files)?.to_text();
    write_new(&note, text.as_bytes(), files[files.len() - 1].0).inspect_err(|_| {
        let _ = fs::remove_file(&note);
    })?;
    Ok(note)
}

fn make_new((path, bytes): &Whole) -> Result<(), Failure> {
    write_new(&new_name(path), bytes, path)
}

/// Makes a file that is not there yet, for those who may use an old one. What has its
/// name is left alone: it may be a link to a file that is somebody else's.
fn write_new(new: &Path, bytes: &[u8], old: &Path) -> Result<(), Failure> {
    let opened = OpenOptions::new().write(true).create_new(true).open(new);
    let mut file = opened.map_err(|error| Failure::cannot_create(new, &error))?;
    let written = file.write_all(bytes).and_then(|()| keep_owner_and_permissions(old, &file));
    let written = written.and_then(|()| file.sync_all());
    written.map_err(|error| Failure::interrupted(new, &error))
}

fn keep_owner_and_permissions(old: &Path, new: &File) -> io::Result<()> {
    let Ok(old) = fs::metadata(old) else {
        return Ok(());
    };
    // Only root may give a file away; others may give it to a group of theirs.
    if fchown(new, Some(old.uid()), Some(old.gid())).is_err() {
        let _ = fchown(new, None, Some(old.gid()));
    }
    new.set_permissions(old.permissions())
}

fn are_there(files: &[Whole]) -> Result<bool, Failure> {
    for (path, bytes) in files {
        if files::read_if_there(path)?.as_deref() != Some(*bytes) {
            return Ok(false);
        }
    }
    Ok(true)
}

fn paths<'a>(files: &[Whole<'a>]) -> Vec<&'a Path> {
    files.iter().map(|(path, _)| *path).collect()
}
