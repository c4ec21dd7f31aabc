//! Commands of the tool on one image wait for each other.

use crate::files::names::folder;
use crate::stream::complain;
use std::collections::BTreeSet;
use std::fs::{File, TryLockError};
use std::path::{Path, PathBuf};
use std::thread::sleep;
use std::time::{Duration, Instant};

/// Who waits for longer than this is told so.
const PATIENCE: Duration = Duration::from_secs(1);

/// Folders held until this is dropped.
pub struct Held {
    _folders: Vec<File>,
}

/// For what a folder is held.
#[derive(Clone, Copy, PartialEq, Eq)]
pub enum For {
    /// Others may look as well.
    Looking,
    Changing,
}

/// Waits until no other command of the tool is in the way, then holds the folders of
/// these files. Not every file system can do this; there the commands are not kept
/// apart. The folders are taken in one order, so that no two commands wait for each
/// other.
pub fn hold<'a>(files: impl IntoIterator<Item = &'a Path>, aim: For) -> Held {
    let folders: BTreeSet<PathBuf> = files.into_iter().map(folder).collect();
    Held { _folders: folders.iter().filter_map(|folder| hold_one(folder, aim)).collect() }
}

fn hold_one(folder: &Path, aim: For) -> Option<File> {
    let file = File::open(folder).ok()?;
    let started = Instant::now();
    while let Err(TryLockError::WouldBlock) = attempt(&file, aim) {
        if started.elapsed() > PATIENCE {
            let folder = folder.display();
            complain(&format!("card: another command is at work in {folder}: waiting for it ..\n"));
            match aim {
                For::Looking => file.lock_shared().ok()?,
                For::Changing => file.lock().ok()?,
            }
            break;
        }
        sleep(PATIENCE / 200);
    }
    Some(file)
}

fn attempt(folder: &File, aim: For) -> Result<(), TryLockError> {
    match aim {
        For::Looking => folder.try_lock_shared(),
        For::Changing => folder.try_lock(),
    }
}
