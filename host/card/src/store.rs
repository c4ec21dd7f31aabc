//! Where an image is kept: in a raw dump, or its data and spare bytes in two
//! files; each of them a file or, as `-`, standard input and output.

use crate::failure::Failure;
use crate::files::hold::{hold, For, Held};
use crate::files::left::{self, Left};
use crate::files::names::is_same;
use crate::files::replace::{self, Whole};
use crate::files::{self, guard, MOST_BYTES};
use crate::image::{Image, DUMP_BYTES};
use crate::stream::{self, complain};
use hamutsigra::{DATA_BYTES, SPARE_BYTES};
use second::shape::{BLOCKS, PAGES};
use std::fs::{self, OpenOptions};
use std::path::{Path, PathBuf};

/// One file, or a stream in its place.
#[derive(Clone, Debug, PartialEq, Eq)]
pub enum Place {
    /// `-`: standard input where it is read, standard output where it is written.
    Stream,
    /// A file by its name.
    File(PathBuf),
}

/// Where an image is kept, and whether it is replaced even if it has other names.
#[derive(Clone, Debug, PartialEq, Eq)]
pub struct Store {
    parts: Parts,
    force: bool,
}

/// The files of an image.
#[derive(Clone, Debug, PartialEq, Eq)]
enum Parts {
    /// 528 bytes a page, data then spare.
    Dump(Place),
    /// Two files.
    Pair { data: Place, spare: Place },
}

/// An image that a command is to change. Other commands of the tool wait until
/// this is dropped, so that none starts from an image about to be replaced.
pub struct Opened {
    pub image: Image,
    /// An interrupted write has left the second file to follow: the image is that of
    /// the write as it will be then.
    pub unfinished: bool,
    _held: Held,
}

impl Place {
    fn path(&self) -> Option<&Path> {
        match self {
            Place::Stream => None,
            Place::File(path) => Some(path),
        }
    }

    /// Reads at most this many bytes.
    pub fn read(&self, most: u64) -> Result<Vec<u8>, Failure> {
        match self {
            Place::Stream => stream::read(most),
            Place::File(path) => files::read(path, most),
        }
    }

    pub fn name(&self) -> String {
        self.name_or("standard input")
    }

    fn name_or(&self, stream: &str) -> String {
        self.path().map_or(stream.into(), |path| path.display().to_string())
    }

    /// Refuses to write over the image that is read.
    pub fn is_not(&self, store: &Store) -> Result<(), Failure> {
        match self.path() {
            Some(path) if store.paths().any(|image| is_same(image, path)) => {
                Err(Failure::Usage(format!("{}: this is the image itself", path.display())))
            }
            _ => Ok(()),
        }
    }
}

impl Store {
    pub fn dump(dump: Place) -> Store {
        Store { parts: Parts::Dump(dump), force: false }
    }

    pub fn pair(data: Place, spare: Place) -> Store {
        Store { parts: Parts::Pair { data, spare }, force: false }
    }

    pub fn with_force(self, force: bool) -> Store {
        Store { force, ..self }
    }

    /// The names of its files, as they were given.
    pub fn name(&self) -> String {
        self.name_or("standard input")
    }

    /// The same of an image that is written.
    pub fn name_written(&self) -> String {
        self.name_or("standard output")
    }

    fn name_or(&self, stream: &str) -> String {
        let names = self.places().into_iter().map(|place| place.name_or(stream));
        names.collect::<Vec<_>>().join(" and ")
    }

    pub fn is_dump(&self) -> bool {
        matches!(self.parts, Parts::Dump(_))
    }

    /// The image, to look at it. Nothing is written: what an interrupted write has left
    /// to follow is seen in its place.
    pub fn load(&self) -> Result<Image, Failure> {
        let opened = self.open(For::Looking)?;
        if opened.unfinished {
            complain(&self.unfinished());
        }
        Ok(opened.image)
    }

    /// The image, to change it. A new file will take the place of the old one, so
    /// what is no plain file (a device, for one) is refused, and so is a file that
    /// this user may not write to, or that has other names, unless they may be left
    /// behind.
    pub fn open_to_change(&self) -> Result<Opened, Failure> {
        for path in self.paths() {
            if fs::metadata(path).is_ok_and(|is| !is.is_file() && !is.is_dir()) {
                let path = path.display();
                let message = format!("{path}: not a plain file; a stream is given as -");
                return Err(Failure::CannotRead(message));
            }
        }
        let opened = self.open(For::Changing)?;
        for path in self.paths() {
            let writable = OpenOptions::new().write(true).open(path);
            writable.map_err(|error| Failure::cannot_create(path, &error))?;
            if !self.force {
                guard::one_name(path)?;
            }
        }
        Ok(opened)
    }

    fn open(&self, aim: For) -> Result<Opened, Failure> {
        // A stream first: it may come from a command that needs the folder.
        let streamed = if self.is_stream() { stream::read(MOST_BYTES + 1)? } else { Vec::new() };
        let paths: Vec<&Path> = self.paths().collect();
        let held = hold(paths.iter().copied(), aim);
        let follows = match left::find(&paths)? {
            Left::Follows(_, bytes) => Some(bytes),
            Left::Nothing | Left::Remains(_) => None,
        };
        let bytes = |place: &Place| match place {
            Place::Stream => Ok(streamed.clone()),
            Place::File(path) => files::read(path, MOST_BYTES + 1),
        };
        let image = match &self.parts {
            Parts::Dump(dump) => Image::from_dump(&whole_pages(dump, bytes(dump)?, DUMP_BYTES)?),
            Parts::Pair { data, spare } => {
                let of_spare = follows.clone().map_or_else(|| bytes(spare), Ok)?;
                Image {
                    data: whole_pages(data, bytes(data)?, DATA_BYTES)?,
                    spare: whole_pages(spare, of_spare, SPARE_BYTES)?,
                    two_files: true,
                }
            }
        };
        Ok(Opened { image, unfinished: follows.is_some(), _held: held })
    }

    /// Lets the second file follow that an interrupted write has left.
    pub fn finish(&self) -> Result<(), Failure> {
        left::end(&self.paths().collect::<Vec<_>>()).map(|_| ())
    }

    fn unfinished(&self) -> String {
        let names = self.name();
        format!(
            "card: a write to {names} was interrupted between the two; they are seen as that \
             write leaves them.\n      `card power-up` ends it; do not copy them before.\n"
        )
    }

    /// Puts a changed image in the place of the old one, whole.
    pub fn save(&self, image: &Image) -> Result<(), Failure> {
        self.put(image, replace::replace)
    }

    /// Makes a new image where there is none.
    pub fn create(&self, image: &Image) -> Result<(), Failure> {
        self.put(image, replace::create)
    }

    fn put(
        &self,
        image: &Image,
        put_files: fn(&[Whole]) -> Result<(), Failure>,
    ) -> Result<(), Failure> {
        let parts: Vec<(&Place, Vec<u8>)> = match &self.parts {
            Parts::Dump(dump) => vec![(dump, image.to_dump())],
            Parts::Pair { data, spare } => {
                vec![(data, image.data.clone()), (spare, image.spare.clone())]
            }
        };
        let mut files: Vec<Whole> = Vec::new();
        for (place, bytes) in &parts {
            match place {
                Place::Stream => stream::write(bytes)?,
                Place::File(path) => files.push((path, bytes)),
            }
        }
        put_files(&files)
    }

    /// Whether a part of the image is standard input and output.
    pub fn is_stream(&self) -> bool {
        self.places().contains(&&Place::Stream)
    }

    /// The files of the image.
    pub fn paths(&self) -> impl Iterator<Item = &Path> {
        self.places().into_iter().filter_map(Place::path)
    }

    fn places(&self) -> Vec<&Place> {
        match &self.parts {
            Parts::Dump(dump) => vec![dump],
            Parts::Pair { data, spare } => vec![data, spare],
        }
    }
}

/// The bytes, if they are pages of this many bytes: whole ones, and as many as a card
/// of some shape has. (Whether it is a card of the shape given is for the layer to say.)
fn whole_pages(place: &Place, bytes: Vec<u8>, page_bytes: usize) -> Result<Vec<u8>, Failure> {
    let wrong = match bytes.len() {
        0 => "it is empty".to_string(),
        length if length as u64 > MOST_BYTES => "it is larger than any card".to_string(),
        length if !length.is_multiple_of(page_bytes) => {
            format!("its {length} bytes are not whole pages of {page_bytes} bytes")
        }
        length if length / page_bytes < BLOCKS.start() * PAGES.start() => {
            format!("it has fewer pages than any card: {}", length / page_bytes)
        }
        _ => return Ok(bytes),
    };
    Err(Failure::NoImage(format!("{}: no image: {wrong}", place.name())))
}
