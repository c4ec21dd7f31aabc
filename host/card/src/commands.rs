//! What is done to a stored image: made, and changed or read by the commands of the
//! layer. A changed image is stored only after success or a cut.

use crate::arguments::Pages;
use crate::failure::Failure;
use crate::help::Verb;
use crate::image::Image;
use crate::shapes;
use crate::store::Store;
use crate::whole::{self, Dumped, Written};
use crate::words::{Asked, Refused, Subject};
use hamutsigra::{raw, Answer, Refusal, Shape, Steps, TableEntry, DATA_BYTES, SPARE_BYTES};
use second::shape::{BLOCKS, PAGES};
use second::spare::STATUS;

/// More logical blocks than any card has; no table is made for more.
const MOST_LOGICAL: usize = 1 << 16;

/// Makes the image of an erased chip.
pub fn new(store: &Store, pages: usize, blocks: usize, bad: &[usize]) -> Result<(), Failure> {
    if !PAGES.contains(&pages) || !BLOCKS.contains(&blocks) {
        let message = "a card has 3 to 64 blocks of 2 to 32 pages";
        return Err(Failure::Usage(format!("{message}, not {blocks} of {pages}")));
    }
    if let Some(block) = bad.iter().find(|block| **block >= blocks) {
        return Err(Failure::Usage(format!("--bad {block}: the last block is {}", blocks - 1)));
    }
    let mut image = Image::erased(pages * blocks);
    for block in bad {
        image.spare[block * pages * SPARE_BYTES + STATUS] = 0;
    }
    store.create(&image)
}

pub fn format(store: &Store, shape: Shape, cut: Option<usize>) -> Result<Steps, Failure> {
    change(store, Verb::Format, shape, |image| {
        let steps = image.card_mut(shape).format(cut).map_err(Subject::Card.refused())?;
        Ok((steps, ()))
    })
    .map(|(steps, ())| steps)
}

/// Gives the table as well: what is said of each logical block.
pub fn power_up(
    store: &Store,
    shape: Shape,
    cut: Option<usize>,
) -> Result<(Steps, Vec<TableEntry>), Failure> {
    change(store, Verb::PowerUp, shape, |image| {
        let mut table = table(shape);
        let answer = image.card_mut(shape).power_up(&mut table, cut);
        Ok((answer.map_err(Subject::Card.refused())?, table))
    })
}

pub fn write(
    store: &Store,
    number: usize,
    page: &[u8],
    shape: Shape,
    cut: Option<usize>,
) -> Result<(Steps, Option<String>), Failure> {
    put(store, Verb::Write, shape, Subject::Page(number), |image| match page.try_into() {
        Ok(page) => image.card_mut(shape).write(number, page, cut),
        // The layer says whether the shape comes first.
        Err(_) => raw::write(&mut image.data, &mut image.spare, page, shape, number, 0),
    })
}

/// Writes a whole block.
pub fn load(
    store: &Store,
    number: usize,
    block: &[u8],
    shape: Shape,
    cut: Option<usize>,
) -> Result<(Steps, Option<String>), Failure> {
    let subject = Subject::Block { number, bytes: block.len() };
    put(store, Verb::Load, shape, subject, |image| {
        image.card_mut(shape).block_write(number, block, cut)
    })
}

/// Writes to a stored image. Gives as well what makes P doubtful, if anything does.
fn put(
    store: &Store,
    verb: Verb,
    shape: Shape,
    subject: Subject,
    command: impl FnOnce(&mut Image) -> Answer,
) -> Result<(Steps, Option<String>), Failure> {
    change(store, verb, shape, |image| {
        let doubt = shapes::doubt(image, shape);
        Ok((command(image).map_err(subject.refused())?, doubt))
    })
}

pub fn restore(
    store: &Store,
    first: usize,
    pages: &[[u8; DATA_BYTES]],
    shape: Shape,
) -> Result<Written, Failure> {
    let written = change(store, Verb::Restore, shape, |image| {
        whole::restore(image, shape, first, pages).map(|written| (written.steps, written))
    })?;
    Ok(written.1)
}

pub fn renew(store: &Store, shape: Shape) -> Result<Written, Failure> {
    let written = change(store, Verb::Renew, shape, |image| {
        whole::renew(image, shape).map(|written| (written.steps, written))
    })?;
    Ok(written.1)
}

pub fn dump(store: &Store, shape: Shape, pages: Pages) -> Result<Dumped, Failure> {
    let image = store.load()?;
    whole::dump(&image, shape, pages).map_err(|Refused { subject, refusal }| {
        Asked { verb: Verb::Dump, image: &image, shape, subject }.refused(refusal)
    })
}

pub fn read(store: &Store, number: usize, shape: Shape) -> Result<[u8; DATA_BYTES], Failure> {
    read_page(&store.load()?, number, shape)
}

/// The byte of the data image at which a page lies; none where no flash page holds
/// it.
pub fn lend(store: &Store, number: usize, shape: Shape) -> Result<Option<usize>, Failure> {
    let image = store.load()?;
    // An empty part does not say whether read would refuse.
    read_page(&image, number, shape)?;
    Ok(image.card(shape).lend(number).map(|lent| lent.at))
}

/// A table for power-up. Where L is beyond any card it stays empty, and the card
/// says so.
pub fn table(shape: Shape) -> Vec<TableEntry> {
    let entries = if shape.logical <= MOST_LOGICAL { shape.logical } else { 0 };
    vec![TableEntry::default(); entries]
}

fn read_page(image: &Image, number: usize, shape: Shape) -> Result<[u8; DATA_BYTES], Failure> {
    let asked = Asked { verb: Verb::Read, image, shape, subject: Subject::Page(number) };
    image.card(shape).read(number).map_err(|refusal| asked.refused(refusal))
}

/// Does a command on a stored image, and stores what it leaves.
fn change<T>(
    store: &Store,
    verb: Verb,
    shape: Shape,
    command: impl FnOnce(&mut Image) -> Result<(Steps, T), Refused>,
) -> Result<(Steps, T), Failure> {
    let mut opened = store.open_to_change()?;
    let answer = command(&mut opened.image);
    let done = match &answer {
        Ok((steps, _)) | Err(Refused { refusal: Refusal::Cut(steps), .. }) => Some(*steps),
        Err(_) => None,
    };
    if let Some(steps) = done {
        // A stream passes the image on even if nothing has changed.
        if steps != Steps::default() || store.is_stream() {
            store.save(&opened.image)?;
        } else if opened.unfinished {
            store.finish()?;
        }
    }
    answer.map_err(|Refused { subject, refusal }| {
        Asked { verb, image: &opened.image, shape, subject }.refused(refusal)
    })
}
