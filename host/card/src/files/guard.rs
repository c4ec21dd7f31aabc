//! What the tool does not overwrite unless it is told to: a file with other names,
//! and what is a card.

use crate::failure::Failure;
use crate::files::{self, MOST_BYTES};
use crate::image::DUMP_BYTES;
use hamutsigra::{DATA_BYTES, SPARE_BYTES};
use second::spare::Spare;
use std::fs;
use std::os::unix::fs::MetadataExt;
use std::path::Path;

/// The flash pages that a card of some shape has.
const PAGES: std::ops::RangeInclusive<usize> = 6..=64 * 32;

/// Refuses to replace a file that has other names (hard links), which would keep the
/// old bytes.
pub fn one_name(path: &Path) -> Result<(), Failure> {
    match fs::metadata(path).map_or(1, |is| if is.is_file() { is.nlink() } else { 1 }) {
        0 | 1 => Ok(()),
        names => Err(Failure::CannotCreate(format!(
            "{}: this file has {names} names (hard links), and the others would keep the old \
             bytes.\n      Work on a copy of it, or give --force to leave the others behind.",
            path.display()
        ))),
    }
}

/// Refuses to write so many bytes over a file that is, as far as can be seen, a card.
pub fn no_card(path: &Path, bytes: usize) -> Result<(), Failure> {
    if !fs::metadata(path).is_ok_and(|is| is.is_file()) {
        return Ok(());
    }
    let there = files::read(path, MOST_BYTES + 1)?;
    match seen(&there, bytes) {
        None => Ok(()),
        Some(what) => Err(Failure::CannotCreate(format!(
            "{}: this may be {what}.\n      Give another name, or --force to overwrite it.",
            path.display()
        ))),
    }
}

/// The part of a card that bytes may be. Pages read out look like a data image, so that
/// bytes of the length that is to be written are none.
fn seen(there: &[u8], to_write: usize) -> Option<&'static str> {
    let whole =
        |page: usize| there.len().is_multiple_of(page) && PAGES.contains(&(there.len() / page));
    let another_length = there.len() != to_write;
    let spares = |bytes: &[u8]| bytes.as_chunks::<SPARE_BYTES>().0.to_vec();
    let dumped = || there.chunks(DUMP_BYTES).flat_map(|page| spares(&page[DATA_BYTES..]));
    if whole(DUMP_BYTES) && (another_length || dumped().any(is_entry)) {
        return Some("the image of a card");
    }
    let erased_or_entry = |spare: [u8; SPARE_BYTES]| spare == [255; SPARE_BYTES] || is_entry(spare);
    let all = spares(there);
    if whole(SPARE_BYTES)
        && all.iter().copied().all(erased_or_entry)
        && all.iter().copied().any(is_entry)
    {
        return Some("the spare bytes of a card");
    }
    (whole(DATA_BYTES) && another_length).then_some("the data bytes of a card, or pages read out")
}

/// Whether these are the spare bytes of a programmed page.
fn is_entry(spare: [u8; SPARE_BYTES]) -> bool {
    Spare::from_bytes(&spare).is_some()
}
