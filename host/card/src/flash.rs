//! A flash page as it stands on the chip: `raw`.

use crate::hex;
use crate::image::Image;
use crate::spare::{self, PARTS};
use hamutsigra::{DATA_BYTES, SPARE_BYTES};
use second::spare::{Spare, STATUS};
use std::fmt::Write;

/// Data and spare bytes in hexadecimal, with the spare bytes named. None where the
/// image has no such page. P only tells where the page lies.
pub fn page(image: &Image, page: usize, pages: Option<usize>) -> Option<String> {
    let data = image.data.as_chunks::<DATA_BYTES>().0.get(page)?;
    let bytes = image.spare.as_chunks::<SPARE_BYTES>().0.get(page)?;
    let place = match pages {
        Some(pages) if pages > 0 => format!(": block {}, page {}", page / pages, page % pages),
        _ => String::new(),
    };
    let erased = *data == [255; DATA_BYTES] && *bytes == [255; SPARE_BYTES];
    let state = if erased { ", erased: all 528 bytes are 255" } else { "" };
    let mut text = format!("flash page {page}{place}{state}\n{}\nspare bytes\n", hex::dump(data));
    for (first, last, name) in PARTS {
        let place = if first == last { first.to_string() } else { format!("{first}-{last}") };
        let part: Vec<String> =
            bytes[first..=last].iter().map(|byte| format!("{byte:02x}")).collect();
        let meaning = if erased { String::new() } else { meaning(bytes, first, last) };
        let line = format!("{place:>5}  {:<23}  {name}{meaning}", part.join(" "));
        let _ = writeln!(text, "{}", line.trim_end());
    }
    Some(text)
}

/// What a part of the spare bytes says, or what is wrong with it.
fn meaning(bytes: &[u8; SPARE_BYTES], first: usize, last: usize) -> String {
    let wrong = spare::wrong(bytes).filter(|wrong| (first..=last).contains(&wrong.byte));
    if let Some(wrong) = wrong {
        let which =
            if wrong.byte == first { String::new() } else { format!("byte {}: ", wrong.byte) };
        return format!(": WRONG: {which}{}", wrong.what);
    }
    match (first, Spare::from_bytes(bytes)) {
        (0, _) => format!(" {}", spare::number(bytes)),
        (4, Some(entry)) => format!(": {}", spare::kind_name(entry.kind)),
        (STATUS, _) if bytes[STATUS] == 255 => ": no mark".into(),
        (STATUS, _) => ": not 255".into(),
        (6, _) => format!(" {}", spare::logical_page(bytes)),
        _ => String::new(),
    }
}
