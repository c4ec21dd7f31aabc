//! What each verb does, and what it prints.

use crate::arguments::{Pages, Request};
use crate::check;
use crate::commands;
use crate::demo;
use crate::diff;
use crate::failure::Failure;
use crate::files::MOST_BYTES;
use crate::flash;
use crate::help::{self, Verb};
use crate::image::{Image, DUMP_BYTES};
use crate::inspect;
use crate::json::Json;
use crate::manual;
use crate::map;
use crate::out::{report, write_file, write_page};
use crate::paint::Paint;
use crate::salvage;
use crate::shapes;
use crate::store::{Place, Store};
use crate::stream::say;
use crate::words::{count, Asked, Subject};
use hamutsigra::{Refusal, Shape, Steps, TableEntry, DATA_BYTES, SPARE_BYTES};
use second::card::Card;
use second::shape::PAGES;
use std::collections::BTreeSet;

/// One byte more than a page, to tell a page that is too long.
const MOST_OF_A_PAGE: u64 = DATA_BYTES as u64 + 1;

/// Does what was asked, and gives the exit status.
pub fn run(request: Request) -> Result<u8, Failure> {
    match request {
        Request::Check { store, number, shape, json } => {
            let image = store.load()?;
            let checked = check::check(&image, number, shape);
            if json {
                say(&format!("{}\n", checked.to_json()))?;
            } else {
                say(&checked.in_words(Paint::for_output()))?;
            }
            Ok(checked.status())
        }
        Request::Diff { one, other, shape, json } => {
            let diff = diff::diff(&one.load()?, &other.load()?, shape);
            say(&if json { format!("{}\n", diff.to_json()) } else { diff.in_words() })?;
            Ok(diff.status())
        }
        other => done(other).map(|()| 0),
    }
}

/// Does what has no status but that of success.
fn done(request: Request) -> Result<(), Failure> {
    match request {
        Request::Help(verb) => say(&verb.map_or_else(help::help, Verb::help)),
        Request::Version => say(concat!("card ", env!("CARGO_PKG_VERSION"), "\n")),
        Request::Manual => say(&manual::page()),
        Request::New { .. }
        | Request::Format { .. }
        | Request::PowerUp { .. }
        | Request::Write { .. }
        | Request::Load { .. }
        | Request::Restore { .. }
        | Request::Renew { .. } => change(request),
        Request::Split { dump, pair } => convert(&dump, &pair),
        Request::Join { pair, dump } => convert(&pair, &dump),
        Request::Demo { store } => demo::run(&store, Paint::for_output()),
        look => self::look(look),
    }
}

/// Changes an image, or makes one, and says what was done.
fn change(request: Request) -> Result<(), Failure> {
    match request {
        Request::New { store, pages, blocks, bad } => {
            commands::new(&store, pages, blocks, &bad)?;
            report(&store, &made(&store, pages, blocks, &bad))
        }
        Request::Format { store, shape, cut } => {
            let steps = commands::format(&store, shape, cut)?;
            report(&store, &format!("format: {}\n", count(steps)))
        }
        Request::PowerUp { store, shape, cut, json } => {
            let (steps, table) = commands::power_up(&store, shape, cut)?;
            let text = format!("power-up: {}\n{}", count(steps), tabulated(&table));
            report(&store, &if json { recovered(steps, &table) } else { text })
        }
        Request::Write { store, number, from, shape, cut } => {
            // Before the image is opened: the page may come from another command
            // that is still at work on it.
            let page = from.read(MOST_OF_A_PAGE)?;
            let done = commands::write(&store, number, &page, shape, cut)?;
            report(&store, &written(&format!("write of page {number}"), done))
        }
        Request::Load { store, number, from, shape, cut, pad } => {
            // Before the image is opened, as for a write.
            let block = block_from(&from, shape, pad)?;
            let done = commands::load(&store, number, &block, shape, cut)?;
            report(&store, &written(&format!("load of logical block {number}"), done))
        }
        Request::Restore { store, from, shape, pages } => restore(&store, &from, shape, pages),
        Request::Renew { store, shape } => {
            let done = commands::renew(&store, shape)?;
            let (written, left) = (done.written, done.left);
            let text = format!("renew: {written} pages written again, {left} have no content");
            report(&store, &format!("{text}; {}\n", count(done.steps)))
        }
        _ => Ok(()),
    }
}

/// Looks at an image.
fn look(request: Request) -> Result<(), Failure> {
    match request {
        Request::Read { store, number, to, shape, hex, force } => {
            to.is_not(&store)?;
            write_page(&commands::read(&store, number, shape)?, &to, hex, force)
        }
        Request::Lend { store, number, shape } => lend(&store, number, shape),
        Request::Show { store, shape, json } => show(&store, shape, json),
        Request::Dump { store, to, shape, pages, force } => dump(&store, &to, shape, pages, force),
        Request::Salvage { store, to, shape, doubtful, force } => {
            salvage(&store, &to, shape, doubtful, force)
        }
        Request::Raw { store, page, pages } => raw(&store, page, pages),
        Request::Shape { store, json } => {
            let image = store.load()?;
            say(&if json { shapes_as_json(&image) } else { shapes::report(&image) })
        }
        _ => Ok(()),
    }
}

fn made(store: &Store, pages: usize, blocks: usize, bad: &[usize]) -> String {
    let bytes = pages * blocks * DUMP_BYTES;
    let bad: BTreeSet<&usize> = bad.iter().collect();
    let bad: Vec<String> = bad.iter().map(|block| format!(", block {block} bad")).collect();
    let name = store.name_written();
    format!("{name}: {blocks} blocks of {pages} pages, erased, {bytes} bytes{}\n", bad.concat())
}

/// What was written, and what makes P doubtful.
fn written(what: &str, (steps, doubt): (Steps, Option<String>)) -> String {
    let doubt = doubt.map_or(String::new(), |doubt| format!("{doubt}\n"));
    format!("{what}: {}\n{doubt}", count(steps))
}

/// The bytes for a block, all that there are, so that their length can be said. They
/// are filled up if that is asked for, and P is one of a card: else the layer says so.
fn block_from(from: &Place, shape: Shape, pad: bool) -> Result<Vec<u8>, Failure> {
    let mut block = from.read(MOST_BYTES + 1)?;
    if pad && PAGES.contains(&shape.pages) {
        block.resize(block.len().max(shape.pages * DATA_BYTES), 255);
    }
    Ok(block)
}

/// The table of power-up, a line for each logical block.
fn tabulated(table: &[TableEntry]) -> String {
    let number = |block: Option<usize>| block.map_or("-".to_string(), |block| block.to_string());
    let lines = table.iter().enumerate().map(|(l, entry)| {
        let (data, log) = (number(entry.data_block()), number(entry.log_block()));
        format!("{l:>7}  {data:>4}  {log:>4}\n")
    });
    "logical  data   log\n".to_string() + &lines.collect::<String>()
}

fn recovered(steps: Steps, table: &[TableEntry]) -> String {
    let entries = table.iter().map(|entry| {
        Json::Object(vec![
            ("data_block", Json::number_if_any(entry.data_block())),
            ("log_block", Json::number_if_any(entry.log_block())),
        ])
    });
    let object = Json::Object(vec![
        ("programs", Json::number(steps.programs as usize)),
        ("erases", Json::number(steps.erases as usize)),
        ("table", Json::List(entries.collect())),
    ]);
    format!("{object}\n")
}

fn restore(store: &Store, from: &Place, shape: Shape, pages: Pages) -> Result<(), Failure> {
    let bytes = from.read(MOST_BYTES + 1)?;
    let (whole, rest) = bytes.as_chunks::<DATA_BYTES>();
    let first = pages.from.unwrap_or(0);
    let expected = pages.to.map(|to| to - first + 1);
    let wrong = if !rest.is_empty() {
        format!("its {} bytes are not whole pages of {DATA_BYTES} bytes", bytes.len())
    } else if whole.is_empty() {
        "it is empty".into()
    } else if expected.is_some_and(|expected| expected != whole.len()) {
        format!("it has {} pages, not those from --from to --to", whole.len())
    } else {
        let done = commands::restore(store, first, whole, shape)?;
        let (written, left) = (done.written, done.left);
        let last = first + whole.len() - 1;
        let text = format!("restore of pages {first} to {last}: {written} written, {left} as they");
        return report(store, &format!("{text} were; {}\n", count(done.steps)));
    };
    Err(Failure::NoImage(format!("{}: cannot be restored: {wrong}", from.name())))
}

fn dump(store: &Store, to: &Place, shape: Shape, pages: Pages, force: bool) -> Result<(), Failure> {
    to.is_not(store)?;
    let dumped = commands::dump(store, shape, pages)?;
    let (first, last) = dumped.pages.into_inner();
    let text = format!("dump of pages {first} to {last}: {} bytes", dumped.bytes.len());
    let text = format!("{text}, {} of the pages never written\n", dumped.never_written);
    write_file(&dumped.bytes, to, force, &text)
}

fn salvage(
    store: &Store,
    to: &Place,
    shape: Shape,
    doubtful: bool,
    force: bool,
) -> Result<(), Failure> {
    to.is_not(store)?;
    let image = store.load()?;
    let card = card(&image, shape, Verb::Salvage)?;
    if card.shape.good_blocks_needed() > card.blocks as u128 {
        let asked = Asked { verb: Verb::Salvage, image: &image, shape, subject: Subject::Card };
        return Err(asked.refused(Refusal::TooFewBlocks));
    }
    let pages = salvage::salvage(&card);
    let bytes = salvage::bytes(&card, &pages, doubtful);
    write_file(&bytes, to, force, &salvage::report(&card, &pages, doubtful))
}

fn lend(store: &Store, number: usize, shape: Shape) -> Result<(), Failure> {
    let Some(at) = commands::lend(store, number, shape)? else {
        return say(&format!("page {number} is in no flash page: it reads as 512 bytes of 255\n"));
    };
    let page = at / DATA_BYTES;
    let (block, page_there) = (page / shape.pages, page % shape.pages);
    let last = at + DATA_BYTES - 1;
    let mut text = format!("page {number} is in block {block}, page {page_there}\n");
    text += &format!("data image: bytes {at} to {last}\n");
    if store.is_dump() {
        let at = page * DUMP_BYTES;
        text += &format!("dump:       bytes {at} to {}\n", at + DATA_BYTES - 1);
    }
    say(&text)
}

fn show(store: &Store, shape: Shape, json: bool) -> Result<(), Failure> {
    let image = store.load()?;
    let card = card(&image, shape, Verb::Show)?;
    if json {
        return say(&format!("{}\n", map::to_json(&card)));
    }
    say(&map::draw_with_summary(&card, Paint::for_output()))
}

/// The card to look at, or answer 1.
fn card(image: &Image, shape: Shape, verb: Verb) -> Result<Card<'_>, Failure> {
    inspect::card(image, shape).ok_or_else(|| {
        Asked { verb, image, shape, subject: Subject::Card }.refused(Refusal::OutsideLimits)
    })
}

fn raw(store: &Store, page: usize, pages: Option<usize>) -> Result<(), Failure> {
    let image = store.load()?;
    match flash::page(&image, page, pages) {
        Some(text) => say(&text),
        None => {
            let last = (image.spare.len() / SPARE_BYTES).min(image.data.len() / DATA_BYTES) - 1;
            Err(Failure::Usage(format!("PAGE is a flash page, 0 to {last}, not {page}")))
        }
    }
}

fn shapes_as_json(image: &Image) -> String {
    let shapes = shapes::fitting(image).into_iter().map(|fit| {
        Json::Object(vec![
            ("pages_per_block", Json::number(fit.shape.pages)),
            ("blocks", Json::number(fit.blocks)),
            ("logical_blocks_at_least", Json::number(fit.shape.logical)),
            ("log_blocks_at_least", Json::number(fit.shape.logs)),
        ])
    });
    format!("{}\n", Json::Object(vec![("shapes", Json::List(shapes.collect()))]))
}

/// One image as another: a dump as two files, or two files as a dump.
fn convert(from: &Store, to: &Store) -> Result<(), Failure> {
    let image = from.load()?;
    let (data, spare) = (image.data.len() / DATA_BYTES, image.spare.len() / SPARE_BYTES);
    if data != spare {
        let message = format!("the data image has {data} pages, the spare image {spare}");
        return Err(Failure::NoImage(format!("{}: no image: {message}", from.name())));
    }
    to.create(&image)?;
    report(to, &format!("{}: {data} pages, from {}\n", to.name_written(), from.name()))
}
