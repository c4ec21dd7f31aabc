//! What the tool was asked to do, read from its arguments.

use crate::failure::Failure;
use crate::given::{place, usage, Given, REPEATED};
use crate::help::Verb;
use crate::store::{Place, Store};
use hamutsigra::Shape;
use std::ffi::OsString;

/// What the tool was asked to do.
#[derive(Debug, PartialEq, Eq)]
pub enum Request {
    Help(Option<Verb>),
    Version,
    Manual,
    New { store: Store, pages: usize, blocks: usize, bad: Vec<usize> },
    Format { store: Store, shape: Shape, cut: Option<usize> },
    PowerUp { store: Store, shape: Shape, cut: Option<usize>, json: bool },
    Read { store: Store, number: usize, to: Place, shape: Shape, hex: bool, force: bool },
    Write { store: Store, number: usize, from: Place, shape: Shape, cut: Option<usize> },
    Load { store: Store, number: usize, from: Place, shape: Shape, cut: Option<usize>, pad: bool },
    Lend { store: Store, number: usize, shape: Shape },
    Show { store: Store, shape: Shape, json: bool },
    Check { store: Store, number: usize, shape: Shape, json: bool },
    Dump { store: Store, to: Place, shape: Shape, pages: Pages, force: bool },
    Restore { store: Store, from: Place, shape: Shape, pages: Pages },
    Renew { store: Store, shape: Shape },
    Salvage { store: Store, to: Place, shape: Shape, doubtful: bool, force: bool },
    Raw { store: Store, page: usize, pages: Option<usize> },
    Shape { store: Store, json: bool },
    Diff { one: Store, other: Store, shape: Shape, json: bool },
    Split { dump: Store, pair: Store },
    Join { pair: Store, dump: Store },
    Demo { store: Store },
}

/// Logical pages from one to another, both included; to the ends where they are not
/// given.
#[derive(Clone, Copy, Debug, PartialEq, Eq)]
pub struct Pages {
    pub from: Option<usize>,
    pub to: Option<usize>,
}

/// Reads the arguments that follow the name of the program; the shape where it is set
/// by the variable.
pub fn parse(
    arguments: impl IntoIterator<Item = OsString>,
    shape: Option<OsString>,
) -> Result<Request, Failure> {
    let mut given = Given::sort(arguments, shape)?;
    if given.version {
        return Ok(Request::Version);
    }
    if given.manual {
        return Ok(Request::Manual);
    }
    let verb = given.verb()?;
    if given.help {
        return Ok(Request::Help(verb.filter(|verb| *verb != Verb::Help)));
    }
    let verb = verb.ok_or_else(|| usage("no verb is given"))?;
    let request = request(verb, &mut given)?;
    given.nothing_left(verb)?;
    Ok(request)
}

fn request(verb: Verb, given: &mut Given) -> Result<Request, Failure> {
    match verb {
        Verb::Help => Ok(Request::Help(given.verb()?)),
        Verb::New => Ok(Request::New {
            store: given.store()?,
            pages: given.pages()?,
            blocks: given.needed("--blocks")?,
            bad: given.every(REPEATED)?,
        }),
        Verb::Format | Verb::PowerUp | Verb::Write | Verb::Load | Verb::Restore | Verb::Renew => {
            change(verb, given)
        }
        Verb::Split => {
            let (dump, pair) = dump_and_pair(given)?;
            Ok(Request::Split { dump, pair })
        }
        Verb::Join => {
            let (dump, pair) = dump_and_pair(given)?;
            Ok(Request::Join { pair, dump })
        }
        Verb::Demo => {
            let name = given.word().unwrap_or_else(|| "worked-card.img".into());
            let store = Store::dump(place(name));
            if store.is_stream() {
                return Err(usage("demo needs a file"));
            }
            Ok(Request::Demo { store })
        }
        _ => look(verb, given),
    }
}

/// The verbs that change an image.
fn change(verb: Verb, given: &mut Given) -> Result<Request, Failure> {
    let store = given.store_to_change()?;
    Ok(match verb {
        Verb::Format => Request::Format { store, shape: given.shape()?, cut: cut(given)? },
        Verb::PowerUp => Request::PowerUp {
            store,
            shape: given.shape()?,
            cut: cut(given)?,
            json: given.flag("--json"),
        },
        Verb::Write => {
            let number = given.page_number()?;
            let from = given.file_or_stream();
            one_input(&store, &from)?;
            Request::Write { store, number, from, shape: given.shape()?, cut: cut(given)? }
        }
        Verb::Load => {
            let number = given.block_number()?;
            let from = given.file()?;
            one_input(&store, &from)?;
            let (shape, cut, pad) = (given.shape()?, cut(given)?, given.flag("--pad"));
            Request::Load { store, number, from, shape, cut, pad }
        }
        Verb::Restore => {
            let from = given.file()?;
            one_input(&store, &from)?;
            Request::Restore { store, from, shape: given.shape()?, pages: pages(given)? }
        }
        _ => Request::Renew { store, shape: given.shape()? },
    })
}

/// The verbs that only look.
fn look(verb: Verb, given: &mut Given) -> Result<Request, Failure> {
    let store = given.store()?;
    Ok(match verb {
        Verb::Read => Request::Read {
            store,
            number: given.page_number()?,
            to: given.file_or_stream(),
            shape: given.shape()?,
            hex: given.flag("--hex"),
            force: given.flag("--force"),
        },
        Verb::Lend => Request::Lend { store, number: given.page_number()?, shape: given.shape()? },
        Verb::Show => Request::Show { store, shape: given.shape()?, json: given.flag("--json") },
        Verb::Dump | Verb::Salvage => read_out(verb, store, given)?,
        Verb::Raw => {
            Request::Raw { store, page: given.page_number()?, pages: given.pages_if_any()? }
        }
        Verb::Shape => Request::Shape { store, json: given.flag("--json") },
        Verb::Diff => {
            let other = given.dump("no second image is given")?;
            if store.is_stream() && other.is_stream() {
                return Err(usage("the two images cannot both be standard input"));
            }
            Request::Diff { one: store, other, shape: given.shape()?, json: given.flag("--json") }
        }
        _ => Request::Check {
            store,
            number: given.page_number_if_any()?.unwrap_or(0),
            shape: given.shape()?,
            json: given.flag("--json"),
        },
    })
}

/// The verbs that only look, and write to a file what they have seen.
fn read_out(verb: Verb, store: Store, given: &mut Given) -> Result<Request, Failure> {
    let (to, shape, force) = (given.file()?, given.shape()?, given.flag("--force"));
    Ok(match verb {
        Verb::Dump => Request::Dump { store, to, shape, pages: pages(given)?, force },
        _ => {
            let doubtful = given.flag("--doubtful");
            Request::Salvage { store, to, shape, doubtful, force }
        }
    })
}

fn one_input(store: &Store, from: &Place) -> Result<(), Failure> {
    if store.is_stream() && *from == Place::Stream {
        return Err(usage("the image and FILE cannot both be standard input"));
    }
    Ok(())
}

fn cut(given: &mut Given) -> Result<Option<usize>, Failure> {
    given.number("--cut")
}

fn pages(given: &mut Given) -> Result<Pages, Failure> {
    let pages = Pages { from: given.number("--from")?, to: given.number("--to")? };
    match (pages.from.unwrap_or(0), pages.to) {
        (from, Some(to)) if to < from => {
            Err(usage(format!("--to {to} comes before --from {from}")))
        }
        _ => Ok(pages),
    }
}

/// What `split` and `join` are given: a dump, and the names of two files.
fn dump_and_pair(given: &mut Given) -> Result<(Store, Store), Failure> {
    let pair = given.pair()?.ok_or_else(|| usage("--data and --spare are not given"))?;
    let dump = given.dump("no image is given")?;
    if pair.is_stream() && dump.is_stream() {
        return Err(usage("a dump and one of two files cannot both be -"));
    }
    Ok((dump, pair))
}
