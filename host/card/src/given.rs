//! The arguments, sorted into words, options and flags. What is used is taken out, so
//! that what is left over can be said to be of no use.

use crate::failure::Failure;
use crate::help::Verb;
use crate::store::{Place, Store};
use hamutsigra::Shape;
use std::collections::VecDeque;
use std::ffi::{OsStr, OsString};
use std::os::unix::ffi::OsStrExt;

/// The options that have a value, by the long name and the short one.
const OPTIONS: [(&str, Option<&str>); 10] = [
    ("--pages", Some("-P")),
    ("--blocks", Some("-B")),
    ("--logical", Some("-L")),
    ("--logs", Some("-K")),
    ("--cut", None),
    ("--bad", None),
    ("--data", None),
    ("--spare", None),
    ("--from", None),
    ("--to", None),
];

/// The options without a value.
const FLAGS: [&str; 5] = ["--hex", "--force", "--json", "--doubtful", "--pad"];

/// The option that may be given more than once.
pub const REPEATED: &str = "--bad";

/// The variable that has P, L and K where they are not given.
pub const SHAPE_VARIABLE: &str = "CARD_SHAPE";

/// The arguments that are not used yet.
#[derive(Default)]
pub struct Given {
    words: VecDeque<OsString>,
    options: Vec<(&'static str, OsString)>,
    flags: Vec<&'static str>,
    /// The value of the variable, if it is set.
    shape: Option<OsString>,
    pub help: bool,
    pub version: bool,
    pub manual: bool,
}

impl Given {
    pub fn sort(
        arguments: impl IntoIterator<Item = OsString>,
        shape: Option<OsString>,
    ) -> Result<Given, Failure> {
        let mut given = Given { shape, ..Given::default() };
        let mut arguments = arguments.into_iter();
        while let Some(argument) = arguments.next() {
            // Bytes, since the name of a file need not be text.
            match argument.as_bytes() {
                b"--help" | b"-h" => given.help = true,
                b"--version" | b"-V" => given.version = true,
                b"--manual" => given.manual = true,
                b"--" => given.words.extend(arguments.by_ref()),
                [b'-', _, ..] if flag(&argument).is_some() => given.flags.extend(flag(&argument)),
                [b'-', _, ..] => {
                    let (name, joined) = option(&argument)?;
                    let value = joined.or_else(|| arguments.next());
                    let value =
                        value.ok_or_else(|| usage(format!("{} needs a value", both(name))))?;
                    given.add(name, value)?;
                }
                _ => given.words.push_back(argument),
            }
        }
        Ok(given)
    }

    fn add(&mut self, name: &'static str, value: OsString) -> Result<(), Failure> {
        if name != REPEATED && self.options.iter().any(|(given, _)| *given == name) {
            return Err(usage(format!("{} is given twice", both(name))));
        }
        self.options.push((name, value));
        Ok(())
    }

    /// The verb that the next word is.
    pub fn verb(&mut self) -> Result<Option<Verb>, Failure> {
        let Some(word) = self.words.pop_front() else {
            return Ok(None);
        };
        match word.to_str().and_then(Verb::named) {
            Some(verb) => Ok(Some(verb)),
            None => Err(usage(format!("no verb is called {}", word.display()))),
        }
    }

    pub fn store(&mut self) -> Result<Store, Failure> {
        match self.pair()? {
            Some(pair) => Ok(pair),
            None => self.dump("no image is given"),
        }
    }

    pub fn store_to_change(&mut self) -> Result<Store, Failure> {
        let force = self.flag("--force");
        Ok(self.store()?.with_force(force))
    }

    /// The image in two files, if it is given so.
    pub fn pair(&mut self) -> Result<Option<Store>, Failure> {
        match (self.option("--data"), self.option("--spare")) {
            (Some(data), Some(spare)) if data == spare => {
                Err(usage(format!("--data and --spare cannot both be {}", data.display())))
            }
            (Some(data), Some(spare)) => Ok(Some(Store::pair(place(data), place(spare)))),
            (None, None) => Ok(None),
            _ => Err(usage("--data and --spare are given together")),
        }
    }

    /// The dump that the next word names.
    pub fn dump(&mut self, missing: &str) -> Result<Store, Failure> {
        self.words.pop_front().map(|name| Store::dump(place(name))).ok_or_else(|| usage(missing))
    }

    pub fn word(&mut self) -> Option<OsString> {
        self.words.pop_front()
    }

    pub fn file(&mut self) -> Result<Place, Failure> {
        self.words.pop_front().map(place).ok_or_else(|| usage("no file is given"))
    }

    pub fn file_or_stream(&mut self) -> Place {
        self.words.pop_front().map_or(Place::Stream, place)
    }

    pub fn page_number(&mut self) -> Result<usize, Failure> {
        self.page_number_if_any()?.ok_or_else(|| usage("no page is given"))
    }

    pub fn page_number_if_any(&mut self) -> Result<Option<usize>, Failure> {
        self.next_number("PAGE")
    }

    pub fn block_number(&mut self) -> Result<usize, Failure> {
        self.next_number("BLOCK")?.ok_or_else(|| usage("no block is given"))
    }

    /// The number that the next word is.
    fn next_number(&mut self, name: &str) -> Result<Option<usize>, Failure> {
        self.words.pop_front().map(|word| number(name, &word)).transpose()
    }

    pub fn shape(&mut self) -> Result<Shape, Failure> {
        Ok(Shape { pages: self.pages()?, logical: self.logical()?, logs: self.logs()? })
    }

    pub fn pages(&mut self) -> Result<usize, Failure> {
        self.of_shape("--pages", 0)
    }

    fn logical(&mut self) -> Result<usize, Failure> {
        self.of_shape("--logical", 1)
    }

    fn logs(&mut self) -> Result<usize, Failure> {
        self.of_shape("--logs", 2)
    }

    /// P, where it is given or set.
    pub fn pages_if_any(&mut self) -> Result<Option<usize>, Failure> {
        match self.number("--pages")? {
            Some(pages) => Ok(Some(pages)),
            None => Ok(self.shape_set()?.map(|shape| shape[0])),
        }
    }

    fn of_shape(&mut self, name: &str, at: usize) -> Result<usize, Failure> {
        if let Some(given) = self.number(name)? {
            return Ok(given);
        }
        let set = self.shape_set()?;
        set.map(|shape| shape[at]).ok_or_else(|| {
            usage(format!("{} is not given, and {SHAPE_VARIABLE} is not set", both(name)))
        })
    }

    /// P, L and K of the variable.
    fn shape_set(&self) -> Result<Option<[usize; 3]>, Failure> {
        let Some(value) = &self.shape else {
            return Ok(None);
        };
        let numbers = value.to_str().map(|value| value.split(',').map(|part| part.trim().parse()));
        let numbers = numbers.and_then(|numbers| numbers.collect::<Result<Vec<usize>, _>>().ok());
        let shape = numbers.and_then(|numbers| numbers.try_into().ok());
        shape.map(Some).ok_or_else(|| {
            let value = value.display();
            usage(format!("{SHAPE_VARIABLE} is P,L,K, three numbers as in 4,2,1, not {value}"))
        })
    }

    pub fn needed(&mut self, name: &str) -> Result<usize, Failure> {
        self.number(name)?.ok_or_else(|| usage(format!("{} is not given", both(name))))
    }

    pub fn number(&mut self, name: &str) -> Result<Option<usize>, Failure> {
        self.option(name).map(|value| number(&both(name), &value)).transpose()
    }

    pub fn every(&mut self, name: &str) -> Result<Vec<usize>, Failure> {
        let mut numbers = Vec::new();
        while let Some(number) = self.number(name)? {
            numbers.push(number);
        }
        Ok(numbers)
    }

    fn option(&mut self, name: &str) -> Option<OsString> {
        let at = self.options.iter().position(|(option, _)| *option == name)?;
        Some(self.options.remove(at).1)
    }

    pub fn flag(&mut self, name: &str) -> bool {
        let given = self.flags.contains(&name);
        self.flags.retain(|flag| *flag != name);
        given
    }

    pub fn nothing_left(&self, verb: Verb) -> Result<(), Failure> {
        let verb = verb.name();
        if let Some(word) = self.words.front() {
            return Err(usage(format!("{verb} has no use for {}", word.display())));
        }
        if let Some((name, _)) = self.options.first() {
            return Err(usage(format!("{verb} does not take {}", both(name))));
        }
        if let Some(flag) = self.flags.first() {
            return Err(usage(format!("{verb} does not take {flag}")));
        }
        Ok(())
    }
}

/// An option by both its names.
fn both(name: &str) -> String {
    let short = OPTIONS.iter().find(|(long, _)| *long == name).and_then(|(_, short)| *short);
    short.map_or(name.to_string(), |short| format!("{short}, {name}"))
}

fn flag(argument: &OsStr) -> Option<&'static str> {
    FLAGS.into_iter().find(|flag| argument == *flag)
}

/// The long name of an option, and its value where it is joined to the name.
fn option(argument: &OsStr) -> Result<(&'static str, Option<OsString>), Failure> {
    let after = |start: &str| argument.as_bytes().strip_prefix(start.as_bytes());
    for (long, short) in OPTIONS {
        if argument == long || short.is_some_and(|short| argument == short) {
            return Ok((long, None));
        }
        let after_long = after(long).and_then(|rest| rest.strip_prefix(b"="));
        if let Some(value) = after_long.or_else(|| after(short?)) {
            return Ok((long, Some(OsStr::from_bytes(value).to_owned())));
        }
    }
    Err(usage(format!("no option is called {}", argument.display())))
}

pub fn place(name: OsString) -> Place {
    if name == "-" {
        Place::Stream
    } else {
        Place::File(name.into())
    }
}

fn number(name: &str, value: &OsStr) -> Result<usize, Failure> {
    let number = value.to_str().and_then(|value| value.parse().ok());
    number.ok_or_else(|| {
        usage(format!("{name} is a number from 0 to {}, not {}", usize::MAX, value.display()))
    })
}

pub fn usage(message: impl Into<String>) -> Failure {
    Failure::Usage(message.into())
}
