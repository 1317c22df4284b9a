//! Command lines as the crate `clap` reads them, of a command with words that are told by their places and long options,
//! each of which takes one value.
//!
//! `--` ends the options; `--name=value` and `--name value` are the same; no option may come twice, and `-h` and `--help`
//! are faults as all else that isn't known, since nothing prints a help here.

use plain_std::alloc::{AllocError, Global};
use plain_std::string::String;

/// The kinds of faults.
pub mod error {
    #[derive(Clone, Copy, Debug, PartialEq, Eq)]
    pub enum ErrorKind {
        /// The words are refused.
        Refused,
        OutOfMemory,
    }
}

use error::ErrorKind;

/// Why there are no matches.
#[derive(Debug)]
pub struct Error {
    kind: ErrorKind,
}

impl Error {
    pub fn kind(&self) -> ErrorKind {
        self.kind
    }
}

impl From<AllocError> for Error {
    fn from(_: AllocError) -> Error {
        Error {
            kind: ErrorKind::OutOfMemory,
        }
    }
}

/// A word or an option of the command line.
pub struct Arg<'a> {
    id: &'a str,
    long: Option<&'a str>,
    is_required: bool,
    default: Option<&'a str>,
}

impl<'a> Arg<'a> {
    pub fn new(_alloc: Global, id: &'a str) -> Arg<'a> {
        Arg {
            id,
            long: None,
            is_required: false,
            default: None,
        }
    }

    pub fn long(mut self, name: &'a str) -> Arg<'a> {
        self.long = Some(name);
        self
    }

    pub fn required(mut self, is_required: bool) -> Arg<'a> {
        self.is_required = is_required;
        self
    }

    pub fn default_value(mut self, value: &'a str) -> Arg<'a> {
        self.default = Some(value);
        self
    }
}

/// The command line.
pub struct Command<'a> {
    args: Vec<Arg<'a>>,
}

/// What the words give: for each argument its value, if it has one.
pub struct ArgMatches<'a> {
    found: Vec<(&'a str, Option<&'a str>)>,
}

impl<'a> ArgMatches<'a> {
    pub fn get_str(&self, id: &str) -> Option<&'a str> {
        self.found.iter().find(|it| it.0 == id)?.1
    }
}

impl<'a> Command<'a> {
    pub fn new(_alloc: Global, _name: &'a str) -> Command<'a> {
        Command { args: Vec::new() }
    }

    pub fn arg(mut self, arg: Arg<'a>) -> Result<Command<'a>, AllocError> {
        self.args.push(arg);
        Ok(self)
    }

    /// Reads the words behind the program's name.
    pub fn try_get_matches_from(self, words: &'a [String]) -> Result<ArgMatches<'a>, Error> {
        self.read(words).ok_or(Error {
            kind: ErrorKind::Refused,
        })
    }

    fn read(&self, words: &'a [String]) -> Option<ArgMatches<'a>> {
        let mut values = vec![None; self.args.len()];
        let mut words = words.iter().skip(1).map(|word| word.as_str());
        let mut has_ended = false;
        while let Some(word) = words.next() {
            if word == "--" && !has_ended {
                has_ended = true;
            } else if is_option(word) && !has_ended {
                let (place, value) = self.option(word)?;
                let next = || words.next().filter(|it| !is_option(it));
                put(&mut values, place, value.or_else(next)?)?;
            } else {
                let place = self.next_word(&values)?;
                put(&mut values, place, word)?;
            }
        }
        self.matches(&values)
    }

    /// The place of an option, and its value if that stands in the same word.
    fn option(&self, word: &'a str) -> Option<(usize, Option<&'a str>)> {
        let word = word.strip_prefix("--")?;
        let (name, value) = match word.split_once('=') {
            Some((name, value)) => (name, Some(value)),
            None => (word, None),
        };
        let place = self.args.iter().position(|it| it.long == Some(name))?;
        Some((place, value))
    }

    /// The place of the first argument without an option's name that has no value yet.
    fn next_word(&self, values: &[Option<&'a str>]) -> Option<usize> {
        (0..values.len()).find(|place| self.args[*place].long.is_none() && values[*place].is_none())
    }

    fn matches(&self, values: &[Option<&'a str>]) -> Option<ArgMatches<'a>> {
        let mut found = Vec::new();
        for (arg, value) in self.args.iter().zip(values) {
            if arg.is_required && value.is_none() {
                return None;
            }
            found.push((arg.id, value.or(arg.default)));
        }
        Some(ArgMatches { found })
    }
}

/// Whether a word is looked for among the options. Such a word is no value of another option.
fn is_option(word: &str) -> bool {
    word.len() > 1 && word.starts_with('-')
}

/// Puts a value at a place that has none.
fn put<'a>(values: &mut [Option<&'a str>], place: usize, value: &'a str) -> Option<()> {
    match values[place].replace(value) {
        None => Some(()),
        Some(_) => None,
    }
}
