//! clap under the signatures of Rattle's port of it. This crate is hand-written and not proved; the proved programs use the
//! port.

use clap::error::{ContextKind, ContextValue};
use kit::alloc::{AllocError, Global};
use kit::convert::AsStr;
use std::any::Any;
use std::fmt;
use std::marker::PhantomData;

pub use clap::ArgAction;

/// Rust's clap has no kind for memory that runs out: the process then ends.
pub mod error {
    #[derive(Clone, Copy, Debug, PartialEq, Eq)]
    pub enum ErrorKind {
        DisplayHelp,
        DisplayVersion,
        OutOfMemory,
        Usage,
    }
}

pub struct Error(clap::Error);

impl Error {
    pub fn kind(&self) -> error::ErrorKind {
        match self.0.kind() {
            clap::error::ErrorKind::DisplayHelp => error::ErrorKind::DisplayHelp,
            clap::error::ErrorKind::DisplayVersion => error::ErrorKind::DisplayVersion,
            _ => error::ErrorKind::Usage,
        }
    }
}

impl fmt::Display for Error {
    fn fmt(&self, f: &mut fmt::Formatter<'_>) -> fmt::Result {
        let text = self.0.to_string();
        match (self.reason(), text.split_once('\n')) {
            (Some(reason), Some((_, rest))) => write!(f, "error: {reason}\n{rest}"),
            _ => f.write_str(&text),
        }
    }
}

impl Error {
    /// The reason in the words of Rattle's port; those of clap depend on its version.
    fn reason(&self) -> Option<String> {
        let arg = self.context(ContextKind::InvalidArg)?;
        match self.0.kind() {
            clap::error::ErrorKind::UnknownArgument => {
                Some(format!("unexpected argument '{arg}' found"))
            }
            clap::error::ErrorKind::ArgumentConflict => Some(format!(
                "the argument '{arg}' cannot be used multiple times"
            )),
            clap::error::ErrorKind::InvalidValue => Some(format!(
                "a value is required for '{arg}' but none was supplied"
            )),
            clap::error::ErrorKind::TooManyValues => {
                let value = self.context(ContextKind::InvalidValue)?;
                Some(format!(
                    "unexpected value '{value}' for '{arg}' found; no more were expected"
                ))
            }
            clap::error::ErrorKind::ValueValidation => {
                let value = self.context(ContextKind::InvalidValue)?;
                let source = std::error::Error::source(&self.0)?;
                Some(format!("invalid value '{value}' for '{arg}': {source}"))
            }
            _ => None,
        }
    }

    fn context(&self, kind: ContextKind) -> Option<&str> {
        match self.0.context().find(|(it, _)| *it == kind)? {
            (_, ContextValue::String(text)) => Some(text),
            _ => None,
        }
    }
}

/// The only parser that the programs need.
#[macro_export]
macro_rules! value_parser {
    (u32) => {
        $crate::Number
    };
}

pub struct Number;

pub struct Arg<'a>(clap::Arg, PhantomData<&'a str>);

impl<'a> Arg<'a> {
    pub fn new(_alloc: Global, id: &'a str) -> Arg<'a> {
        Arg(clap::Arg::new(id.to_owned()), PhantomData)
    }

    pub fn short(self, letter: char) -> Arg<'a> {
        Arg(self.0.short(letter), PhantomData)
    }

    pub fn long(self, name: &'a str) -> Arg<'a> {
        Arg(self.0.long(name.to_owned()), PhantomData)
    }

    pub fn action(self, action: ArgAction) -> Arg<'a> {
        Arg(self.0.action(action), PhantomData)
    }

    pub fn value_name(self, name: &'a str) -> Arg<'a> {
        Arg(self.0.value_name(name.to_owned()), PhantomData)
    }

    pub fn value_parser(self, _number: Number) -> Arg<'a> {
        Arg(self.0.value_parser(clap::value_parser!(u32)), PhantomData)
    }

    pub fn default_value(self, value: &'a str) -> Arg<'a> {
        Arg(self.0.default_value(value.to_owned()), PhantomData)
    }

    pub fn help(self, text: &'a str) -> Arg<'a> {
        Arg(self.0.help(text.to_owned()), PhantomData)
    }
}

pub struct Command<'a>(clap::Command, PhantomData<&'a str>);

impl<'a> Command<'a> {
    pub fn new(_alloc: Global, name: &'a str) -> Command<'a> {
        // Otherwise the help would contain the name by which the program was called.
        Command(
            clap::Command::new(name.to_owned()).bin_name(name.to_owned()),
            PhantomData,
        )
    }

    pub fn version(self, text: &'a str) -> Command<'a> {
        Command(self.0.version(text.to_owned()), PhantomData)
    }

    pub fn arg(self, arg: Arg<'a>) -> Result<Command<'a>, AllocError> {
        Ok(Command(self.0.arg(arg.0), PhantomData))
    }

    pub fn try_get_matches_from<S: AsStr>(self, words: &'a [S]) -> Result<ArgMatches<'a>, Error> {
        match self
            .0
            .try_get_matches_from(words.iter().map(|word| word.as_str()))
        {
            Ok(matches) => Ok(ArgMatches(matches, PhantomData)),
            Err(error) => Err(Error(error)),
        }
    }
}

pub struct ArgMatches<'a>(clap::ArgMatches, PhantomData<&'a str>);

impl<'a> ArgMatches<'a> {
    pub fn get_str(&self, id: &str) -> Option<&str> {
        self.0.get_one::<String>(id).map(|text| text.as_str())
    }

    pub fn get_one<T: Any + Copy + Send + Sync>(&self, id: &str) -> Option<T> {
        self.0.get_one::<T>(id).copied()
    }
}
