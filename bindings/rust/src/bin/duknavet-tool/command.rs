//! What a subcommand is.

use crate::arguments::Arguments;
use duknavet::Refused;

/// A subcommand: what help says of it, and what runs it.
pub struct Command {
    pub name: &'static str,
    /// Its arguments as help shows them, and how many there may be.
    pub arguments: &'static str,
    pub least: usize,
    pub most: usize,
    /// What it does, in a line.
    pub purpose: &'static str,
    pub options: &'static [Choice],
    /// Options that several subcommands have.
    pub common: &'static [&'static [Choice]],
    /// What it prints, and what its status means.
    pub details: &'static str,
    pub run: fn(&Arguments) -> Result<Answer, Failure>,
}

impl Command {
    /// Every option, its own first.
    pub fn choices(&self) -> impl Iterator<Item = &'static Choice> {
        let common = self.common.iter().flat_map(|options| options.iter());
        self.options.iter().chain(common)
    }
}

/// An option `--name`, with or without a value.
pub struct Choice {
    pub name: &'static str,
    /// The value as help shows it; none for an option that stands alone.
    pub value: Option<&'static str>,
    pub meaning: &'static str,
}

/// How a subcommand ends that was neither refused nor failed.
#[derive(Clone, Copy, Debug, PartialEq, Eq)]
pub enum Answer {
    Done,
    Yes,
    No,
    /// This status, with everything said that is to be said.
    Status(u8),
}

impl Answer {
    pub fn from(yes: bool) -> Answer {
        match yes {
            true => Answer::Yes,
            false => Answer::No,
        }
    }

    pub fn status(self) -> u8 {
        match self {
            Answer::Done | Answer::Yes => 0,
            Answer::No => 1,
            Answer::Status(status) => status,
        }
    }
}

/// Why a subcommand has no answer.
#[derive(Debug)]
pub enum Failure {
    /// An input is a text that cannot be read, or of another kind.
    Refused(String),
    /// An input was refused by a call.
    ByCall(Refused, String),
    /// The words of the command line.
    Usage(String),
    /// A file could not be read or written.
    Files(String),
    /// Nobody reads the output any more.
    Closed,
}

impl Failure {
    pub fn status(&self) -> u8 {
        match self {
            Failure::Refused(_) | Failure::ByCall(..) => 2,
            Failure::Usage(_) | Failure::Files(_) | Failure::Closed => 3,
        }
    }

    /// What is said of it; nothing where nobody listens.
    pub fn message(&self) -> Option<&str> {
        match self {
            Failure::Refused(message)
            | Failure::ByCall(_, message)
            | Failure::Usage(message)
            | Failure::Files(message) => Some(message),
            Failure::Closed => None,
        }
    }
}
