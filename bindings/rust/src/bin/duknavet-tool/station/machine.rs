//! What a station moves by its lines, and what it says to each.

use super::language::Request;
use super::sealed;
use duknavet::text::{self, read_letter, Names};
use duknavet::words::Explained;

/// What a station moves by its lines: a monitor, or a board.
pub trait Machine {
    /// What its state file says of it.
    type State: MachineState;
    /// Whether a line that is no request is an event.
    const BARE_LETTERS: bool;
    /// What a request does. One that is not done changes nothing.
    fn answer(&mut self, request: Request) -> Result<Reply, Fault>;
    /// What takes events together, where it can: a monitor.
    fn feeding(&mut self) -> Option<&mut dyn Feeding> {
        None
    }
    /// The grade that it stands for now, as a line.
    fn grade(&mut self) -> Result<String, Explained>;
    fn state(&self) -> Self::State;
}

/// A machine that takes events together.
pub trait Feeding {
    /// The letter of an event, by the words that name it.
    fn letter(&self, words: &str) -> Result<u8, Fault>;
    /// Events in their order, in one call, and the answer to the last. Where they are refused nothing has changed; by a
    /// foreign letter with its position as the place.
    fn feed(&mut self, letters: &[u8]) -> Result<String, Explained>;
}

pub trait MachineState: Send + 'static {
    const KIND: sealed::Kind;
    /// The lines that say it.
    fn lines(&self) -> String;
}

/// The answer to a line that was done.
pub enum Reply {
    /// It moved, so that the grade may be another.
    Moved(String),
    Said(String),
}

/// Why a line was not done.
pub enum Fault {
    Refused(Explained),
    NotUnderstood(String),
    /// An event that names no letter.
    NoLetter(String),
}

impl From<Explained> for Fault {
    fn from(explained: Explained) -> Fault {
        Fault::Refused(explained)
    }
}

/// The letter of an event. A name that a text would have in quotes is known without them too, as a log has it;
/// a log has no comments.
pub fn letter(words: &str, names: &Names) -> Result<u8, Fault> {
    if let Some(letter) = names.letter(words) {
        return Ok(letter);
    }
    if text::words(words).collect::<Vec<_>>().join(" ") != words {
        return Err(Fault::NoLetter(format!("`{words}` is no letter")));
    }
    read_letter(words, names).map_err(|error| Fault::NoLetter(error.message))
}
