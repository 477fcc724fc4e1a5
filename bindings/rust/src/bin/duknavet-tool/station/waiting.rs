//! Events that wait to be fed in one call, where no answer to each is wanted.

use super::progress::Progress;
use std::collections::HashMap;

/// As many events wait at most: so many that the check of a rule costs nothing, and so few that memory stays small.
const MOST_WAITING: usize = 65_536;

/// How many different lines are remembered, however many come.
const MOST_KNOWN: usize = 4_096;

/// The letters of events in their order, each with the input up to its line.
#[derive(Default)]
pub struct Word {
    pub letters: Vec<u8>,
    pub lines: Vec<Progress>,
}

#[derive(Default)]
pub struct Waiting {
    word: Word,
    /// Lines that were events, with their letters: a line that comes again is not read again.
    known: HashMap<Vec<u8>, u8>,
}

impl Waiting {
    pub fn is_empty(&self) -> bool {
        self.word.letters.is_empty()
    }

    pub fn is_full(&self) -> bool {
        self.word.letters.len() >= MOST_WAITING
    }

    pub fn push(&mut self, letter: u8, progress: Progress) {
        self.word.letters.push(letter);
        self.word.lines.push(progress);
    }

    /// The events that wait; none wait then.
    pub fn take(&mut self) -> Word {
        std::mem::take(&mut self.word)
    }

    /// The letter of a line that was an event before.
    pub fn known(&self, line: &[u8]) -> Option<u8> {
        self.known.get(line).copied()
    }

    pub fn remember(&mut self, line: &[u8], letter: u8) {
        if self.known.len() < MOST_KNOWN {
            self.known.insert(line.to_vec(), letter);
        }
    }

    /// Letters may be called otherwise from now on.
    pub fn forget(&mut self) {
        self.known.clear();
    }
}
