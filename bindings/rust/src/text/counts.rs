//! Counts, which may be left out: a number in the line of its word is the count, and where there is none the
//! entries tell how many they are.
//!
//! A count may also stand in a later line, as long as what follows cannot be meant without it.

use super::tokens::{whole_number, Place, TextError, Token, Tokens};

/// The words of a section behind the word that begins it.
pub(super) struct Section<'a> {
    /// Where the word stands that begins it.
    pub word: Place,
    pub ahead: &'a [Token<'a>],
    /// What is counted, for messages.
    pub things: &'a str,
    /// Whether the text goes on behind the line of the word; a text that was cut off there may lack a count.
    line_ended: bool,
}

impl<'a> Section<'a> {
    /// What stands before a next word, or up to the end.
    pub fn new(
        tokens: &'a Tokens<'a>,
        word: Place,
        next: Option<&str>,
        things: &'a str,
    ) -> Section<'a> {
        Section {
            word,
            ahead: tokens.before(next),
            things,
            line_ended: tokens.end_place().line > word.line,
        }
    }

    /// The first number, if the section begins with one.
    pub fn first(&self) -> Option<usize> {
        self.ahead
            .first()
            .and_then(|token| whole_number(token.word))
    }

    /// How many numbers stand in the section.
    pub fn numbers(&self) -> usize {
        let numbers = self.ahead.iter();
        numbers
            .filter(|token| whole_number(token.word).is_some())
            .count()
    }

    /// How many triples stand in the section, where their count is left out; a valuation is one entry, however many
    /// propositions it has.
    pub fn left_out_of_triples(&self) -> Result<Option<usize>, TextError> {
        let words = |word: &str| self.ahead.iter().filter(|token| token.word == word).count();
        let joined = words("!") + 2 * words("&");
        let entries = self.ahead.len().saturating_sub(joined);
        // With their count they are one more, and so no triples.
        let whole = entries % 3 == 0;
        Ok(self.left_out(!whole, whole)?.then_some(entries / 3))
    }

    /// Whether the count is left out, where the section has the right length with it and without it.
    pub fn left_out(&self, with: bool, without: bool) -> Result<bool, TextError> {
        let Some(first) = self.ahead.first() else {
            return Ok(without && self.line_ended);
        };
        if whole_number(first.word).is_none() {
            return Ok(without);
        }
        if first.place.line == self.word.line {
            return Ok(false);
        }
        match (with, without) {
            (true, true) => Err(TextError::new(
                first.place,
                format!(
                    "`{}` may be the count of the {things} or belong to the first of them: the count stands in the line of its word",
                    first.word,
                    things = self.things
                ),
            )),
            (with, without) => Ok(without && !with),
        }
    }
}
