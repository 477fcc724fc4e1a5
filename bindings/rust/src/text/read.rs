//! What a text is of, and the bytes that it says.

use super::names::Names;
use super::start::from_first_line;
use super::tokens::{decode, Place, TextError, Tokens};
use super::{automaton, description, map, marks, rule};

/// What a text is of.
#[derive(Clone, Copy, Debug, PartialEq, Eq, Hash)]
pub enum Kind {
    /// A rule.
    Rule,
    /// An automaton.
    Automaton,
    /// A marks section.
    Marks,
    /// The map of a reduction.
    Map,
    /// A lasso, which has no file of bytes.
    Lasso,
}

impl Kind {
    const ALL: [Kind; 5] = [
        Kind::Rule,
        Kind::Automaton,
        Kind::Marks,
        Kind::Map,
        Kind::Lasso,
    ];

    /// Its word in the first line of a text.
    pub fn word(self) -> &'static str {
        match self {
            Kind::Rule => "rule",
            Kind::Automaton => "automaton",
            Kind::Marks => "marks",
            Kind::Map => "map",
            Kind::Lasso => "lasso",
        }
    }

    /// The kind of a word.
    pub fn of_word(word: &str) -> Option<Kind> {
        Kind::ALL.into_iter().find(|kind| kind.word() == word)
    }

    /// The first line of a text of this kind.
    pub(super) fn header(self) -> String {
        format!("duknavet {} 1\n", self.word())
    }
}

/// A text that was read: the bytes of the file that says the same.
#[derive(Clone, Debug, PartialEq, Eq)]
pub struct Parsed {
    /// The bytes.
    pub bytes: Vec<u8>,
    /// Where in the text each of them was read.
    pub places: Vec<Place>,
    /// The names that the text gives to letters.
    pub names: Names,
    /// The lines of the comments right behind the first line, without their `#`.
    pub description: Vec<String>,
}

impl Parsed {
    pub(super) fn new() -> Parsed {
        Parsed {
            bytes: Vec::new(),
            places: Vec::new(),
            names: Names::none(),
            description: Vec::new(),
        }
    }

    /// Reads a number that stands for one byte.
    pub(super) fn byte(
        &mut self,
        tokens: &mut Tokens<'_>,
        wanted: &str,
    ) -> Result<usize, TextError> {
        let (number, place) = tokens.number(255, wanted)?;
        self.push(number as u8, place);
        Ok(number)
    }

    /// The count of a section that leaves it out; its place is that of the section's word.
    pub(super) fn counted(&mut self, count: usize, word: Place) -> Result<usize, TextError> {
        let byte = u8::try_from(count).map_err(|_| {
            let message = format!("{count} entries, more than 255");
            TextError::new(word, message)
        });
        self.push(byte?, word);
        Ok(count)
    }

    /// The same for a count of two bytes.
    pub(super) fn widely_counted(&mut self, count: usize, word: Place) -> Result<usize, TextError> {
        let bytes = u16::try_from(count).map_err(|_| {
            let message = format!("{count} entries, more than 65535");
            TextError::new(word, message)
        });
        for byte in bytes?.to_le_bytes() {
            self.push(byte, word);
        }
        Ok(count)
    }

    /// Reads a count of two bytes.
    pub(super) fn wide_count(
        &mut self,
        tokens: &mut Tokens<'_>,
        wanted: &str,
    ) -> Result<usize, TextError> {
        let (count, place) = tokens.number(65_535, wanted)?;
        for byte in (count as u16).to_le_bytes() {
            self.push(byte, place);
        }
        Ok(count)
    }

    pub(super) fn push(&mut self, byte: u8, place: Place) {
        self.bytes.push(byte);
        self.places.push(place);
    }
}

/// Whether bytes are a text, and of what: a text is what begins with `duknavet` and a space, or, of a lasso, with `u:` or `v:`. A byte
/// order mark, blank lines and comments may stand before.
///
/// An unknown second word is an error of the text.
pub fn kind(bytes: &[u8]) -> Option<Result<Kind, TextError>> {
    let first = from_first_line(bytes);
    if first.starts_with(b"u:") || first.starts_with(b"v:") {
        return Some(Ok(Kind::Lasso));
    }
    first.starts_with(b"duknavet ").then(|| {
        let text = decode(bytes)?;
        header(&mut Tokens::of(text))
    })
}

fn header(tokens: &mut Tokens<'_>) -> Result<Kind, TextError> {
    tokens.expect("duknavet")?;
    let wanted = "`rule`, `automaton`, `marks`, `map` or `lasso`";
    let kind = tokens.peek().and_then(|token| Kind::of_word(token.word));
    let kind = kind.ok_or_else(|| tokens.fault(wanted))?;
    tokens.next(wanted)?;
    tokens.expect("1")?;
    Ok(kind)
}

/// The bytes that the text of a rule, an automaton, a marks section or a map says.
pub fn read(bytes: &[u8]) -> Result<(Kind, Parsed), TextError> {
    let text = decode(bytes)?;
    let mut tokens = Tokens::of(text);
    let kind = header(&mut tokens)?;
    let mut parsed = match kind {
        Kind::Rule => rule::read(&mut tokens)?,
        Kind::Automaton => automaton::read(&mut tokens)?,
        Kind::Marks => marks::read(&mut tokens)?,
        Kind::Map => map::read(&mut tokens)?,
        Kind::Lasso => {
            let place = Place { line: 1, column: 1 };
            let message = "a lasso has no bytes: its letters need a rule";
            return Err(TextError::new(place, message));
        }
    };
    tokens.end()?;
    parsed.description = description::read(text);
    Ok((kind, parsed))
}

/// Takes the first line of a lasso's text, which may be left out.
pub(super) fn skip_lasso_header(tokens: &mut Tokens<'_>) -> Result<(), TextError> {
    let Some(first) = tokens.peek().filter(|token| token.word == "duknavet") else {
        return Ok(());
    };
    match header(tokens)? {
        Kind::Lasso => Ok(()),
        other => {
            let message = format!("expected a lasso, found the text of {}", other.article());
            Err(TextError::new(first.place, message))
        }
    }
}

impl Kind {
    /// Its word with the article.
    pub fn article(self) -> &'static str {
        match self {
            Kind::Rule => "a rule",
            Kind::Automaton => "an automaton",
            Kind::Marks => "a marks section",
            Kind::Map => "a map",
            Kind::Lasso => "a lasso",
        }
    }
}
