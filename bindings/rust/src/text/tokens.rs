//! The words of a text, each with its line and column.

use super::quotes::quoted_length;
use super::start::without_mark;
use std::fmt;

/// A place in a text: its line, and the character of that line, both from 1.
#[derive(Clone, Copy, Debug, PartialEq, Eq, Hash, PartialOrd, Ord)]
pub struct Place {
    /// The line.
    pub line: usize,
    /// The character of the line.
    pub column: usize,
}

impl fmt::Display for Place {
    fn fmt(&self, f: &mut fmt::Formatter<'_>) -> fmt::Result {
        write!(f, "line {}, column {}", self.line, self.column)
    }
}

/// What is wrong with a text, and where.
#[derive(Clone, Debug, PartialEq, Eq, Hash)]
pub struct TextError {
    /// Where.
    pub place: Place,
    /// What.
    pub message: String,
}

impl fmt::Display for TextError {
    fn fmt(&self, f: &mut fmt::Formatter<'_>) -> fmt::Result {
        write!(f, "{}: {}", self.place, self.message)
    }
}

impl std::error::Error for TextError {}

impl TextError {
    pub(crate) fn new(place: Place, message: impl Into<String>) -> TextError {
        TextError {
            place,
            message: message.into(),
        }
    }
}

/// The text of some bytes without a byte order mark, or the place of the first that is no text.
pub(crate) fn decode(bytes: &[u8]) -> Result<&str, TextError> {
    let bytes = without_mark(bytes);
    std::str::from_utf8(bytes).map_err(|error| {
        let good = String::from_utf8_lossy(&bytes[..error.valid_up_to()]);
        TextError::new(end_of(&good), "the text is not in UTF-8")
    })
}

/// The place just behind a text.
pub(crate) fn end_of(text: &str) -> Place {
    let last = text.rsplit('\n').next().unwrap_or("");
    Place {
        line: 1 + text.matches('\n').count(),
        column: 1 + last.chars().count(),
    }
}

/// A word and where it begins.
#[derive(Clone, Copy, Debug)]
pub(crate) struct Token<'a> {
    pub word: &'a str,
    pub place: Place,
}

/// The words of a text from first to last; a name in quotes is one word.
pub(crate) struct Tokens<'a> {
    words: Vec<Token<'a>>,
    next: usize,
    end: Place,
}

impl<'a> Tokens<'a> {
    pub fn of(text: &'a str) -> Tokens<'a> {
        let mut words = Vec::new();
        for (line, content) in (1..).zip(text.split('\n')) {
            words_of_line(content, line, &mut words);
        }
        Tokens {
            words,
            next: 0,
            end: end_of(text),
        }
    }

    pub fn peek(&self) -> Option<Token<'a>> {
        self.words.get(self.next).copied()
    }

    /// The words that come before another, or all that are left.
    pub fn before(&self, word: Option<&str>) -> &[Token<'a>] {
        let rest = self.words.get(self.next..).unwrap_or(&[]);
        let end = rest.iter().position(|token| Some(token.word) == word);
        &rest[..end.unwrap_or(rest.len())]
    }

    /// The place just behind the text.
    pub fn end_place(&self) -> Place {
        self.end
    }

    /// The next word if it is just this one.
    pub fn take(&mut self, word: &str) -> Option<Place> {
        let token = self.peek().filter(|token| token.word == word)?;
        self.next += 1;
        Some(token.place)
    }

    pub fn next(&mut self, wanted: &str) -> Result<Token<'a>, TextError> {
        let token = self.peek().ok_or_else(|| self.fault(wanted))?;
        self.next += 1;
        Ok(token)
    }

    pub fn expect(&mut self, word: &str) -> Result<Place, TextError> {
        self.take(word)
            .ok_or_else(|| self.fault(&format!("`{word}`")))
    }

    /// A number from 0 to `most`.
    pub fn number(&mut self, most: usize, wanted: &str) -> Result<(usize, Place), TextError> {
        let number = self.peek().and_then(|token| {
            let number = whole_number(token.word)?;
            (number <= most).then_some((number, token.place))
        });
        let found =
            number.ok_or_else(|| self.fault(&format!("{wanted}, a number from 0 to {most}")))?;
        self.next += 1;
        Ok(found)
    }

    pub fn end(&self) -> Result<(), TextError> {
        match self.peek() {
            None => Ok(()),
            Some(_) => Err(self.fault("the end of the text")),
        }
    }

    /// That something else is wanted where the next word stands.
    pub fn fault(&self, wanted: &str) -> TextError {
        match self.peek() {
            Some(token) => {
                let message = format!("expected {wanted}, found `{}`", shown(token.word));
                TextError::new(token.place, message)
            }
            None => TextError::new(self.end, format!("expected {wanted}, found the end")),
        }
    }
}

/// A word as an error shows it: its first characters, those that cannot be seen escaped.
pub(crate) fn shown(word: &str) -> String {
    let mut start: String = word.escape_debug().take(40).collect();
    if word.escape_debug().count() > 40 {
        start.push('…');
    }
    start
}

/// The number that digits write, if it is not too large.
pub(crate) fn whole_number(word: &str) -> Option<usize> {
    let digits = !word.is_empty() && word.bytes().all(|byte| byte.is_ascii_digit());
    digits.then(|| word.parse().ok()).flatten()
}

fn words_of_line<'a>(content: &'a str, line: usize, words: &mut Vec<Token<'a>>) {
    let (mut rest, mut column) = (content, 1);
    while let Some(first) = rest.chars().next().filter(|first| *first != '#') {
        let length = match first {
            '"' => quoted_length(rest),
            _ => word_length(rest, first),
        };
        let (word, behind) = rest.split_at(length);
        if !first.is_whitespace() {
            let place = Place { line, column };
            words.push(Token { word, place });
        }
        column += word.chars().count();
        rest = behind;
    }
}

/// How many bytes the word has that begins a text; a blank is one by itself here, and so are `&` and `!`, which join and negate
/// propositions. A colon ends a word and belongs to it.
fn word_length(text: &str, first: char) -> usize {
    if first.is_whitespace() || "&!:".contains(first) {
        return first.len_utf8();
    }
    let ends = |own: char| own.is_whitespace() || "&!#\":".contains(own);
    match text.find(ends) {
        Some(end) if text[end..].starts_with(':') => end + 1,
        Some(end) => end,
        None => text.len(),
    }
}

/// The words of a line up to a comment, with white space between them; what stands in quotes is of one word.
pub fn words(line: &str) -> impl Iterator<Item = &str> {
    let mut rest = line.trim_start();
    std::iter::from_fn(move || {
        let (word, behind) = rest.split_at(request_word_length(rest));
        rest = behind.trim_start();
        (!word.is_empty()).then_some(word)
    })
}

fn request_word_length(text: &str) -> usize {
    let mut length = 0;
    while let Some(next) = text[length..].chars().next() {
        if next.is_whitespace() || next == '#' {
            break;
        }
        // A quote within a word, as a file's name may have it, is no beginning of a name.
        let begins = text[..length].ends_with(['&', '!']) || length == 0;
        length += match next {
            '"' if begins => quoted_length(&text[length..]),
            _ => next.len_utf8(),
        };
    }
    length
}
