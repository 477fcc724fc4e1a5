//! The words and signs of a formula, each with its place.

use crate::text::{unquote, Place};
use std::fmt;

/// What is wrong with a formula, and where, with the line in which it stands.
#[derive(Clone, Debug, PartialEq, Eq, Hash)]
pub struct FormulaError {
    /// Where.
    pub place: Place,
    /// What.
    pub message: String,
    /// The line of the text.
    pub line: String,
}

/// The most characters of a line that an error shows.
const SHOWN: usize = 100;

impl FormulaError {
    pub(super) fn new(text: &str, place: Place, message: impl Into<String>) -> FormulaError {
        let line = text.lines().nth(place.line - 1).unwrap_or("");
        FormulaError {
            place,
            message: message.into(),
            line: line.to_string(),
        }
    }
}

impl fmt::Display for FormulaError {
    /// The place and the fault; below it the line, or the part of a long one round the place, and a caret.
    fn fmt(&self, f: &mut fmt::Formatter<'_>) -> fmt::Result {
        let column = self.place.column - 1;
        let from = column.saturating_sub(SHOWN / 2);
        let part: String = self.line.chars().skip(from).take(SHOWN).collect();
        let plain = part.replace(|own: char| own.is_control(), " ");
        let before = " ".repeat(column - from);
        let (place, message) = (self.place, &self.message);
        write!(f, "{place}: {message}\n  {plain}\n  {before}^")
    }
}

impl std::error::Error for FormulaError {}

/// A sign or a word of a formula.
#[derive(Clone, Debug, PartialEq, Eq)]
pub(super) enum Token {
    Name(String),
    /// A name in quotes, which is never an operator.
    Quoted(String),
    Sign(Sign),
    Open,
    Close,
    OpenSet,
    CloseSet,
    Comma,
}

/// What an operator says, however it is written.
#[derive(Clone, Copy, Debug, PartialEq, Eq)]
pub(super) enum Sign {
    Not,
    Next,
    Eventually,
    Always,
    Never,
    Until,
    WeakUntil,
    Release,
    StrongRelease,
    And,
    Xor,
    Or,
    Implies,
    Equivalent,
    True,
    False,
    /// The first word of `weak until`.
    Weak,
}

/// The signs, the longer before those that they begin with.
const SIGNS: [(&str, Sign); 12] = [
    ("<->", Sign::Equivalent),
    ("->", Sign::Implies),
    ("[]", Sign::Always),
    ("<>", Sign::Eventually),
    ("/\\", Sign::And),
    ("\\/", Sign::Or),
    ("&&", Sign::And),
    ("||", Sign::Or),
    ("&", Sign::And),
    ("|", Sign::Or),
    ("!", Sign::Not),
    ("~", Sign::Not),
];

/// The words that are operators, whole.
const WORDS: [(&str, Sign); 21] = [
    ("X", Sign::Next),
    ("F", Sign::Eventually),
    ("G", Sign::Always),
    ("U", Sign::Until),
    ("W", Sign::WeakUntil),
    ("R", Sign::Release),
    ("V", Sign::Release),
    ("M", Sign::StrongRelease),
    ("xor", Sign::Xor),
    ("always", Sign::Always),
    ("eventually", Sign::Eventually),
    ("next", Sign::Next),
    ("never", Sign::Never),
    ("until", Sign::Until),
    ("weak", Sign::Weak),
    ("release", Sign::Release),
    ("and", Sign::And),
    ("or", Sign::Or),
    ("not", Sign::Not),
    ("true", Sign::True),
    ("false", Sign::False),
];

/// The operator that a word is, if it is one.
pub(super) fn operator(word: &str) -> Option<Sign> {
    let own = WORDS.iter().find(|(name, _)| *name == word);
    own.map(|(_, sign)| *sign)
}

/// A token, and where it begins.
#[derive(Clone, Debug)]
pub(super) struct Placed {
    pub token: Token,
    pub place: Place,
}

/// Whether a character may stand in a name; a `-` may not before a `>`.
fn in_name(own: char, next: Option<char>) -> bool {
    let seen = !own.is_ascii() && !own.is_whitespace() && !own.is_control();
    own.is_ascii_alphanumeric() || own == '_' || seen || (own == '-' && next != Some('>'))
}

/// How many bytes the name at the front of a text has.
fn name_length(text: &str) -> usize {
    let mut characters = text.char_indices().peekable();
    while let Some((at, own)) = characters.next() {
        let next = characters.peek().map(|(_, next)| *next);
        if !in_name(own, next) {
            return at;
        }
    }
    text.len()
}

/// How many bytes a name in quotes at the front of a text has, if it ends.
fn quoted_length(text: &str) -> Option<usize> {
    let mut escaped = false;
    for (at, own) in text.char_indices().skip(1) {
        match own {
            _ if escaped => escaped = false,
            '\\' => escaped = true,
            '"' => return Some(at + 1),
            '\n' => return None,
            _ => {}
        }
    }
    None
}

/// The token at the front of a text, and how many bytes it has.
fn first(text: &str) -> Result<(Token, usize), String> {
    let plain = match text.chars().next() {
        Some('(') => Some(Token::Open),
        Some(')') => Some(Token::Close),
        Some('{') => Some(Token::OpenSet),
        Some('}') => Some(Token::CloseSet),
        Some(',') => Some(Token::Comma),
        _ => None,
    };
    if let Some(token) = plain {
        return Ok((token, 1));
    }
    if text.starts_with('"') {
        let length = quoted_length(text).ok_or("the name in quotes does not end")?;
        let name = unquote(&text[..length]).ok_or("this is no name in quotes")?;
        return Ok((Token::Quoted(name), length));
    }
    if let Some((sign, meaning)) = SIGNS.iter().find(|(sign, _)| text.starts_with(sign)) {
        return Ok((Token::Sign(*meaning), sign.len()));
    }
    let length = name_length(text);
    let word = &text[..length];
    match (length, operator(word)) {
        (0, _) => {
            let own = text.chars().next().unwrap_or(' ');
            Err(format!(
                "`{}` means nothing in a formula",
                own.escape_debug()
            ))
        }
        (_, Some(sign)) => Ok((Token::Sign(sign), length)),
        _ => Ok((Token::Name(word.to_string()), length)),
    }
}

/// The place behind some characters that begin at a place.
fn behind(mut place: Place, text: &str) -> Place {
    for own in text.chars() {
        match own {
            '\n' => {
                place.line += 1;
                place.column = 1;
            }
            _ => place.column += 1,
        }
    }
    place
}

/// A part of a text: from one byte to another, and the place of the first.
#[derive(Clone, Copy)]
pub(super) struct Span {
    pub from: usize,
    pub to: usize,
    pub place: Place,
}

impl Span {
    pub fn whole(text: &str) -> Span {
        Span {
            from: 0,
            to: text.len(),
            place: Place { line: 1, column: 1 },
        }
    }

    /// The same without so many bytes at its front.
    pub fn without(self, text: &str, bytes: usize) -> Span {
        let from = self.from + bytes;
        Span {
            from,
            place: behind(self.place, &text[self.from..from]),
            ..self
        }
    }
}

/// All tokens of a part of a text, and the place where they end.
pub(super) fn tokens(text: &str, span: Span) -> Result<(Vec<Placed>, Place), FormulaError> {
    let mut place = span.place;
    let mut rest = &text[span.from..span.to];
    let mut found = Vec::new();
    loop {
        let bare = rest.trim_start();
        place = behind(place, &rest[..rest.len() - bare.len()]);
        if bare.is_empty() {
            return Ok((found, place));
        }
        if bare.starts_with('#') {
            // a comment, up to the end of its line
            let end = bare.find('\n').unwrap_or(bare.len());
            place = behind(place, &bare[..end]);
            rest = &bare[end..];
            continue;
        }
        let (token, length) =
            first(bare).map_err(|message| FormulaError::new(text, place, message))?;
        found.push(Placed { token, place });
        place = behind(place, &bare[..length]);
        rest = &bare[length..];
    }
}
