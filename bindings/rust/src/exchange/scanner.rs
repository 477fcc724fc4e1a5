//! Characters of a text, with comments passed over.

use crate::text::{Place, TextError};

pub struct Scanner {
    characters: Vec<char>,
    next: usize,
    place: Place,
    /// Where a comment begins that goes on to the end.
    unclosed: Option<Place>,
}

impl Scanner {
    pub fn new(text: &str) -> Scanner {
        Scanner {
            characters: text.chars().collect(),
            next: 0,
            place: Place { line: 1, column: 1 },
            unclosed: None,
        }
    }

    fn ahead(&self, steps: usize) -> Option<char> {
        self.characters.get(self.next + steps).copied()
    }

    fn advance(&mut self) -> Option<char> {
        let character = self.ahead(0)?;
        self.next += 1;
        if character == '\n' {
            self.place.line += 1;
            self.place.column = 1;
        } else {
            self.place.column += 1;
        }
        Some(character)
    }

    /// Passes over white space and comments, which may stand in one another.
    pub fn skip(&mut self) {
        let mut depth = 0_usize;
        let mut outermost = self.place;
        loop {
            match (self.ahead(0), self.ahead(1)) {
                (Some('/'), Some('*')) => {
                    if depth == 0 {
                        outermost = self.place;
                    }
                    depth += 1;
                    self.advance();
                    self.advance();
                }
                (Some('*'), Some('/')) if depth > 0 => {
                    depth -= 1;
                    self.advance();
                    self.advance();
                }
                (Some(character), _) if depth > 0 || character.is_whitespace() => {
                    self.advance();
                }
                _ => break,
            }
        }
        if depth > 0 {
            self.unclosed = Some(outermost);
        }
    }

    pub fn peek(&mut self) -> Option<char> {
        self.skip();
        self.ahead(0)
    }

    /// Takes the characters if they come next.
    pub fn take(&mut self, wanted: &str) -> bool {
        self.skip();
        let comes = wanted
            .chars()
            .enumerate()
            .all(|(step, character)| self.ahead(step) == Some(character));
        if comes {
            for _ in wanted.chars() {
                self.advance();
            }
        }
        comes
    }

    pub fn expect(&mut self, wanted: &str) -> Result<(), TextError> {
        match self.take(wanted) {
            true => Ok(()),
            false => Err(self.fault(&format!("expected `{wanted}`"))),
        }
    }

    /// A run of characters of a kind, empty where another one comes.
    pub fn run(&mut self, of_kind: impl Fn(char) -> bool) -> String {
        self.skip();
        self.run_here(of_kind)
    }

    /// The same, with nothing passed over before it.
    pub fn run_here(&mut self, of_kind: impl Fn(char) -> bool) -> String {
        let mut run = String::new();
        while let Some(character) = self.ahead(0).filter(|character| of_kind(*character)) {
            run.push(character);
            self.advance();
        }
        run
    }

    /// A run of characters of a kind, not taken.
    pub fn peek_run(&mut self, of_kind: impl Fn(char) -> bool) -> String {
        self.skip();
        let rest = self.characters.get(self.next..).unwrap_or(&[]).iter();
        rest.take_while(|character| of_kind(**character)).collect()
    }

    /// A word of letters, digits, `_`, `-` and `.`.
    pub fn word(&mut self) -> String {
        self.run(in_word)
    }

    pub fn number(&mut self, wanted: &str) -> Result<usize, TextError> {
        self.skip();
        let place = self.place;
        let digits = self.run(|character| character.is_ascii_digit());
        // By the format's rules 01 is two numbers, which nobody means.
        if digits.len() > 1 && digits.starts_with('0') {
            let message = format!("expected {wanted}, a number that does not begin with 0");
            return Err(TextError::new(place, message));
        }
        digits
            .parse()
            .map_err(|_| TextError::new(place, format!("expected {wanted}, a number")))
    }

    /// A text in double quotes, in which a backslash stands before a character that is meant as it is.
    pub fn string(&mut self) -> Result<String, TextError> {
        self.expect("\"")?;
        let mut string = String::new();
        loop {
            match self.advance() {
                Some('"') => return Ok(string),
                Some('\\') => string.extend(self.advance()),
                Some(character) => string.push(character),
                None => return Err(self.fault("a text in quotes does not end")),
            }
        }
    }

    /// Takes a text in quotes, a word or a number if one comes.
    pub fn pass(&mut self) -> Result<bool, TextError> {
        match self.peek() {
            Some('"') => self.string().map(|_| true),
            Some(first) if first.is_alphanumeric() || first == '_' => Ok(!self.word().is_empty()),
            _ => Ok(false),
        }
    }

    /// Whether a word with a colon right behind it comes next.
    pub fn line_begins_header(&mut self) -> bool {
        let word = self.peek_run(in_word);
        !word.is_empty() && self.ahead(word.chars().count()) == Some(':')
    }

    /// Whether a word comes next and then, with white space between them or none, one colon.
    pub fn comes_with_colon(&mut self, of_kind: impl Fn(char) -> bool) -> bool {
        let length = self.peek_run(of_kind).chars().count();
        let behind = self.characters.get(self.next + length..).unwrap_or(&[]);
        let mut behind = behind.iter().skip_while(|next| next.is_whitespace());
        length > 0 && behind.next() == Some(&':') && behind.next() != Some(&':')
    }

    pub fn place(&mut self) -> Place {
        self.skip();
        self.place
    }

    /// That something is wrong where the next thing stands, or with the comment that hides it.
    pub fn fault(&mut self, message: &str) -> TextError {
        let place = self.place();
        match self.unclosed {
            Some(comment) => TextError::new(comment, "a comment does not end"),
            None => TextError::new(place, message),
        }
    }

    /// That nothing follows.
    pub fn end(&mut self, message: &str) -> Result<(), TextError> {
        match self.peek().is_none() && self.unclosed.is_none() {
            true => Ok(()),
            false => Err(self.fault(message)),
        }
    }
}

fn in_word(character: char) -> bool {
    character.is_alphanumeric() || "_-.".contains(character)
}
