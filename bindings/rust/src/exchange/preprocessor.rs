//! What C's preprocessor takes out of a claim before Spin reads it: comments, and lines that define names.
//!
//! Both are blanked, so that every other character keeps its line and column.

use crate::text::{Place, TextError};

/// A claim without comments and without lines that begin with `#`.
pub struct Blanked {
    pub text: String,
    /// The names that `#define` gives a meaning, and where they stand.
    pub defined: Vec<(String, Place)>,
}

pub fn blank(text: &str) -> Result<Blanked, TextError> {
    let mut reader = Reader {
        rest: text,
        place: Place { line: 1, column: 1 },
        line_begun: false,
        blanked: Blanked {
            text: String::new(),
            defined: Vec::new(),
        },
    };
    while let Some(next) = reader.rest.chars().next() {
        if !reader.pass_comment()? {
            match next {
                '#' if !reader.line_begun => reader.pass_definition()?,
                _ => reader.keep(next),
            }
        }
    }
    Ok(reader.blanked)
}

struct Reader<'a> {
    rest: &'a str,
    place: Place,
    /// Whether the line has a character that is neither white nor of a comment.
    line_begun: bool,
    blanked: Blanked,
}

impl Reader<'_> {
    fn advance(&mut self, character: char) {
        self.rest = self.rest.get(character.len_utf8()..).unwrap_or("");
        if character == '\n' {
            self.place.line += 1;
            self.place.column = 1;
        } else {
            self.place.column += 1;
        }
    }

    fn keep(&mut self, character: char) {
        self.advance(character);
        self.blanked.text.push(character);
        match character {
            '\n' => self.line_begun = false,
            _ => self.line_begun |= !character.is_whitespace(),
        }
    }

    /// Passes over characters for as long as they are of a kind.
    fn pass_while(&mut self, of_kind: impl Fn(char) -> bool) {
        while let Some(next) = self.rest.chars().next().filter(|next| of_kind(*next)) {
            self.pass(next);
        }
    }

    fn pass(&mut self, character: char) {
        self.advance(character);
        let blank = if character == '\n' { '\n' } else { ' ' };
        self.blanked.text.push(blank);
    }

    /// Passes over the characters if they come next.
    fn pass_if(&mut self, wanted: &str) -> bool {
        let comes = self.rest.starts_with(wanted);
        if comes {
            wanted.chars().for_each(|character| self.pass(character));
        }
        comes
    }

    /// Passes over a comment if one comes next. Unlike those of the Hanoi format they do not stand in one another.
    fn pass_comment(&mut self) -> Result<bool, TextError> {
        let place = self.place;
        if self.pass_if("//") {
            self.pass_line(|_| Ok(false))?;
            return Ok(true);
        }
        if !self.pass_if("/*") {
            return Ok(false);
        }
        while !self.pass_if("*/") {
            match self.rest.chars().next() {
                Some(next) => self.pass(next),
                None => return Err(TextError::new(place, "a comment does not end")),
            }
        }
        Ok(true)
    }

    /// Passes over the rest of a line; a backslash before its end joins the next one to it. `longer` passes over what takes
    /// more than a character.
    fn pass_line(
        &mut self,
        mut longer: impl FnMut(&mut Self) -> Result<bool, TextError>,
    ) -> Result<(), TextError> {
        while let Some(next) = self.rest.chars().next().filter(|next| *next != '\n') {
            let joined = self.pass_if("\\\n") || self.pass_if("\\\r\n");
            if !joined && !longer(self)? {
                self.pass(next);
            }
        }
        Ok(())
    }

    fn pass_definition(&mut self) -> Result<(), TextError> {
        let start = self.place;
        let blank = |character: char| character.is_whitespace() && character != '\n';
        self.pass('#');
        self.pass_while(blank);
        if !self.pass_if("define") || !self.rest.starts_with(blank) {
            let message = "of the lines that begin with `#` only `#define` is passed over";
            return Err(TextError::new(start, message));
        }
        self.pass_while(blank);
        let place = self.place;
        let name: String = self.rest.chars().take_while(|own| in_name(*own)).collect();
        if name.is_empty() {
            return Err(TextError::new(place, "expected the name that is defined"));
        }
        self.blanked.defined.push((name, place));
        self.pass_line(Reader::pass_comment)
    }
}

/// Whether names of a claim have such a character.
pub fn in_name(character: char) -> bool {
    character.is_alphanumeric() || character == '_'
}
