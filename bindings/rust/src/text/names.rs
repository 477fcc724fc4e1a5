//! How letters are called: not at all, by names, or as valuations of propositions.

use super::quotes::{in_quotes, is_plain, is_reserved, listed, unquoted, written, PLAIN};
use super::tokens::{shown, whole_number, Place, TextError, Token, Tokens};
use super::valuations;
use crate::words::count;

/// The most propositions: letters are 16 at most.
pub const MOST_PROPOSITIONS: usize = 4;

/// How the letters of a rule or an automaton are called.
///
/// Letters that have names are called by them, and where only some have, the others have their number for a name.
/// Letters that are valuations of propositions are called by these: letter j is the one in which proposition i
/// holds exactly if bit i of j is 1, so that p propositions have 2^p letters. Whatever they are called, numbers
/// stand for letters too.
#[derive(Clone, Debug, Default, PartialEq, Eq, Hash)]
pub struct Names(Called);

#[derive(Clone, Debug, Default, PartialEq, Eq, Hash)]
enum Called {
    #[default]
    Nothing,
    /// A name, or none, for each letter; some letter has one.
    Letters(Vec<Option<String>>),
    Propositions(Vec<String>),
}

impl Names {
    /// No letter has a name.
    pub fn none() -> Names {
        Names::default()
    }

    /// A name for each letter; one whose name is its own number has none. What is wrong with them is told in words.
    pub fn letters<S: AsRef<str>>(names: &[S]) -> Result<Names, String> {
        let mut own = Vec::new();
        for (number, name) in names.iter().enumerate() {
            let name = name.as_ref();
            if name == number.to_string() {
                own.push(None);
                continue;
            }
            let known = own.iter().flatten();
            usable(name, known, "letter")?;
            own.push(Some(name.to_string()));
        }
        Ok(Names::of_letters(own))
    }

    /// Letters that are valuations of propositions, the first that of the lowest bit. What is wrong with them is
    /// told in words.
    pub fn propositions<S: AsRef<str>>(names: &[S]) -> Result<Names, String> {
        if names.len() > MOST_PROPOSITIONS {
            let count = names.len();
            return Err(format!(
                "{count} propositions, but letters have room for {MOST_PROPOSITIONS}"
            ));
        }
        let mut own: Vec<String> = Vec::new();
        for name in names {
            usable(name.as_ref(), own.iter(), "proposition")?;
            own.push(name.as_ref().to_string());
        }
        Ok(Names(Called::Propositions(own)))
    }

    fn of_letters(own: Vec<Option<String>>) -> Names {
        match own.iter().any(Option::is_some) {
            true => Names(Called::Letters(own)),
            false => Names::none(),
        }
    }

    /// The propositions that letters are valuations of, if they are.
    pub fn as_propositions(&self) -> Option<&[String]> {
        match &self.0 {
            Called::Propositions(own) => Some(own),
            _ => None,
        }
    }

    /// The name of each letter, its number where it has none; none where no letter has a name.
    pub fn as_letters(&self) -> Option<Vec<String>> {
        let Called::Letters(own) = &self.0 else {
            return None;
        };
        let name = |(number, name): (usize, &Option<String>)| match name {
            Some(name) => name.clone(),
            None => number.to_string(),
        };
        Some(own.iter().enumerate().map(name).collect())
    }

    /// The name that a letter has of its own.
    fn own(&self, letter: u8) -> Option<&str> {
        match &self.0 {
            Called::Letters(own) => own.get(usize::from(letter))?.as_deref(),
            _ => None,
        }
    }

    /// The name of a letter as a text of a rule has it, if it has one of its own.
    pub(super) fn written(&self, letter: u8) -> Option<String> {
        self.own(letter).map(written)
    }

    /// What a letter is called, as it is printed; none where it has no name and there are no propositions.
    pub fn of(&self, letter: u8) -> Option<String> {
        match &self.0 {
            Called::Propositions(own) => valuations::written_out(own, letter),
            _ => self.written(letter),
        }
    }

    /// The letter of a name, if there is one.
    pub fn letter(&self, name: &str) -> Option<u8> {
        let Called::Letters(own) = &self.0 else {
            return None;
        };
        let place = own.iter().position(|own| own.as_deref() == Some(name))?;
        u8::try_from(place).ok()
    }

    /// A letter as it is printed: what it is called, else its number.
    pub fn show(&self, letter: u8) -> String {
        self.of(letter).unwrap_or_else(|| letter.to_string())
    }

    /// Whether letters are called in any way.
    pub fn any(&self) -> bool {
        self.0 != Called::Nothing
    }

    /// How many letters are called so; none where they are not called.
    pub fn count(&self) -> Option<usize> {
        match &self.0 {
            Called::Nothing => None,
            Called::Letters(own) => Some(own.len()),
            Called::Propositions(own) => Some(1 << own.len()),
        }
    }

    /// One line, without its end, that [`of_line`](Names::of_line) reads: `letters` or `propositions` and each name
    /// in quotes, or nothing where letters are not called.
    pub fn line(&self) -> String {
        match (&self.as_letters(), &self.0) {
            (Some(names), _) => format!("letters{}", in_quotes(names)),
            (_, Called::Propositions(own)) => format!("propositions{}", in_quotes(own)),
            _ => String::new(),
        }
    }

    /// The names that a line says.
    pub fn of_line(line: &str) -> Result<Names, TextError> {
        let mut tokens = Tokens::of(line);
        let Some(first) = tokens.peek() else {
            return Ok(Names::none());
        };
        let fault = |message| TextError::new(first.place, message);
        if tokens.take("letters").is_none() {
            tokens.expect("propositions")?;
        }
        let mut names = Vec::new();
        while tokens.peek().is_some() {
            names.push(name_of(tokens.next("a name")?)?);
        }
        match first.word {
            "letters" => Names::letters(&names).map_err(fault),
            _ => Names::propositions(&names).map_err(fault),
        }
    }

    /// The line of a text that declares propositions, if letters are their valuations.
    pub(super) fn declaration(&self) -> String {
        let Called::Propositions(own) = &self.0 else {
            return String::new();
        };
        format!("propositions {}{}\n", own.len(), in_quotes(own))
    }

    /// Reads what may stand behind the first line of a text: `propositions`, their count, which may be left out,
    /// and their names.
    pub(super) fn read_declaration(
        &mut self,
        tokens: &mut Tokens<'_>,
        next: &str,
    ) -> Result<(), TextError> {
        if tokens.take("propositions").is_none() {
            return Ok(());
        }
        let counted = tokens.peek().and_then(|token| whole_number(token.word));
        if counted.is_some() {
            tokens.number(MOST_PROPOSITIONS, "the count of the propositions")?;
        }
        let mut names: Vec<String> = Vec::new();
        *self = Names(Called::Propositions(Vec::new()));
        let ends = |tokens: &Tokens<'_>| tokens.peek().is_none_or(|token| token.word == next);
        while counted.map_or_else(|| !ends(tokens), |count| names.len() < count) {
            let wanted = format!("the name of proposition {}", names.len());
            let token = tokens.next(&wanted)?;
            names.push(name_of(token)?);
            *self = Names::propositions(&names)
                .map_err(|message| TextError::new(token.place, message))?;
        }
        Ok(())
    }

    /// Reads a letter: by name, as a valuation in which what is left out is false, or by number, 0 to 255.
    pub(super) fn read(&self, tokens: &mut Tokens<'_>) -> Result<u8, TextError> {
        let token = tokens.next("a letter")?;
        let number = || whole_number(token.word).and_then(|number| u8::try_from(number).ok());
        if let Called::Propositions(own) = &self.0 {
            return match number() {
                Some(number) => Ok(number),
                None => valuations::read(own, token, tokens, &self.known()),
            };
        }
        let named = match unquoted(token.word) {
            Some(name) => {
                self.letter(&name.map_err(|message| TextError::new(token.place, message))?)
            }
            None => self.letter(token.word).or_else(number),
        };
        named.ok_or_else(|| {
            let word = shown(token.word);
            let message = format!("`{word}` is no letter's name and no number from 0 to 255");
            TextError::new(token.place, message + &self.known())
        })
    }

    /// What letters or propositions are called, for one who asked for another.
    fn known(&self) -> String {
        match (&self.0, self.as_letters()) {
            (Called::Propositions(own), _) if !own.is_empty() => {
                format!("; the propositions are {}", listed(own))
            }
            (_, Some(own)) => format!("; the letters are {}", listed(&own)),
            _ => String::new(),
        }
    }

    /// Gives the next letter of a text a name, or none. Letters of propositions have none.
    pub(super) fn add(&mut self, letter: usize, name: Option<Token<'_>>) -> Result<(), TextError> {
        let Some(token) = name else {
            if let Called::Letters(own) = &mut self.0 {
                own.push(None);
            }
            return Ok(());
        };
        let fault = |message: String| TextError::new(token.place, message);
        let name = name_of(token)?;
        let mut names = match &self.0 {
            Called::Propositions(_) => {
                let message = "letters have no names where there are propositions";
                return Err(fault(message.to_string()));
            }
            _ => self.as_letters().unwrap_or_default(),
        };
        names.extend((names.len()..letter).map(|unnamed| unnamed.to_string()));
        names.push(name);
        *self = Names::letters(&names).map_err(fault)?;
        Ok(())
    }

    /// That a text has as many letters as its propositions have valuations.
    pub(super) fn expect_count(&self, letters: usize, place: Place) -> Result<(), TextError> {
        match self.as_propositions() {
            Some(own) if letters != 1 << own.len() => {
                let valuations = count(1 << own.len(), "valuation");
                let (letters, own) = (count(letters, "letter"), count(own.len(), "proposition"));
                let message = format!("{letters}, but {own} and so {valuations}");
                Err(TextError::new(place, message))
            }
            _ => Ok(()),
        }
    }
}

/// A name in quotes or a plain one, which is no word with another meaning.
fn name_of(token: Token<'_>) -> Result<String, TextError> {
    let fault = |message: String| Err(TextError::new(token.place, message));
    match unquoted(token.word) {
        Some(Ok(name)) => return Ok(name),
        Some(Err(message)) => return fault(message.to_string()),
        None => {}
    }
    let word = shown(token.word);
    if !is_plain(token.word) {
        return fault(format!(
            "`{word}` is no name: a name is {PLAIN}, or stands in quotes"
        ));
    }
    if is_reserved(token.word) {
        return fault(format!(
            "`{word}` has another meaning and is no letter's name"
        ));
    }
    Ok(token.word.to_string())
}

/// Whether a name can be one more among others.
fn usable<'a>(
    name: &str,
    mut others: impl Iterator<Item = &'a String>,
    of: &str,
) -> Result<(), String> {
    let word = shown(name);
    if name.chars().any(char::is_control) {
        return Err(format!("`{word}` has a character that cannot be printed"));
    }
    let digits = !name.is_empty() && name.bytes().all(|byte| byte.is_ascii_digit());
    if of == "letter" && digits {
        return Err(format!(
            "`{word}` is a number and the name of no other letter"
        ));
    }
    match others.any(|own| own == name) {
        true => Err(format!("`{word}` is another {of}'s name already")),
        false => Ok(()),
    }
}
