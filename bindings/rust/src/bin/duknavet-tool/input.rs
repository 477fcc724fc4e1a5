//! Files that are handed in: bytes and texts, told apart by how they begin.

use crate::arguments::Arguments;
use crate::command::Failure;
use crate::reading::{contents, decoded, shown};
use crate::{formulated, kinds, likeness};
use duknavet::exchange;
use duknavet::files::{Automaton, Lasso, Rule};
use duknavet::formulas::{is_document, Alphabet};
use duknavet::text::{self, Kind, Names, Parsed, Place, TextError};
use duknavet::words::Explained;
use duknavet::Refusal;
use std::ffi::OsStr;

/// How somebody goes on who has an automaton where a rule is wanted.
pub const MAKES_A_RULE: &str = "`duknavet-tool automaton` makes a rule of one";

/// How somebody goes on who has a formula where it does not stand for its rule.
const FILES_ONLY: &str =
    "a formula is not taken here; `duknavet-tool formula` writes its rule to a file";

/// What a formula is called that stands in the command line.
const ITSELF: &str = "the formula";

/// What a file holds.
#[derive(Clone, Copy, Debug, PartialEq, Eq)]
pub enum Form {
    Bytes,
    Text(Kind),
    /// The Hanoi format.
    Hoa,
    /// Spin's never claim.
    Never,
    /// A formula, whose rule it stands for.
    Formula,
}

/// The bytes of a rule, an automaton or a marks section, and what the text that they came in says beyond them.
pub struct Source {
    pub name: String,
    pub bytes: Vec<u8>,
    pub form: Form,
    pub names: Names,
    /// The comments right behind the first line of a text.
    pub description: Vec<String>,
    /// What the subcommand asked for, where it asked for one kind.
    wanted: Option<Kind>,
    /// Where each byte stood in a text.
    places: Vec<Place>,
    /// What files of other tools say of the letters, a line each.
    pub notes: Vec<String>,
}

impl Source {
    pub fn is_text(&self) -> bool {
        self.form != Form::Bytes
    }

    /// What it is called in a heading: the formula itself where no file has it.
    pub fn title(&self) -> &str {
        match (self.form, self.description.first()) {
            (Form::Formula, Some(formula)) if self.name == ITSELF => formula.trim(),
            _ => &self.name,
        }
    }

    /// The refusal of this input, with the line and column where the place is a byte of a text.
    pub fn refused(&self, explained: &Explained) -> Failure {
        let refusal = explained.refused.refusal;
        let of_byte = matches!(
            refusal,
            Refusal::Truncated
                | Refusal::CountOutOfRange
                | Refusal::EntryOutOfRange
                | Refusal::TrailingBytes
                | Refusal::NotLinked
                | Refusal::Duplicate
        );
        let at = usize::try_from(explained.refused.place).ok();
        // Byte 0 is a count, so that an entry there is one that was handed over beside the file.
        let beside = refusal == Refusal::EntryOutOfRange && at == Some(0);
        let at = at.filter(|_| of_byte && !beside);
        let place = at.and_then(|at| self.places.get(at));
        let name = &self.name;
        let message = match (place, self.left(explained)) {
            (_, Some(left)) => format!("{name}: {left}"),
            (Some(place), _) => format!("{name}: {place}: {explained}"),
            _ => format!("{name}: {explained}{}", self.hint()),
        };
        Failure::ByCall(explained.refused, message)
    }

    /// That another tool's automaton has too many states, which only those are that are left of it.
    fn left(&self, explained: &Explained) -> Option<Explained> {
        let refused = explained.refused;
        let count = (refused.refusal, refused.place) == (Refusal::CountOutOfRange, 0);
        let foreign = matches!(self.form, Form::Hoa | Form::Never);
        let states = usize::from(*self.bytes.first()?);
        let words = exchange::too_many_left(states);
        (foreign && count).then_some(Explained { refused, words })
    }

    /// What bytes that were refused may be instead, to be said behind the refusal.
    pub fn hint(&self) -> String {
        if self.form != Form::Bytes {
            return String::new();
        }
        let rule = self.wanted == Some(Kind::Rule);
        match likeness::words(&self.bytes) {
            Some(words) => format!("; {words}"),
            None if rule && kinds::check_automaton(&self.bytes).is_ok() => {
                format!("; it is an automaton, and {MAKES_A_RULE}")
            }
            None => String::new(),
        }
    }
}

/// The refusal of a call with two files, told of the file that it lies in; what stands between two rules is told of neither.
pub fn refused_by_input(first: &Source, second: &Source, explained: &Explained) -> Failure {
    match (explained.refused.refusal, explained.refused.input) {
        (Refusal::LettersDiffer | Refusal::TooManyPairs | Refusal::TooManyClasses, _) => {
            Failure::ByCall(explained.refused, explained.to_string())
        }
        (_, 2) => second.refused(explained),
        _ => first.refused(explained),
    }
}

fn form(bytes: &[u8]) -> Result<Form, TextError> {
    if let Some(kind) = text::kind(bytes) {
        return kind.map(Form::Text);
    }
    Ok(match exchange::format(bytes) {
        Some(exchange::Format::Hoa) => Form::Hoa,
        Some(exchange::Format::Never) => Form::Never,
        None => Form::Bytes,
    })
}

/// What an argument is before it is read: the bytes of a file, or a formula.
pub enum Given {
    Bytes { name: String, bytes: Vec<u8> },
    Formula { name: String, text: String },
}

/// An argument: a formula where it begins with `f:`, or where the file of that name begins so; else the file's bytes.
pub fn given(argument: &OsStr) -> Result<Given, Failure> {
    if let Some(text) = formulated::argument(&argument.to_string_lossy()) {
        return Ok(Given::Formula {
            name: ITSELF.to_string(),
            text: text.to_string(),
        });
    }
    let (name, bytes) = (shown(argument), contents(argument)?);
    Ok(match is_document(&String::from_utf8_lossy(&bytes)) {
        true => Given::Formula {
            text: decoded(&name, bytes)?,
            name,
        },
        false => Given::Bytes { name, bytes },
    })
}

/// A file with whatever form it has; a lasso has no bytes and is not one, and neither is a formula.
pub fn file(name: &OsStr) -> Result<Source, Failure> {
    match given(name)? {
        Given::Bytes { name, bytes } => source_of(name, bytes),
        Given::Formula { .. } => {
            let name = shown(name);
            Err(Failure::Refused(format!("{name}: {FILES_ONLY}")))
        }
    }
}

/// What an argument is: a file with whatever form it has, or the rule of a formula over the letters that an option names.
pub fn source(arguments: &Arguments, argument: &OsStr) -> Result<Source, Failure> {
    read(arguments, given(argument)?)
}

/// The same of what was given.
pub fn read(arguments: &Arguments, given: Given) -> Result<Source, Failure> {
    let source = match given {
        Given::Bytes { name, bytes } => source_of(name, bytes)?,
        Given::Formula { name, text } => of_formula(arguments, name, &text, None)?,
    };
    used(arguments, &[&source])?;
    Ok(source)
}

/// Two arguments, of which one may be a formula over the letters of the other.
pub fn two_sources(arguments: &Arguments, both: [&OsStr; 2]) -> Result<[Source; 2], Failure> {
    let file = |given: Given| match given {
        Given::Bytes { name, bytes } => source_of(name, bytes).map(Ok),
        Given::Formula { name, text } => Ok(Err((name, text))),
    };
    let (first, second) = (file(given(both[0])?)?, file(given(both[1])?)?);
    let made = |name: String, text: &str, other: Option<&Source>| {
        of_formula(arguments, name, text, other.and_then(alphabet_of))
    };
    let sources = match (first, second) {
        (Ok(first), Ok(second)) => [first, second],
        (Ok(first), Err((name, text))) => {
            let second = made(name, &text, Some(&first))?;
            [first, second]
        }
        (Err((name, text)), Ok(second)) => [made(name, &text, Some(&second))?, second],
        (Err(first), Err(second)) => {
            let (one, two) = ("the first formula", "the second formula");
            let called = |name: String, own: &str| match name == ITSELF {
                true => own.to_string(),
                false => name,
            };
            [
                made(called(first.0, one), &first.1, None)?,
                made(called(second.0, two), &second.1, None)?,
            ]
        }
    };
    used(arguments, &[&sources[0], &sources[1]])?;
    Ok(sources)
}

/// The letters of a rule or of an automaton, for a formula beside it.
pub fn alphabet_of(source: &Source) -> Option<Alphabet> {
    let rule = || Rule::take_apart(&source.bytes).map(|rule| rule.images.len());
    let automaton = || Automaton::take_apart(&source.bytes).map(|own| usize::from(own.letters));
    let letters = match source.form {
        Form::Text(Kind::Automaton) | Form::Hoa | Form::Never => automaton(),
        Form::Text(Kind::Rule) | Form::Formula => rule(),
        Form::Text(_) => None,
        Form::Bytes => rule().or_else(automaton),
    };
    let letters = letters.filter(|letters| (1..=16).contains(letters))?;
    Some(Alphabet::new(source.names.clone(), letters))
}

/// That options which are for formulas are used by one.
fn used(arguments: &Arguments, sources: &[&Source]) -> Result<(), Failure> {
    let formula = sources.iter().any(|source| source.form == Form::Formula);
    match formulated::named(arguments)? {
        Some(_) if !formula => {
            Err(arguments.usage("`--letters` and `--ap` are for a formula, and none is given"))
        }
        _ => Ok(()),
    }
}

/// The rule of a formula, over the letters that an option names, or else over those of the file beside it.
fn of_formula(
    arguments: &Arguments,
    name: String,
    text: &str,
    beside: Option<Alphabet>,
) -> Result<Source, Failure> {
    let Some(alphabet) = formulated::named(arguments)?.or(beside) else {
        return Err(
            arguments.usage("a formula needs `--letters` or `--ap`, which name what it speaks of")
        );
    };
    let made = formulated::made(&name, text, &alphabet, false)?;
    Ok(Source {
        name,
        bytes: made.rule,
        form: Form::Formula,
        names: alphabet.names().clone(),
        description: made.description,
        wanted: None,
        places: Vec::new(),
        notes: Vec::new(),
    })
}

pub fn source_of(name: String, bytes: Vec<u8>) -> Result<Source, Failure> {
    let fault = |error: TextError| Failure::Refused(format!("{name}: {error}"));
    let form = form(&bytes).map_err(fault)?;
    let mut notes = Vec::new();
    let parsed = match form {
        // A formula was told from bytes before.
        Form::Bytes | Form::Formula => Parsed {
            bytes,
            places: Vec::new(),
            names: Names::none(),
            description: Vec::new(),
        },
        Form::Text(_) => text::read(&bytes).map_err(fault)?.1,
        Form::Hoa | Form::Never => {
            let read = exchange::read(&bytes).map_err(fault)?;
            notes = read.notes();
            Parsed {
                bytes: read.automaton.bytes(),
                places: Vec::new(),
                names: read.names,
                description: Vec::new(),
            }
        }
    };
    Ok(Source {
        name,
        bytes: parsed.bytes,
        form,
        names: parsed.names,
        description: parsed.description,
        wanted: None,
        places: parsed.places,
        notes,
    })
}

/// A source that is to be of one kind: bytes are taken for it, and a text of another kind is refused.
pub fn of_kind(source: Source, kind: Kind) -> Result<Source, Failure> {
    let found = match source.form {
        Form::Bytes => kind,
        Form::Text(own) => own,
        Form::Hoa | Form::Never => Kind::Automaton,
        Form::Formula => Kind::Rule,
    };
    if found != kind {
        let (name, wanted) = (&source.name, kind.article());
        let hint = match (kind, found) {
            (Kind::Rule, Kind::Automaton) => format!("; {MAKES_A_RULE}"),
            _ => String::new(),
        };
        let message = format!("{name}: expected {wanted}, found {}{hint}", found.article());
        return Err(Failure::Refused(message));
    }
    Ok(Source {
        wanted: Some(kind),
        ..source
    })
}

/// A file that is to be of one kind.
pub fn expected(name: &OsStr, kind: Kind) -> Result<Source, Failure> {
    of_kind(file(name)?, kind)
}

/// A rule in a file.
pub fn rule_file(name: &OsStr) -> Result<Source, Failure> {
    expected(name, Kind::Rule)
}

/// A rule, in a file or of a formula.
pub fn rule(arguments: &Arguments, argument: &OsStr) -> Result<Source, Failure> {
    of_kind(source(arguments, argument)?, Kind::Rule)
}

/// Two rules, in files or of formulas.
pub fn two_rules(arguments: &Arguments, both: [&OsStr; 2]) -> Result<[Source; 2], Failure> {
    let [first, second] = two_sources(arguments, both)?;
    Ok([of_kind(first, Kind::Rule)?, of_kind(second, Kind::Rule)?])
}

/// A lasso: the argument itself where it begins with `u:` or `v:`, else the text in the file of that name.
pub fn lasso(argument: &OsStr, names: &Names) -> Result<Lasso, Failure> {
    let words = argument.to_string_lossy();
    let (name, bytes) = match words.starts_with("u:") || words.starts_with("v:") {
        true => ("the lasso".to_string(), words.into_owned().into_bytes()),
        false => (shown(argument), contents(argument)?),
    };
    text::read_lasso(&bytes, names).map_err(|error| Failure::Refused(format!("{name}: {error}")))
}
