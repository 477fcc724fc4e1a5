//! Files that may be a rule or an automaton: a text says which, and of bytes the checks do.
//!
//! No bytes pass the checks of both. Where an automaton of n states has the count of its transitions, at bytes 2 + n and 3 + n, a rule of
//! n elements has products, or with one or two elements also letters and a count; as a count they are below n, or 256 and more. An
//! automaton with so few transitions is shorter than any rule of n elements, one with so many longer.

use crate::arguments::Arguments;
use crate::command::{Choice, Failure};
use crate::input::{self, Form, Source};
use duknavet::files::{Automaton, Rule};
use duknavet::owned;
use duknavet::text::Kind;
use duknavet::words::Explained;
use duknavet::Refusal;
use std::ffi::OsStr;

pub const AS: Choice = Choice {
    name: "as",
    value: Some("KIND"),
    meaning: "what bytes are: rule, automaton, marks or map; else what passes the checks",
};

/// Checks bytes as an automaton. One with too many matrices for a rule is an automaton all the same.
pub fn check_automaton(bytes: &[u8]) -> Result<(), Explained> {
    match owned::automaton_rule(bytes) {
        Err(explained) if explained.refused.refusal != Refusal::TooManyMatrices => Err(explained),
        _ => Ok(()),
    }
}

/// What bytes are: what they pass the checks as; of damaged ones, what alone their counts and lengths fit.
fn kind_of(bytes: &[u8]) -> Option<Kind> {
    if owned::check(bytes).is_ok() {
        return Some(Kind::Rule);
    }
    if check_automaton(bytes).is_ok() {
        return Some(Kind::Automaton);
    }
    let (rule, automaton) = (Rule::take_apart(bytes), Automaton::take_apart(bytes));
    match (rule.is_some(), automaton.is_some()) {
        (true, false) => Some(Kind::Rule),
        (false, true) => Some(Kind::Automaton),
        _ => None,
    }
}

/// An argument and what it is.
pub fn either(argument: &OsStr, arguments: &Arguments) -> Result<(Source, Kind), Failure> {
    of_source(input::source(arguments, argument)?, arguments)
}

/// What a source is: what its text says, or `--as`, or the checks.
pub fn of_source(source: Source, arguments: &Arguments) -> Result<(Source, Kind), Failure> {
    match stated(&source, arguments)?.or_else(|| kind_of(&source.bytes)) {
        Some(kind) => Ok((source, kind)),
        None => Err(refused_as_both(&source)),
    }
}

/// What a source is: what its text says, or `--as`, or what is found of its bytes.
pub fn of_source_or(
    source: Source,
    arguments: &Arguments,
    found: fn(&[u8]) -> Kind,
) -> Result<(Source, Kind), Failure> {
    let kind = stated(&source, arguments)?.unwrap_or_else(|| found(&source.bytes));
    Ok((source, kind))
}

/// What a text says that it is, or what `--as` says of bytes.
fn stated(source: &Source, arguments: &Arguments) -> Result<Option<Kind>, Failure> {
    let wanted = arguments.one_of("as", &["rule", "automaton", "marks", "map"])?;
    let wanted = wanted.and_then(Kind::of_word);
    let found = match source.form {
        Form::Text(kind) => Some(kind),
        Form::Hoa | Form::Never => Some(Kind::Automaton),
        Form::Formula => Some(Kind::Rule),
        Form::Bytes => None,
    };
    match (found, wanted) {
        (Some(found), Some(wanted)) if found != wanted => {
            let (found, wanted) = (found.article(), wanted.article());
            let message = format!("{}: expected {wanted}, found {found}", source.name);
            Err(Failure::Refused(message))
        }
        (found, wanted) => Ok(found.or(wanted)),
    }
}

fn refused_as_both(source: &Source) -> Failure {
    let said = |checked: Result<(), Explained>| match checked {
        Ok(()) => "no fault".to_string(),
        Err(explained) => explained.to_string(),
    };
    Failure::Refused(format!(
        "{}: as a rule: {}; as an automaton: {}{}",
        source.name,
        said(owned::check(&source.bytes)),
        said(check_automaton(&source.bytes)),
        source.hint()
    ))
}

/// Why a source cannot be taken apart as what it is.
pub fn refusal(source: &Source, kind: Kind) -> Failure {
    let checked = match kind {
        Kind::Rule => owned::check(&source.bytes),
        Kind::Automaton => check_automaton(&source.bytes),
        // A marks section is checked beside a rule: one of a single element does, since its lengths come first.
        _ => owned::included(&[1, 0, 1, 0, 0, 0], &source.bytes).map(|_| ()),
    };
    match checked {
        Err(explained) => source.refused(&explained),
        Ok(()) => Failure::Refused(format!("{}: it cannot be taken apart", source.name)),
    }
}
