//! The text of an automaton: the propositions, if letters are their valuations; `states`, their count and a kind each; `letters`, their
//! count and their names, all or none; `transitions`, their count and for each the state it leaves, its letter and the state it goes to.

use super::counts::Section;
use super::names::Names;
use super::quotes::written;
use super::read::{Kind, Parsed};
use super::tokens::{whole_number, TextError, Tokens};
use crate::files::Automaton;
use std::fmt::Write;

const KINDS: [&str; 4] = ["plain", "initial", "final", "both"];

pub(super) fn read(tokens: &mut Tokens<'_>) -> Result<Parsed, TextError> {
    let mut parsed = Parsed::new();
    parsed.names.read_declaration(tokens, "states")?;
    let states = read_states(tokens, &mut parsed)?;
    for state in 0..states {
        read_kind(tokens, &mut parsed, state)?;
    }
    read_letters(tokens, &mut parsed)?;
    let word = tokens.expect("transitions")?;
    let section = Section::new(tokens, word, None, "transitions");
    let count = match section.left_out_of_triples()? {
        Some(transitions) => parsed.widely_counted(transitions, word)?,
        None => parsed.wide_count(tokens, "the count of the transitions")?,
    };
    for transition in 0..count {
        parsed.byte(
            tokens,
            &format!("the state that transition {transition} leaves"),
        )?;
        let letter = tokens.peek().map(|token| token.place);
        let place = letter
            .ok_or_else(|| tokens.fault(&format!("the letter of transition {transition}")))?;
        let number = parsed.names.read(tokens)?;
        parsed.push(number, place);
        parsed.byte(
            tokens,
            &format!("the state that transition {transition} goes to"),
        )?;
    }
    Ok(parsed)
}

/// Reads how many states there are: each has one word.
fn read_states(tokens: &mut Tokens<'_>, parsed: &mut Parsed) -> Result<usize, TextError> {
    let word = tokens.expect("states")?;
    let section = Section::new(tokens, word, Some("letters"), "states");
    let states = section.ahead.len();
    let with = section
        .first()
        .is_some_and(|count| states == count.saturating_add(1));
    match section.left_out(with, states > 0)? {
        true => parsed.counted(states, word),
        false => parsed.byte(tokens, "the count of the states"),
    }
}

/// Reads how many letters there are, and their names, all or none. Where the count is left out they are as many as the names, or as the
/// propositions have valuations.
fn read_letters(tokens: &mut Tokens<'_>, parsed: &mut Parsed) -> Result<(), TextError> {
    let word = tokens.expect("letters")?;
    let named = tokens.before(Some("transitions"));
    let number = named.first().and_then(|token| whole_number(token.word));
    let (names, valuations) = (named.len(), parsed.names.count());
    let place = tokens.peek().map_or(word, |token| token.place);
    let (letters, place) = match (number, names, valuations) {
        (None, 0, Some(valuations)) => (parsed.counted(valuations, word)?, word),
        (None, 1.., None) => (parsed.counted(names, word)?, word),
        _ => (parsed.byte(tokens, "the count of the letters")?, place),
    };
    parsed.names.expect_count(letters, place)?;
    let ends = |tokens: &Tokens<'_>| tokens.before(Some("transitions")).is_empty();
    if ends(tokens) {
        return Ok(());
    }
    for letter in 0..letters {
        let wanted = format!("the name of letter {letter}");
        if ends(tokens) {
            return Err(tokens.fault(&wanted));
        }
        let name = tokens.next(&wanted)?;
        parsed.names.add(letter, Some(name))?;
    }
    Ok(())
}

fn read_kind(tokens: &mut Tokens<'_>, parsed: &mut Parsed, state: usize) -> Result<(), TextError> {
    for (kind, word) in (0..).zip(KINDS) {
        if let Some(place) = tokens.take(word) {
            parsed.push(kind, place);
            return Ok(());
        }
    }
    let wanted = format!("the kind of state {state}: `plain`, `initial`, `final`, `both`");
    parsed.byte(tokens, &wanted).map(|_| ())
}

/// The text of an automaton. Names are printed for every letter where one has a name; letters of propositions go by their numbers.
pub fn print_automaton(automaton: &Automaton, names: &Names) -> String {
    let mut text = Kind::Automaton.header() + &names.declaration();
    let _ = writeln!(text, "states {}", automaton.kinds.len());
    for kind in &automaton.kinds {
        let _ = match KINDS.get(usize::from(*kind)) {
            Some(word) => writeln!(text, "  {word}"),
            None => writeln!(text, "  {kind}"),
        };
    }
    let _ = writeln!(text, "letters {}", automaton.letters);
    let named = names.as_letters().unwrap_or_default();
    if !named.is_empty() {
        let named: Vec<String> = named.iter().map(|name| written(name)).collect();
        let _ = writeln!(text, "  {}", named.join(" "));
    }
    let _ = writeln!(text, "transitions {}", automaton.transitions.len());
    for transition in &automaton.transitions {
        let name = names.written(transition.letter);
        let letter = name.unwrap_or_else(|| transition.letter.to_string());
        let _ = writeln!(text, "  {} {letter} {}", transition.from, transition.to);
    }
    text
}
