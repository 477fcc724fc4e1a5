//! The Hanoi format, version 1, with Büchi acceptance on states or transitions: the header, and the whole.

use super::condition::{self, holds, Signs, Valuations};
use super::graph::Graph;
use super::hoa_body::read_body;
use super::scanner::Scanner;
use crate::text::{Names, Place, TextError};
use crate::words::count;
use std::collections::BTreeMap;

const SIGNS: Signs = Signs { and: "&", or: "|" };

/// A line of the header that only this library writes: how many valuations, the first ones, are letters, and their names if they have
/// any. By the format's rules others pass over it, since it begins with a small letter.
pub const LETTERS: &str = "duknavet-letters";

/// The lines of the header that may stand once.
const ONCE: [&str; 7] = [
    "States",
    "AP",
    "Acceptance",
    "acc-name",
    "tool",
    "name",
    LETTERS,
];

/// Which runs accept.
#[derive(Clone, Copy, Debug, PartialEq, Eq)]
pub enum Acceptance {
    /// Every endless run: `0 t`.
    All,
    /// Those that meet set 0 again and again: `1 Inf(0)`.
    Repeated,
}

/// What the header says.
#[derive(Default)]
pub struct Header {
    /// How many states there are, where the file says it.
    states: Option<usize>,
    initial: Vec<(usize, Place)>,
    propositions: Option<Vec<String>>,
    aliases: BTreeMap<String, Valuations>,
    /// The propositions that aliases name, which `AP:` may follow.
    named: Vec<(usize, Place)>,
    acceptance: Option<Acceptance>,
    /// How many of the valuations are letters, where the file says it, and their names, if they have any.
    letters: Option<(usize, Names, Place)>,
}

/// What was read: the states and transitions, the propositions, and how many valuations are letters and their names, where the file
/// says it.
pub type Read = (Graph, Vec<String>, Option<(usize, Names)>);

pub fn read(text: &str) -> Result<Read, TextError> {
    let mut scanner = Scanner::new(text);
    scanner.expect("HOA:")?;
    let place = scanner.place();
    if scanner.word() != "v1" {
        return Err(TextError::new(place, "expected the version v1"));
    }
    let (header, acceptance) = read_header(&mut scanner)?;
    let mut graph = Graph::default();
    for (state, place) in &header.initial {
        let state = header.state(&mut graph, *state, *place)?;
        graph.initial.push(state);
    }
    read_body(&mut scanner, &header, acceptance, &mut graph)?;
    if acceptance == Acceptance::All {
        for state in 0..graph.states() {
            graph.accept(state);
        }
    }
    scanner.end("expected the end: one automaton a file")?;
    let letters = header.letters.map(|(letters, names, _)| (letters, names));
    Ok((graph, header.propositions.unwrap_or_default(), letters))
}

impl Header {
    /// How many valuations the propositions have.
    pub fn valuations(&self) -> usize {
        1 << self.propositions.as_ref().map_or(0, Vec::len)
    }

    /// A state by its number in the file, which must be below the count where there is one.
    pub fn state(
        &self,
        graph: &mut Graph,
        number: usize,
        place: Place,
    ) -> Result<usize, TextError> {
        match self.states {
            Some(states) if number >= states => {
                let message = format!("there is no state {number}: `States:` says {states}");
                Err(TextError::new(place, message))
            }
            _ => Ok(graph.state(&number.to_string())),
        }
    }

    /// The valuations where a proposition holds. How many there are may not be known yet; there are at most four.
    fn proposition(&self, number: usize, place: Place) -> Result<Valuations, TextError> {
        let count = self.propositions.as_ref().map_or(4, Vec::len);
        match number < count {
            true => Ok(holds(number)),
            false => Err(no_proposition(place)),
        }
    }

    fn finish(&mut self) -> Result<(), TextError> {
        let count = self.propositions.get_or_insert_with(Vec::new).len();
        let mut named = self.named.iter();
        if let Some((_, place)) = named.find(|(number, _)| *number >= count) {
            return Err(no_proposition(*place));
        }
        let valuations = self.valuations();
        match &self.letters {
            Some((letters, _, place)) if *letters == 0 || *letters > valuations => {
                let message = format!("{letters} letters, but there are {valuations} valuations");
                Err(TextError::new(*place, message))
            }
            _ => Ok(()),
        }
    }
}

fn no_proposition(place: Place) -> TextError {
    let message = "expected `t`, `f`, an alias or the number of a proposition";
    TextError::new(place, message)
}

fn read_header(scanner: &mut Scanner) -> Result<(Header, Acceptance), TextError> {
    let mut header = Header::default();
    let mut stood: Vec<String> = Vec::new();
    loop {
        let place = scanner.place();
        let fault = |message: String| Err(TextError::new(place, message));
        if scanner.take("--BODY--") {
            header.finish()?;
            return match header.acceptance {
                Some(acceptance) => Ok((header, acceptance)),
                None => fault("there is no `Acceptance:`".to_string()),
            };
        }
        if !scanner.line_begins_header() {
            return Err(scanner.fault("expected a line of the header or `--BODY--`"));
        }
        let name = scanner.word();
        scanner.expect(":")?;
        if ONCE.contains(&name.as_str()) {
            if stood.contains(&name) {
                return fault(format!("`{name}:` stands twice"));
            }
            stood.push(name.clone());
        }
        read_line(scanner, &name, place, &mut header)?;
    }
}

/// Reads a line of the header behind its name, which stands at a place.
fn read_line(
    scanner: &mut Scanner,
    name: &str,
    place: Place,
    header: &mut Header,
) -> Result<(), TextError> {
    match name {
        "States" => header.states = Some(scanner.number("the count of the states")?),
        "Start" => {
            let place = scanner.place();
            let state = scanner.number("the initial state")?;
            header.initial.push((state, place));
            plain_target(scanner)?;
        }
        "AP" => header.propositions = Some(read_propositions(scanner, place)?),
        "Alias" => {
            let place = scanner.place();
            let name = read_alias(scanner)?;
            if header.aliases.contains_key(&name) {
                return Err(TextError::new(place, format!("@{name} stands twice")));
            }
            let mut named = Vec::new();
            let set = read_condition(scanner, header, &mut named)?;
            header.named.extend(named);
            header.aliases.insert(name, set);
        }
        LETTERS => header.letters = Some(read_letters(scanner, place)?),
        "Acceptance" => header.acceptance = Some(read_acceptance(scanner)?),
        other if other.starts_with(|first: char| first.is_uppercase()) => {
            let message = format!("`{other}:` is not read here");
            return Err(TextError::new(place, message));
        }
        // What a line says that begins with a small letter changes no meaning.
        _ => while !scanner.line_begins_header() && scanner.pass()? {},
    }
    Ok(())
}

fn read_propositions(scanner: &mut Scanner, place: Place) -> Result<Vec<String>, TextError> {
    let count = scanner.number("the count of the propositions")?;
    if count > 4 {
        let message = format!("{count} propositions, but letters have room for 4");
        return Err(TextError::new(place, message));
    }
    let mut propositions = Vec::new();
    for _ in 0..count {
        let place = scanner.place();
        let name = scanner.string()?;
        if propositions.contains(&name) {
            let message = format!("the proposition \"{name}\" stands twice");
            return Err(TextError::new(place, message));
        }
        propositions.push(name);
        let usable = Names::propositions(&propositions);
        usable.map_err(|message| TextError::new(place, message))?;
    }
    Ok(propositions)
}

/// How many letters there are, and a name for each or for none.
fn read_letters(scanner: &mut Scanner, place: Place) -> Result<(usize, Names, Place), TextError> {
    let letters = scanner.number("the count of the letters")?;
    let mut names = Vec::new();
    while scanner.peek() == Some('"') {
        names.push(scanner.string()?);
    }
    let called = match names.is_empty() || names.len() == letters {
        true => Names::letters(&names),
        false => Err(format!(
            "{letters} letters, but {}",
            count(names.len(), "name")
        )),
    };
    let called = called.map_err(|message| TextError::new(place, message))?;
    Ok((letters, called, place))
}

/// Büchi acceptance, which may stand in parentheses.
fn read_acceptance(scanner: &mut Scanner) -> Result<Acceptance, TextError> {
    let place = scanner.place();
    let sets = scanner.number("the count of the acceptance sets")?;
    let mut open = 0;
    while scanner.take("(") {
        open += 1;
    }
    let acceptance = match (sets, scanner.word().as_str()) {
        (0, "t") => Some(Acceptance::All),
        (1, "Inf") => ["(", "0", ")"]
            .iter()
            .all(|wanted| scanner.take(wanted))
            .then_some(Acceptance::Repeated),
        _ => None,
    };
    let closed = (0..open).all(|_| scanner.take(")"));
    let ends = !matches!(scanner.peek(), Some('&' | '|'));
    acceptance.filter(|_| closed && ends).ok_or_else(|| {
        let message = "only Büchi acceptance is read: `1 Inf(0)`, or `0 t`";
        TextError::new(place, message)
    })
}

/// The name of an alias, behind its sign without a blank.
fn read_alias(scanner: &mut Scanner) -> Result<String, TextError> {
    scanner.expect("@")?;
    let name =
        scanner.run_here(|character| character.is_ascii_alphanumeric() || "_-".contains(character));
    match name.is_empty() {
        true => Err(scanner.fault("expected the name of an alias")),
        false => Ok(name),
    }
}

/// A condition, and the propositions that it names.
fn read_condition(
    scanner: &mut Scanner,
    header: &Header,
    named: &mut Vec<(usize, Place)>,
) -> Result<Valuations, TextError> {
    let mut atom = |scanner: &mut Scanner| {
        let place = scanner.place();
        if scanner.peek() == Some('@') {
            let name = read_alias(scanner)?;
            let message = format!("there is no alias @{name}");
            let set = header.aliases.get(&name).copied();
            return set.ok_or_else(|| TextError::new(place, message));
        }
        let digit = |next: char| next.is_ascii_digit();
        if scanner.peek().is_some_and(digit) {
            let number = scanner.number("a proposition")?;
            named.push((number, place));
            return header.proposition(number, place);
        }
        match scanner.word().as_str() {
            "t" => Ok(condition::ALL),
            "f" => Ok(condition::NONE),
            _ => Err(no_proposition(place)),
        }
    };
    condition::read(scanner, &SIGNS, &mut atom)
}

pub fn read_label(scanner: &mut Scanner, header: &Header) -> Result<Option<Valuations>, TextError> {
    if !scanner.take("[") {
        return Ok(None);
    }
    let set = read_condition(scanner, header, &mut Vec::new())?;
    scanner.expect("]")?;
    Ok(Some(set))
}

/// A target is one state: alternating automata are not read.
pub fn plain_target(scanner: &mut Scanner) -> Result<(), TextError> {
    match scanner.peek() {
        Some('&') => Err(scanner.fault("alternating automata are not read")),
        _ => Ok(()),
    }
}
