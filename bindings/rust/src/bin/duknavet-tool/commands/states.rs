//! A rule's own automaton, state by state.

use crate::arguments::Arguments;
use crate::command::{Answer, Choice, Command, Failure};
use crate::formulated;
use crate::input::{self, Source};
use crate::json::{keys, Json};
use crate::report::{self, Report};
use duknavet::text::{read_letter, Names};
use duknavet::words::Explained;
use duknavet::{owned, ListedState, Refusal, RuleAutomaton, RuleState, StateKind, NONE};
use std::fmt::Write;

pub const LEAST: Choice = Choice {
    name: "least",
    value: Some("GRADE"),
    meaning: "the least grade of the lassos that a rule's automaton accepts, 1 to 3; else 1",
};

pub const COMMAND: Command = Command {
    name: "states",
    arguments: "RULE",
    least: 1,
    most: 1,
    purpose: "list the states of a rule's own Büchi automaton, and where each letter leads from them",
    options: &[
        LEAST,
        Choice {
            name: "all",
            value: None,
            meaning: "every state; else those that are reached from initial ones",
        },
        Choice {
            name: "state",
            value: Some("S,E"),
            meaning: "only this state, S an element or none",
        },
        Choice {
            name: "letter",
            value: Some("LETTER"),
            meaning: "only where this letter leads: a number, a name, or as in a & !b",
        },
    ],
    common: &[formulated::OPTIONS, report::OPTIONS],
    details: "A state is (s, e), e an idempotent and s an element or none. Initial are the pairs that the rule marks with the least grade \
or more, final those whose s is none. The automaton accepts just the lassos that the rule gives that grade or more; the rule may be \
weak. Prints how many states are listed, how many of them initial and final, then each by e and s. What is no state is refused by 17, a \
letter that the rule does not have by 10, another least grade by 3.",
    run,
};

/// The least grade that is asked for, any byte: whether it is a grade the call says.
pub fn least(arguments: &Arguments) -> Result<u8, Failure> {
    let least = arguments.number("least", 0, usize::from(u8::MAX))?;
    Ok(least.map_or(1, |least| u8::try_from(least).unwrap_or(u8::MAX)))
}

fn run(arguments: &Arguments) -> Result<Answer, Failure> {
    let least = least(arguments)?;
    let asked = arguments
        .value("state")
        .map(|words| state(arguments, words));
    let asked = asked.transpose()?;
    let all = arguments.has("all");
    if asked.is_some() && all {
        return Err(arguments.usage("`--all` and `--state` do not go together"));
    }
    let rule = input::rule(arguments, arguments.plain(0))?;
    let letter = letter(arguments, &rule.names)?;
    let report = match asked {
        Some(state) => one(&rule, state, least, letter),
        None => list(&rule, least, letter, all),
    };
    let report = report.map_err(|explained| rule.refused(&explained))?;
    report::told(arguments, arguments.plain(0), report)
}

/// The words S,E. Every number is taken: whether the two are a state the call says.
fn state(arguments: &Arguments, words: &str) -> Result<RuleState, Failure> {
    let number = |word: &str| word.trim().parse().ok();
    let read = words.split_once(',').and_then(|(s, e)| {
        let s = match s.trim() {
            "none" => NONE,
            other => number(other)?,
        };
        Some(RuleState { e: number(e)?, s })
    });
    let fault = format!("`--state` takes two numbers as in 0,1 or none,1, not `{words}`");
    read.ok_or_else(|| arguments.usage(&fault))
}

fn letter(arguments: &Arguments, names: &Names) -> Result<Option<u8>, Failure> {
    let read = |word| {
        let read = read_letter(word, names);
        read.map_err(|error| arguments.usage(&format!("`--letter`: {}", error.message)))
    };
    arguments.value("letter").map(read).transpose()
}

fn one(
    rule: &Source,
    state: RuleState,
    least: u8,
    letter: Option<u8>,
) -> Result<Report, Explained> {
    let listed = ListedState::of(&rule.bytes, state, least)?;
    if let Some(letter) = letter {
        owned::successors(&rule.bytes, state.s, state.e, letter)?;
    }
    let text = described(&listed, letter, &rule.names);
    let list = Json::list([object(&listed, letter, &rule.names)]);
    let keys = [
        ("states", Json::None),
        ("initial", Json::None),
        ("final", Json::None),
        ("list", list),
    ];
    Ok(Report::new(Answer::Done, text, keys))
}

/// A state (s, e), s none or an element.
fn pair(state: RuleState) -> Json {
    let s = match state.s {
        NONE => Json::None,
        s => s.into(),
    };
    Json::list([s, state.e.into()])
}

/// A state with its kind and where letters lead from it.
fn object(listed: &ListedState, letter: Option<u8>, names: &Names) -> Json {
    let kind = match listed.kind {
        StateKind::Plain => "plain",
        StateKind::Initial => "initial",
        StateKind::Final => "final",
    };
    let leads = shown_letters(listed, letter)
        .map(|own| (names.show(own), Json::list(listed.next(own).map(pair))));
    Json::Object(keys([
        ("state", pair(listed.state)),
        ("kind", kind.into()),
        ("leads", Json::Object(leads.collect())),
    ]))
}

/// The one letter that is asked for, or each.
fn shown_letters(listed: &ListedState, letter: Option<u8>) -> impl Iterator<Item = u8> {
    let letters = (0..=u8::MAX).take(listed.leads.len());
    letters.filter(move |own| letter.is_none_or(|letter| letter == *own))
}

fn list(rule: &Source, least: u8, letter: Option<u8>, all: bool) -> Result<Report, Explained> {
    let automaton = match all {
        true => RuleAutomaton::whole(&rule.bytes, least)?,
        false => RuleAutomaton::reached(&rule.bytes, least)?,
    };
    if let Some(letter) = letter {
        known(&rule.bytes, letter)?;
    }
    let count = |kind: StateKind| {
        let states = automaton.states.iter();
        states.filter(|own| own.kind == kind).count()
    };
    let mut text = format!(
        "states {} initial {} final {}\n",
        automaton.states.len(),
        count(StateKind::Initial),
        count(StateKind::Final)
    );
    for listed in &automaton.states {
        text.push_str(&described(listed, letter, &rule.names));
    }
    let states = automaton.states.iter();
    let list = Json::list(states.map(|listed| object(listed, letter, &rule.names)));
    let keys = [
        ("states", automaton.states.len().into()),
        ("initial", count(StateKind::Initial).into()),
        ("final", count(StateKind::Final).into()),
        ("list", list),
    ];
    Ok(Report::new(Answer::Done, text, keys))
}

/// Has the call refuse a letter that the rule does not have, also where no state is listed. It is asked of (none, e) for the first e
/// with that state, and some element of every rule is idempotent.
fn known(rule: &[u8], letter: u8) -> Result<(), Explained> {
    for e in 0..NONE {
        match owned::successors(rule, NONE, e, letter) {
            Err(explained) if explained.refused.refusal == Refusal::NoSuchState => {}
            answer => return answer.map(drop),
        }
    }
    Ok(())
}

/// A state with its kind, then a line for one letter or for each.
fn described(listed: &ListedState, letter: Option<u8>, names: &Names) -> String {
    let kind = match listed.kind {
        StateKind::Plain => ", plain",
        StateKind::Initial => ", initial",
        StateKind::Final => ", final",
    };
    let mut text = format!("State {}{kind}\n", listed.state);
    for own in shown_letters(listed, letter) {
        let states: Vec<String> = listed.next(own).map(|to| to.to_string()).collect();
        let leads = match states.is_empty() {
            true => "nowhere".to_string(),
            false => format!("to {}", states.join(" ")),
        };
        let _ = writeln!(text, "  {} {leads}", names.show(own));
    }
    text
}
