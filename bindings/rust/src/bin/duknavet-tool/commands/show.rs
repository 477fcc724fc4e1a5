//! A rule or an automaton as people read it.

use crate::arguments::Arguments;
use crate::command::{Answer, Command, Failure};
use crate::formulated;
use crate::input::Source;
use crate::kinds::{self, AS};
use crate::output;
use duknavet::files::{Automaton, Mark, Rule};
use duknavet::owned;
use duknavet::text::{grade_word, print_word, Kind, Names};
use duknavet::Strength;
use std::fmt::Write;

pub const COMMAND: Command = Command {
    name: "show",
    arguments: "FILE",
    least: 1,
    most: 1,
    purpose: "print a rule or an automaton as people read it",
    options: &[AS],
    common: &[formulated::OPTIONS],
    details: "Of a rule: its description, the table with each element's first word, the letters, the marks by s, then by e, with their grades, and \
whether it is strong. Of an automaton: its states and where each letter leads from them.",
    run,
};

fn run(arguments: &Arguments) -> Result<Answer, Failure> {
    let (source, kind) = kinds::either(arguments.plain(0), arguments)?;
    let text = match kind {
        Kind::Rule => rule_text(&source)?,
        Kind::Automaton => automaton_text(&source)?,
        _ => return Err(arguments.usage("it shows rules and automata")),
    };
    output::print(&text)
}

fn rule_text(source: &Source) -> Result<String, Failure> {
    let strength = owned::strong(&source.bytes).map_err(|explained| source.refused(&explained))?;
    let Some(rule) = Rule::take_apart(&source.bytes) else {
        return Err(kinds::refusal(source, Kind::Rule));
    };
    let strength = match strength {
        Strength::Strong => "strong",
        Strength::Weak => "weak",
    };
    let mut text = format!("A {strength} rule.\n\n") + &description(source);
    table(&rule, &source.names, &mut text);
    text.push_str("\nLetters\n");
    for (letter, image) in (0..=u8::MAX).zip(&rule.images) {
        let name = source
            .names
            .of(letter)
            .map_or(String::new(), |name| format!(" {name}"));
        let _ = writeln!(text, "  {letter}{name} stands for {image}");
    }
    text.push_str("\nMarks\n");
    for mark in sorted(&rule.marks) {
        let word = grade_word(mark.grade).unwrap_or("");
        let _ = writeln!(
            text,
            "  ({}, {}) has grade {}, {word}",
            mark.s, mark.e, mark.grade
        );
    }
    if rule.marks.is_empty() {
        text.push_str("  none: every lasso has grade 0\n");
    }
    Ok(text)
}

/// The lines of a description and an empty one, if there is one.
fn description(source: &Source) -> String {
    let lines = source.description.iter().map(|line| format!(" {line}\n"));
    match source.description.is_empty() {
        true => String::new(),
        false => lines.collect::<String>() + "\n",
    }
}

/// The marks by s, then by e.
pub fn sorted(marks: &[Mark]) -> Vec<Mark> {
    let mut marks = marks.to_vec();
    marks.sort_unstable();
    marks
}

/// The products, a row for each left factor, with the first word of that element behind it.
fn table(rule: &Rule, names: &Names, text: &mut String) {
    let width = rule.elements.saturating_sub(1).to_string().len();
    let mut head = format!("  {:width$} |", "·");
    for b in 0..rule.elements {
        let _ = write!(head, " {b:>width$}");
    }
    let rule_off: String = head
        .chars()
        .map(|c| if c == '|' { '+' } else { '-' })
        .collect();
    let _ = writeln!(text, "{head} | first word\n{rule_off}-+-----------");
    for (a, word) in (0..=u8::MAX).zip(rule.first_words()) {
        let _ = write!(text, "  {a:>width$} |");
        for b in 0..rule.elements {
            let product = rule.product(a, b).unwrap_or(0);
            let _ = write!(text, " {product:>width$}");
        }
        let _ = writeln!(text, " | {}", print_word(&word.unwrap_or_default(), names));
    }
}

fn automaton_text(source: &Source) -> Result<String, Failure> {
    kinds::check_automaton(&source.bytes).map_err(|explained| source.refused(&explained))?;
    let Some(automaton) = Automaton::take_apart(&source.bytes) else {
        return Err(kinds::refusal(source, Kind::Automaton));
    };
    let mut text = String::from("A Büchi automaton.\n\n") + &description(source);
    for note in &source.notes {
        let _ = writeln!(text, "  {note}");
    }
    for (state, kind) in (0..=u8::MAX).zip(&automaton.kinds) {
        let kind = match kind {
            0 => "",
            1 => ", initial",
            2 => ", final",
            _ => ", initial and final",
        };
        let _ = writeln!(text, "State {state}{kind}");
        for letter in 0..automaton.letters {
            let leads = automaton.transitions.iter();
            let leads = leads.filter(|own| (own.from, own.letter) == (state, letter));
            let to: Vec<String> = leads.map(|own| own.to.to_string()).collect();
            if !to.is_empty() {
                let _ = writeln!(text, "  {} to {}", source.names.show(letter), to.join(" "));
            }
        }
    }
    Ok(text)
}
