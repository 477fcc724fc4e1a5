//! The rule of an automaton.

use crate::arguments::Arguments;
use crate::command::{Answer, Choice, Command, Failure};
use crate::destination;
use crate::form::{self, TO};
use crate::input;
use duknavet::files::Rule;
use duknavet::owned;
use duknavet::text::Kind;

pub const COMMAND: Command = Command {
    name: "automaton",
    arguments: "AUTOMATON",
    least: 1,
    most: 1,
    purpose: "write the rule of a Büchi automaton: grade 3, or the one asked for, for what it accepts",
    options: &[
        Choice {
            name: "grade",
            value: Some("GRADE"),
            meaning: "the grade of what it accepts, 1 to 3; else 3",
        },
        TO,
    ],
    common: &[destination::OPTIONS],
    details: "AUTOMATON is bytes, a text, an automaton in the Hanoi format or a never claim. The rule is strong. An \
automaton with more than 6 states is refused by 2, one with more than 64 matrices by 14. Of the Hanoi \
format and of never claims at most 4,096 states are read, and those that no accepting run meets are left \
out before they are counted; where transitions accept, a state that one of them goes to may count twice. \
Example: duknavet-tool automaton claim > rule.txt",
    run,
};

fn run(arguments: &Arguments) -> Result<Answer, Failure> {
    let grade = arguments.number("grade", 1, 3)?;
    let source = input::expected(arguments.plain(0), Kind::Automaton)?;
    let written =
        owned::automaton_rule(&source.bytes).map_err(|explained| source.refused(&explained))?;
    let graded = grade.and_then(|grade| u8::try_from(grade).ok());
    let graded = graded.and_then(|grade| with_grade(&written, grade));
    form::write_rule(arguments, &source, &graded.unwrap_or(written))
}

/// The rule with this grade for every mark.
fn with_grade(rule: &[u8], grade: u8) -> Option<Vec<u8>> {
    let mut rule = Rule::take_apart(rule)?;
    for mark in &mut rule.marks {
        mark.grade = grade;
    }
    Some(rule.bytes())
}
