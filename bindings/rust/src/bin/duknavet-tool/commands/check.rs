//! Whether a file passes every check.

use crate::arguments::Arguments;
use crate::command::{Answer, Command, Failure};
use crate::formulated;
use crate::json::keys;
use crate::kinds::{self, AS};
use crate::report::{self, Report};
use duknavet::files::{Automaton, Rule};
use duknavet::owned;
use duknavet::text::Kind;
use std::ffi::OsStr;

pub const COMMAND: Command = Command {
    name: "check",
    arguments: "FILE ..",
    least: 1,
    most: usize::MAX,
    purpose: "check a rule or an automaton, and say what is wrong with it",
    options: &[AS],
    common: &[formulated::OPTIONS, report::OPTIONS],
    details: "Prints what the file is and its counts, or says on standard error what is wrong and where. Status 0 where it passes \
every check, 2 where it is refused. An automaton with more than 64 matrices is refused by 14. A marks section passes only beside a \
rule: see included. Of several files each has a line behind its name, and the status is the highest.",
    run,
};

fn run(arguments: &Arguments) -> Result<Answer, Failure> {
    report::each(arguments, check)
}

fn check(arguments: &Arguments, file: &OsStr) -> Result<Report, Failure> {
    let (source, kind) = kinds::either(file, arguments)?;
    let checked = match kind {
        Kind::Rule => owned::check(&source.bytes),
        Kind::Automaton => owned::automaton_rule(&source.bytes).map(|_| ()),
        Kind::Marks | Kind::Map | Kind::Lasso => {
            let message = format!(
                "{}: {} passes only beside a rule",
                source.name,
                kind.article()
            );
            return Err(Failure::Usage(message));
        }
    };
    checked.map_err(|explained| source.refused(&explained))?;
    let counts = counts(&source.bytes, kind).ok_or_else(|| kinds::refusal(&source, kind))?;
    let words = counts.map(|(word, count)| format!(" {word} {count}"));
    let text = format!("{}{}\n", kind.word(), words.concat());
    let mut report = Report::new(Answer::Done, text, [("kind", kind.word().into())]);
    let pairs = counts.map(|(word, count)| (word, count.into()));
    report.keys.extend(keys(pairs));
    Ok(report)
}

fn counts(bytes: &[u8], kind: Kind) -> Option<[(&'static str, usize); 3]> {
    Some(match kind {
        Kind::Automaton => {
            let automaton = Automaton::take_apart(bytes)?;
            [
                ("states", automaton.kinds.len()),
                ("letters", automaton.letters.into()),
                ("transitions", automaton.transitions.len()),
            ]
        }
        _ => {
            let rule = Rule::take_apart(bytes)?;
            [
                ("elements", rule.elements.into()),
                ("letters", rule.images.len()),
                ("marks", rule.marks.len()),
            ]
        }
    })
}
