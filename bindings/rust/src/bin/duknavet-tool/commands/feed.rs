//! A whole log at once.

use crate::arguments::Arguments;
use crate::command::{Answer, Command, Failure};
use crate::formulated;
use crate::input::{self, Source};
use crate::json::Json;
use crate::reading;
use crate::report::{self, Report};
use crate::station::{self, options, Fault, Request};
use duknavet::text::Names;
use duknavet::words::Explained;
use duknavet::{owned, Refusal, RuleMonitor, NONE};
use std::collections::HashMap;

pub const COMMAND: Command = Command {
    name: "feed",
    arguments: "RULE LOG",
    least: 2,
    most: 2,
    purpose: "follow a whole log of events at once, and answer at its end",
    options: &[options::FIELD],
    common: &[formulated::OPTIONS, report::OPTIONS],
    details: "A line of LOG is a letter, by number, by name or as in a & !b, or event and a letter; or mark. Empty lines and \
comments, from # on, are passed over, but with --field, where a log has none. LOG - is standard input. Prints before and since at the end, each an element or \
none, and where the rule is strong and something came since the last mark the grade and the turns of the events since then for \
ever. A line that is not understood, or whose letter the rule lacks, is refused with its number, and nothing is answered. The \
events are handed to the library a million at a time, so that the check of the rule costs nothing.",
    run,
};

/// What a line of a log asks for.
#[derive(Clone, Copy)]
enum Step {
    Event(u8),
    Mark,
    Nothing,
}

/// The lines of a log; one that came before is known by its bytes.
struct Lines<'a> {
    names: &'a Names,
    column: Option<isize>,
    known: HashMap<Vec<u8>, Step>,
}

/// How many different lines are remembered, however many come.
const MOST_KNOWN: usize = 4096;

/// How many events one call is fed: many, so that the rule's check costs nothing, and so few that memory stays small.
const AT_ONCE: usize = 1 << 20;

impl Lines<'_> {
    fn step(&mut self, line: &[u8]) -> Result<Step, String> {
        if let Some(step) = self.known.get(line) {
            return Ok(*step);
        }
        let step = self.read(line)?;
        if self.known.len() < MOST_KNOWN {
            self.known.insert(line.to_vec(), step);
        }
        Ok(step)
    }

    fn read(&self, line: &[u8]) -> Result<Step, String> {
        let line = std::str::from_utf8(line).map_err(|_| "it is no UTF-8".to_string())?;
        let request = match self.column {
            Some(column) => station::request_in_column(line, column)?,
            None => station::request(line, true)?,
        };
        match request {
            None => Ok(Step::Nothing),
            Some(Request::Mark) => Ok(Step::Mark),
            Some(Request::Event(letter)) => match station::letter(&letter, self.names) {
                Ok(letter) => Ok(Step::Event(letter)),
                Err(Fault::NotUnderstood(words) | Fault::NoLetter(words)) => Err(words),
                Err(Fault::Refused(explained)) => Err(explained.to_string()),
            },
            Some(_) => Err("a line of a log is an event or mark".to_string()),
        }
    }
}

/// The events since the last mark that are not fed yet, and the line of each.
#[derive(Default)]
struct Word {
    letters: Vec<u8>,
    lines: Vec<u64>,
}

fn run(arguments: &Arguments) -> Result<Answer, Failure> {
    let (rule_name, log_name) = (arguments.plain(0), arguments.plain(1));
    if rule_name == "-" && log_name == "-" {
        return Err(arguments.usage("standard input is the rule or the log"));
    }
    let column = options::field(arguments)?;
    let rule = input::rule(arguments, rule_name)?;
    owned::check(&rule.bytes).map_err(|explained| rule.refused(&explained))?;
    let mut lines = Lines {
        names: &rule.names,
        column,
        known: HashMap::new(),
    };
    let name = reading::shown(log_name);
    let mut watched = RuleMonitor::new(&rule.bytes);
    let mut word = Word::default();
    for (number, line) in (1..).zip(reading::lines(log_name)?) {
        let line = line.map_err(|error| Failure::Files(format!("{name}: {error}")))?;
        let step = lines.step(&line);
        match step.map_err(|words| Failure::Refused(format!("{name}: line {number}: {words}")))? {
            Step::Event(letter) => {
                word.letters.push(letter);
                word.lines.push(number);
                if word.letters.len() == AT_ONCE {
                    feed(&rule, &name, &mut watched, &mut word)?;
                }
            }
            Step::Mark => {
                feed(&rule, &name, &mut watched, &mut word)?;
                let marked = watched.mark();
                marked.map_err(|explained| rule.refused(&explained))?;
            }
            Step::Nothing => {}
        }
    }
    feed(&rule, &name, &mut watched, &mut word)?;
    report::told(arguments, log_name, answer(&rule, &mut watched)?)
}

/// Feeds the events that wait. Where the rule lacks a letter its line is told.
fn feed(
    rule: &Source,
    name: &str,
    watched: &mut RuleMonitor,
    word: &mut Word,
) -> Result<(), Failure> {
    let fed = watched.feed(&word.letters);
    fed.map_err(|explained| {
        let Explained { refused, words } = &explained;
        let place = usize::try_from(refused.place).ok();
        let line = place.and_then(|place| word.lines.get(place));
        match (refused.refusal, line) {
            (Refusal::UnknownLetter, Some(line)) => {
                Failure::ByCall(*refused, format!("{name}: line {line}: {words}"))
            }
            _ => rule.refused(&explained),
        }
    })?;
    word.letters.clear();
    word.lines.clear();
    Ok(())
}

fn answer(rule: &Source, watched: &mut RuleMonitor) -> Result<Report, Failure> {
    let monitor = watched.monitor();
    let value = |value: usize| match value {
        NONE => "none".to_string(),
        element => element.to_string(),
    };
    let mut text = format!(
        "before {} since {}\n",
        value(monitor.before),
        value(monitor.since)
    );
    let verdict = match watched.advance_stay() {
        Ok(verdict) => verdict,
        Err(explained) if explained.refused.refusal == Refusal::NotStrong => None,
        Err(explained) => return Err(rule.refused(&explained)),
    };
    if let Some(verdict) = verdict {
        text += &format!("grade {} turns {}\n", verdict.grade, verdict.turns);
    }
    let number = |value: usize| match value {
        NONE => Json::None,
        element => element.into(),
    };
    Ok(Report::new(
        Answer::Done,
        text,
        [
            ("before", number(monitor.before)),
            ("since", number(monitor.since)),
            (
                "grade",
                verdict.map_or(Json::None, |verdict| verdict.grade.into()),
            ),
            (
                "turns",
                verdict.map_or(Json::None, |verdict| verdict.turns.into()),
            ),
        ],
    ))
}
