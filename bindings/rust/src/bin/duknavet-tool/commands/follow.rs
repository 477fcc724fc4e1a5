//! Events as they come, for as long as they come.

use crate::arguments::Arguments;
use crate::command::{Answer, Command, Failure};
use crate::former::{self, Former};
use crate::formulated;
use crate::input::{self, Source};
use crate::monitor_state::{self, MonitorState};
use crate::output;
use crate::report;
use crate::station::{
    self, options, Fault, Feeding, Fingerprint, Machine, Options, Progress, Reply, Request,
    StateFile,
};
use duknavet::text::Names;
use duknavet::words::Explained;
use duknavet::{owned, Monitor, Refusal, RuleMonitor, NONE, POINTS};
use std::sync::Arc;

pub const COMMAND: Command = Command {
    name: "follow",
    arguments: "RULE",
    least: 1,
    most: 1,
    purpose: "follow events from standard input, and answer each line as it comes",
    options: &[
        options::STATE,
        options::RESUME,
        options::SAVE_EVERY,
        options::SAVE_AFTER,
        options::ON_CHANGE,
        options::QUIET,
        options::FIELD,
        options::SKIP_UNKNOWN,
        former::FROM,
        former::MAP,
    ],
    common: &[formulated::OPTIONS, report::OPTIONS],
    details: "A line is a letter, by number, by name or as in a & !b, or event and a letter, also one that is \
called like a request; mark; verdict; keep N or return N, N from 0 to 7; who; or save. Empty lines \
and comments, from # on, are passed over. Each other line has one answer: before and since, an \
element or none; for verdict the grade and turns; for who the fingerprint of the rule and the \
grade; for save, saved or not saved; or refused and the numbers, or not understood, with the words \
on standard error, and then nothing has changed. At the end the status is 1 where some line was \
refused, and standard error says how many. With --state the state is locked, and written at save, \
as the options ask, at the end of the input and at SIGTERM, SIGINT and SIGHUP, whole or not at \
all; a signal ends with 128 and its number, or with 3 where the state could not be written. A \
state that is damaged, of another rule or of other names is refused, with status 2, and left as it \
is. With --resume the input is a log from its first line on: the lines that the state stands for \
are passed over, or the log is refused where it has others, and a last line without a newline is \
left for the next time. With --quiet an event that is done has no answer of its own: events that \
are there together are fed in one call, and the answer to the last of them comes at the end of the \
input; other lines, and those that are refused, are answered as ever. Memory stays the same however many events come.",
    run,
};

fn run(arguments: &Arguments) -> Result<Answer, Failure> {
    if arguments.plain(0) == "-" {
        return Err(arguments.usage("standard input has the events, so the rule is a file"));
    }
    let options = Options::read(arguments)?;
    let rule = input::rule(arguments, arguments.plain(0))?;
    owned::check(&rule.bytes).map_err(|explained| rule.refused(&explained))?;
    tell_of_weakness(&rule, &options)?;
    let former = Former::read(arguments)?;
    let file = arguments.file("state").map(StateFile::open).transpose()?;
    let found = file.as_ref().map(monitor_state::read).transpose()?;
    let (watched, progress) = match (found.flatten(), &file) {
        (Some(found), Some(file)) => {
            let state = match &former {
                Some(former) => former.carried_over(arguments, file, found.state, &rule)?,
                None => found.state,
            };
            (monitor_state::taken_up(file, state, &rule)?, found.progress)
        }
        _ => (RuleMonitor::new(&rule.bytes), Some(Progress::NONE)),
    };
    let following = Following {
        watched,
        rule: Fingerprint::of(&rule.bytes),
        names: Arc::new(rule.names),
    };
    station::run(following, options, file, progress)
}

/// A weak rule has no grades to be told of as they change. Else its events are followed, though a verdict is refused.
fn tell_of_weakness(rule: &Source, options: &Options) -> Result<(), Failure> {
    let heard = Monitor {
        before: NONE,
        since: 0,
    };
    let mut asked = RuleMonitor::resumed(&rule.bytes, heard, [0; POINTS]);
    match asked.verdict() {
        Err(explained) if explained.refused.refusal == Refusal::NotStrong => {
            let refused = rule.refused(&explained);
            if options.on_change {
                return Err(refused);
            }
            if let Some(message) = refused.message() {
                output::complain(&format!(
                    "{message}: events are followed, and a verdict is refused"
                ));
            }
            Ok(())
        }
        _ => Ok(()),
    }
}

struct Following {
    watched: RuleMonitor,
    rule: Fingerprint,
    names: Arc<Names>,
}

impl Machine for Following {
    type State = MonitorState;
    const BARE_LETTERS: bool = true;

    fn answer(&mut self, request: Request) -> Result<Reply, Fault> {
        Ok(match request {
            Request::Event(letter) => {
                let letter = station::letter(&letter, &self.names)?;
                Reply::Moved(shown(self.watched.event(letter)?))
            }
            Request::Mark => Reply::Moved(shown(self.watched.mark()?)),
            Request::Return(name) => Reply::Moved(shown(self.watched.return_to(name)?)),
            Request::Keep(name) => Reply::Said(shown(self.watched.keep(name)?)),
            Request::Verdict => {
                let verdict = self.watched.verdict()?;
                Reply::Said(format!("grade {} turns {}\n", verdict.grade, verdict.turns))
            }
            Request::Who => {
                let grade = self.grade()?;
                Reply::Said(format!("who {} {grade}", self.rule))
            }
            // Where letters may stand bare there are no others.
            _ => {
                let message = "a line is an event or a request of one rule";
                return Err(Fault::NotUnderstood(message.to_string()));
            }
        })
    }

    fn feeding(&mut self) -> Option<&mut dyn Feeding> {
        Some(self)
    }

    fn grade(&mut self) -> Result<String, Explained> {
        Ok(match self.watched.monitor().since {
            NONE => "grade none\n".to_string(),
            _ => format!("grade {}\n", self.watched.verdict()?.grade),
        })
    }

    fn state(&self) -> MonitorState {
        MonitorState {
            rule: self.rule,
            names: Some(Arc::clone(&self.names)),
            monitor: self.watched.monitor(),
            points: self.watched.points(),
        }
    }
}

impl Feeding for Following {
    fn letter(&self, words: &str) -> Result<u8, Fault> {
        station::letter(words, &self.names)
    }

    fn feed(&mut self, letters: &[u8]) -> Result<String, Explained> {
        if let [letter] = letters {
            return Ok(shown(self.watched.event(*letter)?));
        }
        self.watched.feed(letters)?;
        Ok(shown(self.watched.monitor()))
    }
}

fn shown(monitor: Monitor) -> String {
    let value = |value: usize| match value {
        NONE => "none".to_string(),
        element => element.to_string(),
    };
    format!(
        "before {} since {}\n",
        value(monitor.before),
        value(monitor.since)
    )
}
