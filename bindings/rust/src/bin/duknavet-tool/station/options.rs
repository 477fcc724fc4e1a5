//! The options that `follow` and `board` share, and `--quiet` of `follow`.

use crate::arguments::Arguments;
use crate::command::{Choice, Failure};
use crate::report::JSON;
use std::time::Duration;

/// The most bytes that a line of requests has.
const LONGEST_REQUEST: usize = 256;

/// The most bytes that a line of a log has.
const LONGEST_OF_LOG: usize = 65_536;

/// The longest time between two saves, about three years.
const MOST_SECONDS: usize = 100_000_000;

pub const STATE: Choice = Choice {
    name: "state",
    value: Some("FILE"),
    meaning: "take the state up from FILE if it is there, and write it there",
};
pub const RESUME: Choice = Choice {
    name: "resume",
    value: None,
    meaning: "pass over the lines that the state stands for",
};
pub const SAVE_EVERY: Choice = Choice {
    name: "save-every",
    value: Some("N"),
    meaning: "write the state after each N lines of input",
};
pub const SAVE_AFTER: Choice = Choice {
    name: "save-after",
    value: Some("SECONDS"),
    meaning: "write the state each SECONDS, if there is something new",
};
pub const ON_CHANGE: Choice = Choice {
    name: "on-change",
    value: None,
    meaning: "answer what moves with the grade, at first and where it changes",
};
pub const QUIET: Choice = Choice {
    name: "quiet",
    value: None,
    meaning: "do not answer events that are done, but once at the end",
};
pub const FIELD: Choice = Choice {
    name: "field",
    value: Some("N"),
    meaning: "lines are of a log, with a letter or mark in column N; -1 is the last",
};
pub const SKIP_UNKNOWN: Choice = Choice {
    name: "skip-unknown",
    value: None,
    meaning: "pass over and count what is no letter",
};

/// What they ask for.
pub struct Options {
    pub resume: bool,
    pub save_every: Option<u64>,
    pub save_after: Option<Duration>,
    pub on_change: bool,
    pub quiet: bool,
    pub field: Option<isize>,
    pub skip_unknown: bool,
    /// Where answers are objects, what they are of.
    pub json: Option<Objects>,
}

/// What the objects of a station are of.
pub struct Objects {
    pub command: &'static str,
    pub file: Option<String>,
}

impl Options {
    pub fn read(arguments: &Arguments) -> Result<Options, Failure> {
        for needy in [RESUME, SAVE_EVERY, SAVE_AFTER] {
            if arguments.has(needy.name) && !arguments.has(STATE.name) {
                return Err(arguments.usage(&format!("`--{}` needs --state", needy.name)));
            }
        }
        if arguments.has(QUIET.name) && arguments.has(ON_CHANGE.name) {
            return Err(arguments.usage("`--quiet` and `--on-change` do not go together"));
        }
        let every = arguments.number(SAVE_EVERY.name, 1, usize::MAX)?;
        let after = arguments.number(SAVE_AFTER.name, 1, MOST_SECONDS)?;
        Ok(Options {
            resume: arguments.has(RESUME.name),
            save_every: every.map(|lines| lines as u64),
            save_after: after.map(|seconds| Duration::from_secs(seconds as u64)),
            on_change: arguments.has(ON_CHANGE.name),
            quiet: arguments.has(QUIET.name),
            field: field(arguments)?,
            skip_unknown: arguments.has(SKIP_UNKNOWN.name),
            json: arguments.has(JSON.name).then(|| Objects {
                command: arguments.command(),
                file: arguments
                    .all()
                    .first()
                    .map(|file| file.to_string_lossy().into_owned()),
            }),
        })
    }

    /// The most bytes of a line that are understood.
    pub fn longest_line(&self) -> usize {
        match self.field {
            Some(_) => LONGEST_OF_LOG,
            None => LONGEST_REQUEST,
        }
    }
}

pub fn field(arguments: &Arguments) -> Result<Option<isize>, Failure> {
    let Some(value) = arguments.value(FIELD.name) else {
        return Ok(None);
    };
    match value.parse().ok().filter(|column| *column != 0) {
        Some(column) => Ok(Some(column)),
        None => Err(arguments.usage(&format!(
            "`--field` takes a column from 1 on, or from -1 on backwards, not `{value}`"
        ))),
    }
}
