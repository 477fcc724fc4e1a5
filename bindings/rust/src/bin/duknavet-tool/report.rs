//! Answers as they are told: in words, or with `--json` as an object, of one file or of several.

use crate::arguments::Arguments;
use crate::command::{Answer, Choice, Failure};
use crate::json::{keys, Json, Keys};
use crate::output;
use duknavet::Refused;
use std::ffi::OsStr;

/// The options of every subcommand that answers.
pub const OPTIONS: &[Choice] = &[JSON];

pub const JSON: Choice = Choice {
    name: "json",
    value: None,
    meaning: "answer and refuse in JSON, one object a line, and leave standard error empty",
};

/// An answer, in words and by keys.
pub struct Report {
    pub answer: Answer,
    pub text: String,
    pub keys: Keys,
}

impl Report {
    pub fn new<const N: usize>(answer: Answer, text: String, pairs: [(&str, Json); N]) -> Report {
        Report {
            answer,
            text,
            keys: keys(pairs),
        }
    }
}

/// What an object is of, before the answer's own keys.
#[derive(Clone, Copy)]
pub struct About<'a> {
    pub command: &'a str,
    pub file: Option<&'a str>,
    pub line: Option<u64>,
    pub status: u8,
}

/// An object in a line, with what else was to be said as its last key.
pub fn object(about: About<'_>, own: Keys) -> String {
    let mut all = keys([
        ("command", about.command.into()),
        ("file", Json::or_none(about.file)),
        ("line", about.line.map_or(Json::None, Json::Number)),
        ("status", about.status.into()),
    ]);
    all.extend(own);
    let notes = output::kept_notes();
    if !notes.is_empty() {
        let notes = Json::list(notes.iter().map(String::as_str));
        all.push(("notes".to_string(), notes));
    }
    format!("{}\n", Json::Object(all))
}

/// The keys of a refusal, by a call or not.
pub fn refusal(refused: Option<Refused>, message: &str) -> Keys {
    let numbers = refused.map(|refused| {
        Json::Object(keys([
            ("number", refused.refusal.number().into()),
            ("input", refused.input.into()),
            ("place", Json::Number(refused.place)),
        ]))
    });
    keys([
        ("refusal", numbers.unwrap_or(Json::None)),
        ("message", message.into()),
    ])
}

fn of_failure(command: &str, file: Option<&str>, failure: &Failure) -> String {
    let refused = match failure {
        Failure::ByCall(refused, _) => Some(*refused),
        _ => None,
    };
    let about = About {
        command,
        file,
        line: None,
        status: failure.status(),
    };
    let message = failure.message().unwrap_or_default();
    object(about, refusal(refused, message))
}

/// Tells in JSON that there is no answer.
pub fn failed(command: &str, file: Option<&OsStr>, failure: &Failure) -> Answer {
    let file = file.map(|file| file.to_string_lossy());
    let told = of_failure(command, file.as_deref(), failure);
    // Where standard output is the fault, or nobody reads it, the status says so.
    let written = output::write(told.as_bytes());
    Answer::Status(match written {
        Ok(()) => failure.status(),
        Err(_) => 3,
    })
}

/// Tells the answer to a question about a file.
pub fn told(arguments: &Arguments, file: &OsStr, report: Report) -> Result<Answer, Failure> {
    let text = match arguments.has(JSON.name) {
        true => {
            let file = file.to_string_lossy();
            let about = About {
                command: arguments.command(),
                file: Some(&file),
                line: None,
                status: report.answer.status(),
            };
            object(about, report.keys)
        }
        false => report.text,
    };
    output::write(text.as_bytes())?;
    Ok(report.answer)
}

/// Tells the answer of each file: of one as it is, of several the first line of each behind the file's name. What is
/// wrong with one is told, and the others are asked all the same; the status is the highest.
pub fn each(
    arguments: &Arguments,
    of: impl Fn(&Arguments, &OsStr) -> Result<Report, Failure>,
) -> Result<Answer, Failure> {
    if let [file] = arguments.all() {
        return told(arguments, file, of(arguments, file)?);
    }
    let json = arguments.has(JSON.name);
    let mut worst = 0;
    for file in arguments.all() {
        let answer = match of(arguments, file) {
            Ok(report) if json => told(arguments, file, report)?,
            Ok(report) => {
                let line = report.text.lines().next().unwrap_or_default();
                let line = format!("{}: {line}\n", file.to_string_lossy());
                output::write(line.as_bytes())?;
                report.answer
            }
            Err(Failure::Closed) => return Err(Failure::Closed),
            Err(failure) if json => failed(arguments.command(), Some(file), &failure),
            Err(failure) => {
                output::complain(failure.message().unwrap_or_default());
                Answer::Status(failure.status())
            }
        };
        worst = worst.max(answer.status());
    }
    Ok(Answer::Status(worst))
}
