//! Where a result goes that is a file: to standard output, or with `-o` to a file, whole or not at all.

use crate::arguments::Arguments;
use crate::command::{Answer, Choice, Failure};
use crate::output;
use crate::reading;
use crate::replacing::{replace, resolved, write_directly};
use crate::report::{self, Report, JSON};
use std::ffi::OsStr;
use std::fs;
use std::io::{self, ErrorKind, IsTerminal as _};
use std::path::{Path, PathBuf};

/// The options of every subcommand that writes.
pub const OPTIONS: &[Choice] = &[OUTPUT, JSON];

const OUTPUT: Choice = Choice {
    name: "output",
    value: Some("FILE"),
    meaning: "write to FILE, as -o FILE does; - is standard output",
};

/// The file that `-o` names.
pub fn file(arguments: &Arguments) -> Option<&OsStr> {
    arguments.file(OUTPUT.name).filter(|file| *file != "-")
}

/// Writes a text.
pub fn text(arguments: &Arguments, text: &str) -> Result<Answer, Failure> {
    deliver(arguments, text.as_bytes(), true)
}

/// Writes bytes, which are not for a terminal.
pub fn bytes(arguments: &Arguments, bytes: &[u8]) -> Result<Answer, Failure> {
    deliver(arguments, bytes, false)
}

fn deliver(arguments: &Arguments, bytes: &[u8], is_text: bool) -> Result<Answer, Failure> {
    let json = arguments.has(JSON.name);
    match file(arguments) {
        Some(file) => {
            write(file, bytes)?;
            match json {
                true => {
                    let shown = file.to_string_lossy();
                    let written = ("written", shown.as_ref().into());
                    let report = Report::new(Answer::Done, String::new(), [written]);
                    report::told(arguments, arguments.first_file(), report)
                }
                false => Ok(Answer::Done),
            }
        }
        None if json => {
            Err(arguments.usage("`--json` needs `-o FILE`, since standard output has the result"))
        }
        None if !is_text && io::stdout().is_terminal() => {
            Err(arguments
                .usage("bytes are not written to a terminal: `-o FILE` writes them to a file"))
        }
        None => output::write(bytes).map(|()| Answer::Done),
    }
}

fn failed(file: &OsStr, error: &io::Error) -> Failure {
    Failure::Files(format!("{}: {error}", file.to_string_lossy()))
}

/// The file that a name leads to, where it may be written: it is no directory and none of the inputs.
pub fn free(file: &OsStr) -> Result<PathBuf, Failure> {
    let target = resolved(Path::new(file)).map_err(|error| failed(file, &error))?;
    match fs::metadata(&target) {
        Ok(found) if found.is_dir() => Err(failed(file, &ErrorKind::IsADirectory.into())),
        Ok(found) if reading::was_read(&found) => Err(Failure::Usage(format!(
            "{}: it is an input, and is not written over",
            file.to_string_lossy()
        ))),
        _ => Ok(target),
    }
}

/// Writes a file beside the old one and puts it in its place; what is no regular file is written where it stands.
pub fn write(file: &OsStr, bytes: &[u8]) -> Result<(), Failure> {
    let target = free(file)?;
    let regular = fs::metadata(&target).map_or(true, |found| found.is_file());
    let written = match regular {
        // Two at once write beside each other.
        true => replace(
            &target,
            &format!(".{}.new", std::process::id()),
            bytes,
            false,
        ),
        false => write_directly(&target, bytes),
    };
    written.map_err(|error| failed(file, &error))
}
