//! A tool for people over the proved archive: every call from the shell, and texts, pictures and pages of rules and automata.
//!
//! It parses, prints and asks; every verdict is a call's. A subcommand is a file of `commands/` and a line of its list.

#![deny(unsafe_code)]

mod arguments;
mod board_letters;
mod board_state;
mod command;
mod commands;
mod destination;
mod form;
mod former;
mod formulated;
mod help;
mod input;
mod json;
mod kinds;
mod likeness;
mod meeting;
mod monitor_state;
mod nearest;
mod output;
mod reading;
mod replacing;
mod report;
mod station;
mod topics;

use arguments::Arguments;
use command::{Answer, Failure};
use std::ffi::OsString;
use std::process::ExitCode;

fn main() -> ExitCode {
    let words: Vec<OsString> = std::env::args_os().skip(1).collect();
    let mut options = words.iter().take_while(|word| *word != "--");
    let json = options.any(|word| word == "--json");
    if json {
        output::keep_notes();
    }
    ExitCode::from(match run(&words) {
        Ok(answer) => answer.status(),
        Err(failure) if json => {
            let name = words.first().map(|word| word.to_string_lossy());
            report::failed(&name.unwrap_or_default(), None, &failure).status()
        }
        Err(failure) => {
            if let Some(message) = failure.message() {
                output::complain(message);
            }
            failure.status()
        }
    })
}

fn run(words: &[OsString]) -> Result<Answer, Failure> {
    let Some((first, rest)) = words.split_first() else {
        return Err(Failure::Usage(format!(
            "there is no subcommand\n{}",
            help::overview()
        )));
    };
    let name = first.to_string_lossy();
    match name.as_ref() {
        "--help" | "-h" | "help" => return help::print(rest),
        "--version" | "-V" => {
            return output::print(&format!("duknavet-tool {}\n", env!("CARGO_PKG_VERSION")))
        }
        "--man" => return help::print_manual(rest),
        "--completion" => return output::print(&help::completion()),
        _ => {}
    }
    let Some(command) = commands::named(&name) else {
        return Err(help::no_subcommand(&name));
    };
    if rest.iter().any(|word| word == "--help" || word == "-h") {
        return output::print(&help::of(command));
    }
    let arguments = Arguments::read(command, rest)?;
    match (command.run)(&arguments) {
        Err(failure) if arguments.has(report::JSON.name) => {
            let file = (command.most > 0).then(|| arguments.first_file());
            Ok(report::failed(command.name, file, &failure))
        }
        ended => ended,
    }
}
