//! The smallest strong rule with the same grades.

use crate::arguments::Arguments;
use crate::command::{Answer, Choice, Command, Failure};
use crate::destination;
use crate::form::{self, TO};
use crate::input::{self, Source};
use crate::meeting::acting;
use crate::reading;
use crate::report::{self, Report};
use duknavet::files::Rule;
use duknavet::letters::{all_called, in_order};
use duknavet::owned::{self, Reduction};
use duknavet::text::Names;
use std::collections::HashSet;
use std::ffi::{OsStr, OsString};
use std::fs;
use std::path::Path;

pub const COMMAND: Command = Command {
    name: "reduce",
    arguments: "RULE ..",
    least: 1,
    most: usize::MAX,
    purpose: "write the smallest strong rule that gives every lasso the same grade",
    options: &[
        TO,
        Choice {
            name: "map",
            value: Some("FILE"),
            meaning: "write to FILE for each element of RULE the element that it went to",
        },
        Choice {
            name: "letters",
            value: Some("sorted"),
            meaning: "put letters in the order of their names, or the propositions in theirs",
        },
    ],
    common: &[destination::OPTIONS],
    details: "Two rules are written alike, byte for byte, exactly if they give every lasso the same grade, letters by \
their numbers; with --letters sorted, by their names. A weak rule is refused by 12: strong says why it \
is weak. A map is written in the form of the rule that is written: a byte, or in a text a number, for \
each element; confirm takes it. With -o DIR, a directory, any number of rules are reduced, each to a file of \
its own name in DIR, with a line of how many elements it has.",
    run,
};

fn run(arguments: &Arguments) -> Result<Answer, Failure> {
    let directory = destination::file(arguments).filter(|file| Path::new(file).is_dir());
    match (arguments.all(), directory) {
        ([file], None) => one(arguments, file),
        (files, Some(directory)) => {
            let names = names_within(arguments, files)?;
            if arguments.has("map") {
                return Err(arguments.usage("a map is of one rule that goes to a file"));
            }
            report::each(arguments, |arguments, file| {
                let name = names.iter().find(|(own, _)| *own == file);
                let name = name.map_or(OsStr::new(""), |(_, name)| name);
                into_directory(arguments, file, &Path::new(directory).join(name))
            })
        }
        _ => Err(arguments.usage("several rules need `-o DIR`, a directory that is there")),
    }
}

/// The reduction of a rule that is in a file.
fn reduced(arguments: &Arguments, file: &OsStr) -> Result<(Source, Reduction), Failure> {
    let mut rule = input::rule_file(file)?;
    let sorted = arguments.one_of("letters", &["sorted"])?.is_some();
    let mut reduction =
        owned::reduce_with_map(&rule.bytes).map_err(|explained| rule.refused(&explained))?;
    if sorted {
        let (names, bytes) = sorted_letters(&rule)?;
        reduction = owned::reduce_with_map(&bytes).map_err(|explained| rule.refused(&explained))?;
        rule.names = names;
    }
    Ok((rule, reduction))
}

fn one(arguments: &Arguments, file: &OsStr) -> Result<Answer, Failure> {
    let (rule, reduction) = reduced(arguments, file)?;
    if let Some(map) = arguments.file("map") {
        // Both are seen to be free before one of them is written.
        let free = destination::free(map)?;
        let output = destination::file(arguments).map(destination::free);
        if output.transpose()?.as_ref() == Some(&free) {
            return Err(arguments.usage("the rule and its map go to two files"));
        }
        form::write_map(arguments, &rule, map, &reduction.map)?;
    }
    form::write_rule(arguments, &rule, &reduction.rule)
}

/// The name that each file has within a directory; no two have the same.
fn names_within<'a>(
    arguments: &Arguments,
    files: &'a [OsString],
) -> Result<Vec<(&'a OsStr, &'a OsStr)>, Failure> {
    let mut names: Vec<(&OsStr, &OsStr)> = Vec::new();
    let mut taken = HashSet::new();
    for file in files {
        let name = Path::new(file).file_name().filter(|_| *file != "-");
        let Some(name) = name else {
            let message = format!(
                "{} has no name for a file in a directory",
                reading::shown(file)
            );
            return Err(arguments.usage(&message));
        };
        if !taken.insert(name) {
            let name = name.to_string_lossy();
            let message = format!("two rules would be written to `{name}` of the directory");
            return Err(arguments.usage(&message));
        }
        // Whatever is still to be read is not written over before.
        reading::note_input(fs::metadata(file));
        names.push((file, name));
    }
    Ok(names)
}

fn into_directory(arguments: &Arguments, file: &OsStr, to: &Path) -> Result<Report, Failure> {
    let (rule, reduction) = reduced(arguments, file)?;
    let written = form::rule_as_written(arguments, &rule, &reduction.rule)?;
    destination::write(to.as_os_str(), &written)?;
    let elements = reduction.rule.first().copied().unwrap_or(0);
    let keys = [
        ("elements", elements.into()),
        ("written", to.to_string_lossy().as_ref().into()),
    ];
    Ok(Report::new(
        Answer::Done,
        format!("elements {elements}\n"),
        keys,
    ))
}

/// The rule with its letters in the order of their names, or of the propositions.
fn sorted_letters(rule: &Source) -> Result<(Names, Vec<u8>), Failure> {
    let letters = Rule::take_apart(&rule.bytes).map_or(0, |own| own.images.len());
    if !rule.names.any() {
        return Ok((Names::none(), rule.bytes.clone()));
    }
    let mut order = all_called(&rule.names, letters);
    order.sort_unstable();
    let ordered = in_order(&rule.names, letters, &order);
    let (names, acts_as) =
        ordered.map_err(|words| Failure::Refused(format!("{}: {words}", rule.name)))?;
    Ok((names, acting(&rule.bytes, &acts_as)))
}
