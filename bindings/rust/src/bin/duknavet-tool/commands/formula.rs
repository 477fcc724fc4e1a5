//! The smallest rule of a temporal formula.

use crate::arguments::Arguments;
use crate::command::{Answer, Choice, Command, Failure};
use crate::destination;
use crate::form::{self, Beyond, TO};
use crate::reading;
use crate::{formulated, input};
use duknavet::formulas::Alphabet;
use duknavet::text::Names;
use std::path::Path;

pub const COMMAND: Command = Command {
    name: "formula",
    arguments: "FORMULA|FILE",
    least: 1,
    most: 1,
    purpose: "make the smallest rule of a temporal formula",
    options: &[
        Choice {
            name: "letters",
            value: Some("NAMES"),
            meaning: "all events there are, of which exactly one holds at a place, as in alarm,pump,shut",
        },
        Choice {
            name: "ap",
            value: Some("NAMES"),
            meaning: "up to four propositions, each of which holds at a place or not, as in alarm,pump",
        },
        Choice {
            name: "rule",
            value: Some("RULE"),
            meaning: "letters or propositions as this rule has them",
        },
        Choice {
            name: "show-steps",
            value: None,
            meaning: "print on standard error how many elements the rule of each part has",
        },
        TO,
    ],
    common: &[destination::OPTIONS],
    details: "One of --letters, --ap and --rule is given. Operators, from strong to weak: ! and X F G; U W R M; &&; xor; \
||; -> and <->. Also [] <> /\\ \\/ ~ V, and the words always, eventually, next, never, until, weak until, \
release, and, or, not, true, false. A chain of U W R M, or of -> and <->, needs brackets. {alarm, shut} is a \
set of letters; a name that looks like an operator stands in quotes. Patterns: absence(P), existence(P), \
precedence(S, P), response(S, P), with --ap universality(P), each with a scope behind it: before(R), after(Q), \
between(Q, R), after_until(Q, R). A FILE that begins `duknavet formula 1` has parts, a line `name = formula` \
each, and formulas, with `proper:`, `tolerable:` or `poor:` before them: the rule gives an endless word the \
highest grade of a line whose formula holds. The rule is in the printed order, as reduce writes it, with the \
formula as its description. Each step is a proved call; that they are put together as the formula says is tested.",
    run,
};

fn run(arguments: &Arguments) -> Result<Answer, Failure> {
    let alphabet = alphabet(arguments)?;
    let text = text(arguments)?;
    let made = formulated::made("the formula", &text, &alphabet, arguments.has("show-steps"))?;
    let beyond = Beyond {
        names: alphabet.names(),
        description: &made.description,
    };
    form::write_rule_with(arguments, true, &beyond, &made.rule)
}

/// The letters that the options name.
fn alphabet(arguments: &Arguments) -> Result<Alphabet, Failure> {
    match (formulated::named(arguments)?, arguments.file("rule")) {
        (Some(named), None) => Ok(named),
        (None, Some(file)) => {
            let source = input::rule_file(file)?;
            duknavet::owned::check(&source.bytes)
                .map_err(|explained| source.refused(&explained))?;
            Ok(input::alphabet_of(&source).unwrap_or(Alphabet::new(Names::none(), 1)))
        }
        _ => Err(arguments.usage("one of --letters, --ap and --rule is given")),
    }
}

/// The formula itself, with or without `f:`, or what stands in the file of that name.
fn text(arguments: &Arguments) -> Result<String, Failure> {
    let argument = arguments.plain(0);
    let words = argument.to_string_lossy();
    if let Some(formula) = formulated::argument(&words) {
        return Ok(formula.to_string());
    }
    let named = argument == "-" || Path::new(argument).is_file();
    if !named {
        return Ok(words.into_owned());
    }
    let bytes = reading::contents(argument)?;
    reading::decoded(&reading::shown(argument), bytes)
}
