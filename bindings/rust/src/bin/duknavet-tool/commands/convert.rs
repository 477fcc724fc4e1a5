//! Between bytes and texts, and to and from other tools' formats.

use super::states::{least, LEAST};
use crate::arguments::Arguments;
use crate::command::{Answer, Choice, Command, Failure};
use crate::destination;
use crate::form::{text_of, Beyond};
use crate::formulated;
use crate::input::{self, Given, Source};
use crate::kinds::{self, AS};
use crate::station::Fingerprint;
use duknavet::exchange::{
    print_hoa, print_rule_dot, print_rule_hoa, print_rule_never, print_rule_tables,
};
use duknavet::files::Automaton;
use duknavet::text::{print_lasso, Kind, Names};
use duknavet::RuleAutomaton;

pub const COMMAND: Command = Command {
    name: "convert",
    arguments: "FILE",
    least: 1,
    most: 1,
    purpose: "write a file in another form: bytes, text, the Hanoi format for an automaton or a rule, a never claim, DOT or C tables for a rule",
    options: &[
        AS,
        Choice {
            name: "to",
            value: Some("FORM"),
            meaning: "bytes, text, hoa, never, dot or c; else text for bytes and bytes for a text",
        },
        LEAST,
    ],
    common: &[formulated::OPTIONS, destination::OPTIONS],
    details: "Bytes, the text that is written for them and the bytes of that text are the same to the last byte. What \
does not pass the checks is converted too, as long as its sections have the lengths that its counts say: \
a text can be mended by hand. Names of letters, propositions and a description stand in texts, and of \
the Hanoi format names and propositions do. Letter i of an automaton in the Hanoi format, or of a never \
claim, is the valuation whose bit j is proposition j. A rule in that format is its own automaton, as \
states lists it, for the lassos of the least grade or more; a never claim is the same automaton, of a rule that names \
propositions, and DOT is its graph. A strong rule as C is three tables, step, product and \
grade, with a monitor's few functions, which a program includes; its values are those that follow answers, \
with NONE for none.",
    run,
};

const LEAST_FOR: &str = "`--least` is for a rule with `--to hoa`, `--to never` or `--to dot`";

fn run(arguments: &Arguments) -> Result<Answer, Failure> {
    let to = arguments.one_of("to", &["bytes", "text", "hoa", "never", "dot", "c"])?;
    let least = least(arguments)?;
    let given = input::given(arguments.plain(0))?;
    match &given {
        Given::Bytes { name, bytes } if duknavet::text::kind(bytes) == Some(Ok(Kind::Lasso)) => {
            let lasso = duknavet::text::read_lasso(bytes, &Names::none())
                .map_err(|error| Failure::Refused(format!("{name}: {error}")))?;
            return match to {
                _ if arguments.has("least") => Err(arguments.usage(LEAST_FOR)),
                None | Some("text") => {
                    destination::text(arguments, &(print_lasso(&lasso, &Names::none()) + "\n"))
                }
                _ => Err(arguments.usage("a lasso is a text only")),
            };
        }
        _ => {}
    }
    let source = input::read(arguments, given)?;
    let (source, kind) = kinds::of_source(source, arguments)?;
    let to = to.unwrap_or(match source.is_text() {
        true => "bytes",
        false => "text",
    });
    if arguments.has("least") && !matches!((to, kind), ("hoa" | "never" | "dot", Kind::Rule)) {
        return Err(arguments.usage(LEAST_FOR));
    }
    match (to, kind) {
        ("bytes", _) => destination::bytes(arguments, &source.bytes),
        ("hoa", Kind::Rule) => {
            let automaton = RuleAutomaton::reached(&source.bytes, least);
            let automaton = automaton.map_err(|explained| source.refused(&explained))?;
            destination::text(arguments, &print_rule_hoa(&automaton, &source.names))
        }
        ("hoa", Kind::Automaton) => match Automaton::take_apart(&source.bytes) {
            Some(automaton) => destination::text(arguments, &print_hoa(&automaton, &source.names)),
            None => Err(kinds::refusal(&source, kind)),
        },
        ("dot", Kind::Rule) => {
            let automaton = RuleAutomaton::reached(&source.bytes, least);
            let automaton = automaton.map_err(|explained| source.refused(&explained))?;
            destination::text(arguments, &print_rule_dot(&automaton, &source.names))
        }
        ("dot", _) => Err(arguments
            .usage("only a rule's own automaton is written as DOT; picture --to dot draws others")),
        ("never", Kind::Rule) => {
            let automaton = RuleAutomaton::reached(&source.bytes, least);
            let automaton = automaton.map_err(|explained| source.refused(&explained))?;
            match print_rule_never(&automaton, &source.names) {
                Ok(text) => destination::text(arguments, &text),
                Err(words) => Err(Failure::Refused(format!("{}: {words}", source.name))),
            }
        }
        ("never", _) => Err(arguments.usage("only rules are written as never claims")),
        ("c", Kind::Rule) => tables(arguments, &source),
        ("c", _) => Err(arguments.usage("only rules have C tables")),
        ("hoa", _) => Err(arguments.usage("only automata and rules have the Hanoi format")),
        _ => text(arguments, &source, kind),
    }
}

/// A strong rule as C, with its description and the fingerprint that `who` answers.
fn tables(arguments: &Arguments, source: &Source) -> Result<Answer, Failure> {
    let fingerprint = format!("Fingerprint: {}", Fingerprint::of(&source.bytes));
    let about: Vec<String> = source
        .description
        .iter()
        .cloned()
        .chain([fingerprint])
        .collect();
    let text = print_rule_tables(&source.bytes, &source.names, &about);
    match text.map_err(|explained| source.refused(&explained))? {
        Some(text) => destination::text(arguments, &text),
        None => Err(kinds::refusal(source, Kind::Rule)),
    }
}

fn text(arguments: &Arguments, source: &Source, kind: Kind) -> Result<Answer, Failure> {
    let Some(text) = text_of(&source.bytes, kind, &Beyond::of(source)) else {
        return Err(kinds::refusal(source, kind));
    };
    let notes = source.notes.iter().map(|note| format!("# {note}\n"));
    // The comments right behind the first line describe a file, so that notes stand further down.
    let first = text.find("\nstates ").map_or(0, |end| end + 1);
    let (before, behind) = text.split_at(first);
    let text = before.to_string() + &notes.collect::<String>() + behind;
    destination::text(arguments, &text)
}
