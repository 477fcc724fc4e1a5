//! Pictures of rules and automata.

use crate::arguments::Arguments;
use crate::command::{Answer, Choice, Command, Failure};
use crate::destination;
use crate::formulated;
use crate::kinds::{self, AS};
use duknavet::files::{Automaton, Rule};
use duknavet::owned;
use duknavet::picture::{dot, graph_svg, table_svg, Diagram};
use duknavet::text::Kind;

pub const COMMAND: Command = Command {
    name: "picture",
    arguments: "FILE",
    least: 1,
    most: 1,
    purpose: "draw a rule's table or its graph of right products, or an automaton",
    options: &[
        AS,
        Choice {
            name: "of",
            value: Some("PART"),
            meaning: "table or graph; else the table of a rule and the graph of an automaton",
        },
        Choice {
            name: "to",
            value: Some("FORM"),
            meaning: "svg, or for a graph dot; else svg",
        },
    ],
    common: &[formulated::OPTIONS, destination::OPTIONS],
    details: "Writes SVG, or DOT for Graphviz. In the table of a rule each element has a colour and its number, and a marked pair \
(row, column) is framed, with as many dots as its grade. In the graph of right products an edge leads from each element to its product \
with a letter's element; idempotents, and of an automaton final states, have two lines around them.",
    run,
};

fn run(arguments: &Arguments) -> Result<Answer, Failure> {
    let of = arguments.one_of("of", &["table", "graph"])?;
    let to = arguments.one_of("to", &["svg", "dot"])?.unwrap_or("svg");
    let (source, kind) = kinds::either(arguments.plain(0), arguments)?;
    let diagram = match kind {
        Kind::Rule => {
            owned::check(&source.bytes).map_err(|explained| source.refused(&explained))?;
            let Some(rule) = Rule::take_apart(&source.bytes) else {
                return Err(kinds::refusal(&source, kind));
            };
            if of != Some("graph") {
                return match to {
                    "svg" => destination::text(arguments, &table_svg(&rule, &source.names)),
                    _ => Err(arguments.usage("a table has no DOT; `--of graph` has")),
                };
            }
            Diagram::of_rule(&rule, &source.names)
        }
        Kind::Automaton if of != Some("table") => {
            kinds::check_automaton(&source.bytes)
                .map_err(|explained| source.refused(&explained))?;
            let Some(automaton) = Automaton::take_apart(&source.bytes) else {
                return Err(kinds::refusal(&source, kind));
            };
            Diagram::of_automaton(&automaton, &source.names)
        }
        _ => {
            return Err(
                arguments.usage("it draws tables and graphs of rules and graphs of automata")
            )
        }
    };
    let drawn = match to {
        "dot" => dot(&diagram),
        _ => graph_svg(&diagram),
    };
    destination::text(arguments, &drawn)
}
