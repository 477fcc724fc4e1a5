//! The reduction of a strong rule by rounds.

use crate::arguments::Arguments;
use crate::command::{Answer, Choice, Command, Failure};
use crate::json::Json;
use crate::report::{self, Report};
use crate::{formulated, input};
use duknavet::{owned, MOST_ROUNDS};
use std::fmt::Write;

pub const COMMAND: Command = Command {
    name: "rounds",
    arguments: "RULE",
    least: 1,
    most: 1,
    purpose: "reduce a strong rule by rounds, and print which elements stand together",
    options: &[Choice {
        name: "limit",
        value: Some("ROUNDS"),
        meaning: "the most rounds after round 0; else 64, which always finishes",
    }],
    common: &[formulated::OPTIONS, report::OPTIONS],
    details: "Prints how many rounds were done after round 0 and whether they are finished, that is whether one more would change \
nothing; then a line for each block with its elements, by least elements; then the bytes that the call writes, for each element the \
least of its block. Finished blocks are the elements of the smallest rule. Status 0 where they are finished, 1 where not. A limit above \
64 is refused by 20, a weak rule by 12.",
    run,
};

fn run(arguments: &Arguments) -> Result<Answer, Failure> {
    // Every limit is handed over: which are too large the call says.
    let limit = arguments.number("limit", 0, usize::MAX)?;
    let limit = limit.unwrap_or(MOST_ROUNDS);
    let rule = input::rule(arguments, arguments.plain(0))?;
    let found =
        owned::reduce_rounds(&rule.bytes, limit).map_err(|explained| rule.refused(&explained))?;
    let finished = found.partition.finished;
    let verdict = match finished {
        true => "finished",
        false => "not finished",
    };
    let mut text = format!("rounds {} {verdict}\n", found.partition.rounds);
    let listed = |elements: &[u8], between: &str| {
        let elements: Vec<String> = elements.iter().map(u8::to_string).collect();
        elements.join(between)
    };
    for block in found.by_least() {
        let _ = writeln!(text, "{{{}}}", listed(&block, ", "));
    }
    let _ = writeln!(text, "bytes {}", listed(&found.least, " "));
    let keys = [
        ("rounds", found.partition.rounds.into()),
        ("finished", finished.into()),
        (
            "blocks",
            Json::list(found.by_least().into_iter().map(Json::list)),
        ),
        ("bytes", Json::list(found.least.iter().copied())),
    ];
    let report = Report::new(Answer::from(finished), text, keys);
    report::told(arguments, arguments.plain(0), report)
}
