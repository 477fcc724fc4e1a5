//! Where two rules, or two automata, differ.

use crate::arguments::Arguments;
use crate::command::{Answer, Command, Failure};
use crate::formulated;
use crate::input::{self, Source};
use crate::json::Json;
use crate::kinds::{self, AS};
use crate::meeting::{self, Met, Side, BY_NUMBER};
use crate::output;
use crate::report::{self, Report, JSON};
use duknavet::owned;
use duknavet::text::{print_lasso, Kind};
use duknavet::witness::{compare, equal_in_order, Comparison};

pub const COMMAND: Command = Command {
    name: "compare",
    arguments: "FIRST SECOND",
    least: 2,
    most: 2,
    purpose: "compare two rules or automata over the same letters, and give a lasso that tells them apart",
    options: &[AS, BY_NUMBER],
    common: &[formulated::OPTIONS, report::OPTIONS],
    details: "Prints equal, with status 0, where every lasso has the same grade by both: strong rules by the bytes of \
their reductions, weak ones by inclusion both ways. Else, with status 1, a lasso of which no single \
letter can be left out, and its two grades, each as the call member answers it; where strong rules are \
equal in another order of letters, standard error says in which. Letters meet by their names, in the \
order of FIRST, or by the propositions of both; where one file names none they go by their numbers. An \
automaton stands for its rule. Two rules of which one is weak are shown equal only as long as words have \
at most 64 pairs of values in both.",
    run,
};

fn run(arguments: &Arguments) -> Result<Answer, Failure> {
    let both = [arguments.plain(0), arguments.plain(1)];
    let [first, second] = input::two_sources(arguments, both)?;
    let (first, first_rule) = rule_of(arguments, first)?;
    let (second, second_rule) = rule_of(arguments, second)?;
    for (source, rule) in [(&first, &first_rule), (&second, &second_rule)] {
        owned::check(rule).map_err(|explained| source.refused(&explained))?;
    }
    let sides = (side(&first, &first_rule), side(&second, &second_rule));
    let met = meeting::of_two(arguments, sides.0, sides.1, [false, false])?;
    let comparison =
        compare(&met.first, &met.second).map_err(|(which, explained)| match which {
            1 => first.refused(&explained),
            _ => second.refused(&explained),
        })?;
    let told = |report| report::told(arguments, arguments.plain(0), report);
    match comparison {
        Comparison::EqualReductions(reduction) => {
            let elements = match reduction.first().copied().unwrap_or(0) {
                1 => "1 element".to_string(),
                elements => format!("{elements} elements"),
            };
            let text = format!("equal: both reduce to the same {elements}\n");
            told(equal(text, reduction.first().copied()))
        }
        Comparison::EqualGrades => {
            told(equal("equal: neither grades a lasso higher\n".to_string(), None))
        }
        Comparison::Different(difference) => {
            let lasso = print_lasso(&difference.lasso, &met.names);
            let (by_first, by_second) = (difference.first, difference.second);
            let keys = [
                ("equal", false.into()),
                ("elements", Json::None),
                ("lasso", Json::lasso(&difference.lasso, &met.names)),
                ("grades", Json::list([by_first, by_second])),
            ];
            let text = format!("{lasso}\ngrades {by_first} {by_second}\n");
            // An object has what is said beside it, and a text stands before it.
            let json = arguments.has(JSON.name);
            if json {
                tell_other_order(&met);
            }
            let answer = told(Report::new(Answer::No, text, keys))?;
            if !json {
                tell_other_order(&met);
            }
            Ok(answer)
        }
        Comparison::OtherLetters(first, second) => Err(Failure::Refused(format!(
            "the first has {first} letters and the second {second}"
        ))),
        Comparison::TooLarge(pairs) => Err(Failure::Refused(format!(
            "one rule is weak, words have {pairs} pairs of values in both, more than 64, and no short lasso tells them apart"
        ))),
    }
}

fn equal(text: String, elements: Option<u8>) -> Report {
    let keys = [
        ("equal", true.into()),
        ("elements", Json::or_none(elements)),
        ("lasso", Json::None),
        ("grades", Json::None),
    ];
    Report::new(Answer::Yes, text, keys)
}

/// Says in which order of the second's letters two rules that differ are equal, if there is one.
fn tell_other_order(met: &Met) {
    let Ok(Some(order)) = equal_in_order(&met.first, &met.second) else {
        return;
    };
    let moved = (0..=u8::MAX).zip(order).filter(|(own, other)| own != other);
    let moved: (Vec<String>, Vec<String>) = moved
        .map(|(own, other)| (met.names.show(own), met.names.show(other)))
        .unzip();
    let (own, other) = (moved.0.join(", "), moved.1.join(", "));
    output::complain(&format!(
        "equal in another order of letters: {other} of the second for {own} of the first"
    ));
}

fn side<'a>(source: &'a Source, rule: &'a [u8]) -> Side<'a> {
    Side { source, rule }
}

/// A file, and the rule that it is or that its automaton has.
fn rule_of(arguments: &Arguments, source: Source) -> Result<(Source, Vec<u8>), Failure> {
    let (source, kind) = kinds::of_source(source, arguments)?;
    let rule = match kind {
        Kind::Rule => Ok(source.bytes.clone()),
        Kind::Automaton => owned::automaton_rule(&source.bytes),
        _ => return Err(arguments.usage("it compares rules and automata")),
    };
    let rule = rule.map_err(|explained| source.refused(&explained))?;
    Ok((source, rule))
}
