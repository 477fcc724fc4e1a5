//! Whether a rule grades no lasso higher than another marking of its table, or than another rule.

use crate::arguments::Arguments;
use crate::command::{Answer, Command, Failure};
use crate::formulated;
use crate::input::{self, Source};
use crate::json::Json;
use crate::kinds::{self, AS};
use crate::meeting::{self, Side, BY_NUMBER};
use crate::report::{self, Report};
use duknavet::files::{marks_of, Lasso, Rule};
use duknavet::owned;
use duknavet::text::{print_lasso, Kind, Names};
use duknavet::witness::{included_in, Grades};

pub const COMMAND: Command = Command {
    name: "included",
    arguments: "FIRST SECOND",
    least: 2,
    most: 2,
    purpose: "tell whether no lasso is graded higher by a rule than by a second marks section for its table, or by a second rule",
    options: &[AS, BY_NUMBER],
    common: &[formulated::OPTIONS, report::OPTIONS],
    details: "Prints included, with status 0, or with status 1 a lasso that the first grades higher, and its two \
grades. With a marks section as SECOND the rule may be weak. Two rules are strong, and yes is said \
exactly if combine both of them compares equal to the first; their letters meet as those of combine do. \
Bytes are a marks section where their length fits one, else a rule if they pass its checks.",
    run,
};

fn run(arguments: &Arguments) -> Result<Answer, Failure> {
    let both = [arguments.plain(0), arguments.plain(1)];
    let [rule, second] = input::two_sources(arguments, both)?;
    let rule = input::of_kind(rule, Kind::Rule)?;
    let (second, kind) = kinds::of_source_or(second, arguments, marks_or_rule)?;
    let report = match kind {
        Kind::Marks => by_marks(&rule, &second)?,
        Kind::Rule => by_rules(arguments, &rule, &second)?,
        other => return Err(neither(&second.name, other)),
    };
    report::told(arguments, arguments.plain(0), report)
}

/// A second input that is of another kind, and how to go on where it is an automaton.
fn neither(name: &str, found: Kind) -> Failure {
    let hint = match found {
        Kind::Automaton => format!("; {}", input::MAKES_A_RULE),
        _ => String::new(),
    };
    let found = found.article();
    Failure::Refused(format!(
        "{name}: expected a marks section or a rule, found {found}{hint}"
    ))
}

/// What bytes are: a marks section where their length is that of one.
fn marks_or_rule(bytes: &[u8]) -> Kind {
    match marks_of(bytes).is_none() && owned::check(bytes).is_ok() {
        true => Kind::Rule,
        false => Kind::Marks,
    }
}

fn by_marks(rule: &Source, second: &Source) -> Result<Report, Failure> {
    let higher = owned::included(&rule.bytes, &second.bytes)
        .map_err(|explained| input::refused_by_input(rule, second, &explained))?;
    let Some(lasso) = higher else {
        return Ok(included());
    };
    let grade = |bytes: &[u8]| {
        let member = owned::member(bytes, &lasso.u, &lasso.v);
        member
            .map_err(|explained| rule.refused(&explained))
            .map(|member| member.grade)
    };
    let parts = Rule::take_apart(&rule.bytes).zip(marks_of(&second.bytes));
    let other = parts.map(|(rule, marks)| Rule { marks, ..rule }.bytes());
    let grades = (grade(&rule.bytes)?, grade(&other.unwrap_or_default())?);
    Ok(higher_by_first(&lasso, &rule.names, grades))
}

fn by_rules(arguments: &Arguments, rule: &Source, second: &Source) -> Result<Report, Failure> {
    let met = meeting::of_two(arguments, Side::of(rule), Side::of(second), [true, true])?;
    let grades = included_in(&met.first, &met.second)
        .map_err(|explained| input::refused_by_input(rule, second, &explained))?;
    match grades {
        Grades::NoneHigher => Ok(included()),
        Grades::Higher(own) => {
            Ok(higher_by_first(&own.lasso, &met.names, (own.first, own.second)))
        }
        Grades::TooLarge(pairs) => Err(Failure::Refused(format!(
            "words have {pairs} pairs of values in both, more than 64, and no lasso is found that the first grades higher"
        ))),
    }
}

fn included() -> Report {
    let keys = [
        ("included", true.into()),
        ("lasso", Json::None),
        ("grades", Json::None),
    ];
    Report::new(Answer::Yes, "included\n".to_string(), keys)
}

fn higher_by_first(lasso: &Lasso, names: &Names, grades: (u8, u8)) -> Report {
    let shown = print_lasso(lasso, names);
    let text = format!("{shown}\ngrades {} {}\n", grades.0, grades.1);
    let keys = [
        ("included", false.into()),
        ("lasso", Json::lasso(lasso, names)),
        ("grades", Json::list([grades.0, grades.1])),
    ];
    Report::new(Answer::No, text, keys)
}
