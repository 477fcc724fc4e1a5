//! Whether a reduction that was made elsewhere is right, and else why not.

use crate::arguments::Arguments;
use crate::command::{Answer, Command, Failure};
use crate::formulated;
use crate::input::{self, Source};
use crate::json::Json;
use crate::meeting::{self, Side, BY_NUMBER};
use crate::report::{self, Report};
use duknavet::text::{Kind, Names};
use duknavet::witness::why_not_confirmed;
use duknavet::words::Explained;
use duknavet::{owned, Confirmation};

pub const COMMAND: Command = Command {
    name: "confirm",
    arguments: "RULE REDUCED MAP",
    least: 3,
    most: 3,
    purpose: "tell whether a rule was reduced right elsewhere, by a map of its elements",
    options: &[BY_NUMBER],
    common: &[formulated::OPTIONS, report::OPTIONS],
    details: "MAP has for each element of RULE the element of REDUCED that it went to: as bytes, or as a text. Prints yes, with status 0, where \
MAP goes to every element of REDUCED and to no other, carries products and letters over, every lasso has the same grade by both rules, and \
REDUCED is strong and has the fewest elements; its elements may be numbered in any way, and its marks may be any that give the grades. Else \
prints no, with status 1, and what is wrong; a lasso that shows it has the grades that the call member answers. A weak RULE is refused \
by 12, before any no.",
    run,
};

fn run(arguments: &Arguments) -> Result<Answer, Failure> {
    let rules = [arguments.plain(0), arguments.plain(1)];
    let [rule, reduced] = input::two_rules(arguments, rules)?;
    let map = input::expected(arguments.plain(2), Kind::Map)?;
    let answer = confirmed(arguments, &rule, &reduced, &map.bytes)?;
    let (line, why, answer) = match answer {
        Ok(()) => ("yes\n".to_string(), None, Answer::Yes),
        Err(no) => {
            let why = no.strip_prefix("no: ").map(str::to_string);
            (format!("{no}\n"), why, Answer::No)
        }
    };
    let keys = [
        ("yes", (answer == Answer::Yes).into()),
        ("no", Json::or_none(why.as_deref())),
    ];
    report::told(
        arguments,
        arguments.plain(0),
        Report::new(answer, line, keys),
    )
}

/// Whether a rule was reduced right; else the no, with what is wrong.
pub fn confirmed(
    arguments: &Arguments,
    rule: &Source,
    reduced: &Source,
    map: &[u8],
) -> Result<Result<(), String>, Failure> {
    let sides = (Side::of(rule), Side::of(reduced));
    let met = meeting::of_two(arguments, sides.0, sides.1, [true, false])?;
    confirmed_over(&met.names, &met.first, &met.second, map)
        .map_err(|explained| input::refused_by_input(rule, reduced, &explained))
}

/// The same for two rules whose letters are the same, and are called so.
pub fn confirmed_over(
    names: &Names,
    rule: &[u8],
    reduced: &[u8],
    map: &[u8],
) -> Result<Result<(), String>, Explained> {
    if owned::confirm(rule, reduced, map)? == Confirmation::Yes {
        return Ok(Ok(()));
    }
    let fault = why_not_confirmed(rule, reduced, map)?;
    let why = fault.map(|fault| format!(": {}", fault.in_words(names)));
    Ok(Err(format!("no{}", why.unwrap_or_default())))
}
