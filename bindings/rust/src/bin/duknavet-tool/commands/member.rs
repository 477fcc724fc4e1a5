//! The grade of a lasso.

use crate::arguments::Arguments;
use crate::command::{Answer, Choice, Command, Failure};
use crate::input::Source;
use crate::reading;
use crate::report::{self, About, Report};
use crate::{formulated, input, output};
use duknavet::files::Lasso;
use duknavet::words::Explained;
use duknavet::{owned, text, Membership};
use std::ffi::OsStr;

pub const COMMAND: Command = Command {
    name: "member",
    arguments: "RULE LASSO|--lassos FILE",
    least: 1,
    most: 2,
    purpose: "tell the grade that a rule gives to u, then v for ever",
    options: &[Choice {
        name: "least",
        value: Some("GRADE"),
        meaning: "the least grade that is a yes, 1 to 3; else 1",
    }, Choice {
        name: "lassos",
        value: Some("FILE"),
        meaning: "the lassos of FILE, one a line, in place of LASSO; - is standard input",
    }],
    common: &[formulated::OPTIONS, report::OPTIONS],
    details: "LASSO is the lasso itself, as in 'u: 1 0  v: 0', or a file that has it; letters are numbers, or names \
where RULE is a text that names them, or conjunctions such as a & !b where it has propositions, of which \
what is left out is false. Prints the grade, 0 to 3, and the turns of v. Status 0 where the grade is 1 \
or more, 1 where it is 0. The rule may be weak. With --lassos each line that is not empty and no comment has its answer: \
the grade and the turns, or refused and the numbers, or not understood, with the words on standard error; the status is the \
highest, 2 where a line was refused.",
    run,
};

fn run(arguments: &Arguments) -> Result<Answer, Failure> {
    let least = arguments.number("least", 1, 3)?.unwrap_or(1);
    let rule = || input::rule(arguments, arguments.plain(0));
    match (arguments.file("lassos"), arguments.all().len()) {
        (Some(file), 1) => of_lines(arguments, &rule()?, file, least),
        (None, 2) => {
            let rule = rule()?;
            let lasso = input::lasso(arguments.plain(1), &rule.names)?;
            let report =
                answer(&rule, &lasso, least).map_err(|explained| rule.refused(&explained))?;
            report::told(arguments, arguments.plain(0), report)
        }
        _ => Err(arguments.usage("it takes RULE and LASSO, or RULE and --lassos FILE")),
    }
}

fn answer(rule: &Source, lasso: &Lasso, least: usize) -> Result<Report, Explained> {
    let Membership { grade, turns } = owned::member(&rule.bytes, &lasso.u, &lasso.v)?;
    let keys = [("grade", grade.into()), ("turns", turns.into())];
    let text = format!("grade {grade} turns {turns}\n");
    Ok(Report::new(
        Answer::from(usize::from(grade) >= least),
        text,
        keys,
    ))
}

/// The lassos of a file, one a line, each with its answer; the status is the highest.
fn of_lines(
    arguments: &Arguments,
    rule: &Source,
    file: &OsStr,
    least: usize,
) -> Result<Answer, Failure> {
    owned::check(&rule.bytes).map_err(|explained| rule.refused(&explained))?;
    let json = arguments.has(report::JSON.name);
    let name = reading::shown(file);
    let asked = arguments.plain(0).to_string_lossy();
    let mut worst = 0;
    for (number, line) in (1..).zip(reading::lines(file)?) {
        let line = line.map_err(|error| Failure::Files(format!("{name}: {error}")))?;
        let bare = line.trim_ascii();
        if bare.is_empty() || bare.starts_with(b"#") {
            continue;
        }
        let answered = match text::read_lasso(bare, &rule.names) {
            Ok(lasso) => answer(rule, &lasso, least).map_err(|explained| {
                let words = format!("{name}: line {number}: {explained}");
                (Some(explained.refused), words)
            }),
            Err(error) => Err((None, format!("{name}: line {number}: {}", error.message))),
        };
        let status = match &answered {
            Ok(report) => report.answer.status(),
            Err(_) => 2,
        };
        let about = About {
            command: arguments.command(),
            file: Some(&asked),
            line: Some(number),
            status,
        };
        let told = match answered {
            Ok(report) if json => report::object(about, report.keys),
            Ok(report) => report.text,
            Err((refused, words)) if json => {
                report::object(about, report::refusal(refused, &words))
            }
            Err((refused, words)) => {
                output::complain(&words);
                match refused {
                    Some(refused) => format!(
                        "refused {} input {} place {}\n",
                        refused.refusal.number(),
                        refused.input,
                        refused.place
                    ),
                    None => "not understood\n".to_string(),
                }
            }
        };
        output::write(told.as_bytes())?;
        worst = worst.max(status);
    }
    Ok(Answer::Status(worst))
}
