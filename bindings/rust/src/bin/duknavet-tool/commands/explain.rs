//! Why a lasso has its grade, and which grades can still come.

use crate::arguments::Arguments;
use crate::command::{Answer, Choice, Command, Failure};
use crate::input::{self, Source};
use crate::json::{keys, Json};
use crate::report::{self, Report};
use crate::{formulated, reading};
use duknavet::files::Lasso;
use duknavet::text::{print_lasso, print_word, Names};
use duknavet::witness::{prospects, why_grade, Accepted, Prospects, Reason};
use duknavet::words::{count, Explained};
use duknavet::{Monitor, NONE};
use std::ffi::OsStr;
use std::fmt::Write;

pub const COMMAND: Command = Command {
    name: "explain",
    arguments: "RULE LASSO|--state BEFORE,SINCE",
    least: 1,
    most: 2,
    purpose: "tell why a lasso has its grade, or which grades can still come",
    options: &[Choice {
        name: "state",
        value: Some("BEFORE,SINCE"),
        meaning: "in place of LASSO the two values of a monitor, as follow answers them; or one value, of all events",
    }],
    common: &[formulated::OPTIONS, report::OPTIONS],
    details: "LASSO is as for member, and so is the first line, and the status. Then: the values of u and v, and the linked pair (s, e), e the value of \
so many turns of v and s that of u and these; the mark that accepts the lasso, p and w, the same endless word cut so that they have the mark's values, and \
where they stand in u and v, letters counted from 0; all linked pairs that it can have when it is cut; and for each higher grade that none of its marks \
accepts. The rule may be weak. With --state: whether the grade is settled, with status 0, or open, with status 1, whatever comes behind events with these \
values, each an element or none; and for each grade that is still possible a shortest lasso to go on with. Then the rule must be strong. Words of more \
than 64 letters are left out, but not with --json. Nothing is told that the calls member and feed do not confirm.",
    run,
};

/// The letters of a word that is still printed.
const SHOWN: usize = 64;

fn run(arguments: &Arguments) -> Result<Answer, Failure> {
    let state = arguments
        .value("state")
        .map(|words| state(arguments, words));
    let state = state.transpose()?;
    let lasso = arguments.all().get(1);
    if state.is_some() == lasso.is_some() {
        return Err(arguments.usage("it takes RULE and LASSO, or RULE and --state BEFORE,SINCE"));
    }
    let rule = input::rule(arguments, arguments.plain(0))?;
    let report = match (state, lasso) {
        (Some(state), _) => of_state(&rule, state),
        (None, Some(lasso)) => {
            let lasso = input::lasso(lasso, &rule.names)?;
            of_lasso(&rule, &lasso)
        }
        (None, None) => Ok(None),
    };
    match report.map_err(|explained| rule.refused(&explained))? {
        Some(report) => report::told(arguments, arguments.plain(0), report),
        None => Err(unconfirmed(arguments.plain(0))),
    }
}

fn unconfirmed(rule: &OsStr) -> Failure {
    let name = reading::shown(rule);
    Failure::Refused(format!(
        "{name}: the calls do not confirm what was found, so that nothing is told"
    ))
}

/// The words BEFORE,SINCE, or one value. Every number is taken: whether the rule has them the call says.
fn state(arguments: &Arguments, words: &str) -> Result<Monitor, Failure> {
    let value = |word: &str| match word.trim() {
        "none" => Some(NONE),
        other => other.parse().ok(),
    };
    let read = match words.split_once(',') {
        Some((before, since)) => value(before).zip(value(since)),
        None => value(words).map(|since| (NONE, since)),
    };
    let fault = format!("`--state` takes elements or none as in 0,1 or none,1, not `{words}`");
    let read = read.map(|(before, since)| Monitor { before, since });
    read.ok_or_else(|| arguments.usage(&fault))
}

fn of_lasso(rule: &Source, lasso: &Lasso) -> Result<Option<Report>, Explained> {
    let Some(reason) = why_grade(&rule.bytes, lasso)? else {
        return Ok(None);
    };
    let pair = |(s, e): (u8, u8)| Json::list([s, e]);
    let accepted = reason.accepted.as_ref();
    let mark = accepted.map(|own| {
        Json::Object(keys([
            ("pair", pair((own.mark.s, own.mark.e))),
            ("grade", own.mark.grade.into()),
        ]))
    });
    let writing = accepted.map(|own| {
        Json::Object(keys([
            ("p", Json::word(&own.writing.u, &rule.names)),
            ("w", Json::word(&own.writing.v, &rule.names)),
        ]))
    });
    let higher = reason.higher.iter().map(|(grade, marks)| {
        Json::Object(keys([
            ("grade", (*grade).into()),
            ("marks", (*marks).into()),
        ]))
    });
    let (start, cycle) = reason.values;
    Ok(Some(Report::new(
        Answer::from(reason.grade > 0),
        told(&reason, lasso, &rule.names),
        [
            ("grade", reason.grade.into()),
            ("turns", reason.turns.into()),
            (
                "values",
                Json::List(vec![Json::or_none(start), cycle.into()]),
            ),
            ("pair", pair(reason.pair)),
            ("mark", mark.unwrap_or(Json::None)),
            ("writing", writing.unwrap_or(Json::None)),
            ("pairs", Json::list(reason.pairs.iter().copied().map(pair))),
            ("higher", Json::list(higher)),
        ],
    )))
}

fn shown((s, e): (u8, u8)) -> String {
    format!("({s}, {e})")
}

fn told(reason: &Reason, lasso: &Lasso, names: &Names) -> String {
    let (grade, turns) = (reason.grade, reason.turns);
    let (start, cycle) = reason.values;
    let start = match start {
        Some(start) => format!("u has the value {start}"),
        None => "u is empty".to_string(),
    };
    let several = count(turns, "turn");
    let pair = shown(reason.pair);
    let mut text = format!("grade {grade} turns {turns}\n");
    let _ = writeln!(
        text,
        "{start}, v the value {cycle}: with {several} of v the pair {pair}"
    );
    match &reason.accepted {
        Some(accepted) => text += &accepting(accepted, lasso, names),
        None => text += "no mark accepts it\n",
    }
    let pairs: Vec<String> = reason.pairs.iter().copied().map(shown).collect();
    let _ = writeln!(
        text,
        "however it is cut, its linked pairs are {}",
        pairs.join(" ")
    );
    for (grade, marks) in &reason.higher {
        let _ = match marks {
            0 => writeln!(text, "grade {grade}: there is no mark of it"),
            marks => writeln!(
                text,
                "grade {grade}: of {} none accepts it",
                count(*marks, "mark")
            ),
        };
    }
    text
}

/// The mark, and p and w with where they stand.
fn accepting(accepted: &Accepted, lasso: &Lasso, names: &Names) -> String {
    let Accepted { mark, writing } = accepted;
    let pair = shown((mark.s, mark.e));
    let mut text = format!("the mark {pair} of grade {} accepts it\n", mark.grade);
    for (name, word, value, place) in [
        ("p", &writing.u, mark.s, start_in(lasso, writing.u.len())),
        (
            "w",
            &writing.v,
            mark.e,
            cycle_in(lasso, writing.u.len(), writing.v.len()),
        ),
    ] {
        let letters = match word.len() {
            0..=SHOWN => print_word(word, names),
            many => format!("({many} letters)"),
        };
        let _ = writeln!(text, "  {name}: {letters}  value {value}: {place}");
    }
    text
}

/// What the first letters of a lasso are.
fn start_in(lasso: &Lasso, letters: usize) -> String {
    let Lasso { u, v } = lasso;
    let first = |letters: usize, word: &str| match letters {
        1 => format!("the first letter of {word}"),
        _ => format!("the first {letters} letters of {word}"),
    };
    if letters < u.len() {
        return first(letters, "u");
    }
    let (turns, more) = ((letters - u.len()) / v.len(), (letters - u.len()) % v.len());
    let parts = [
        (!u.is_empty()).then(|| "u".to_string()),
        (turns > 0).then(|| format!("{} of v", count(turns, "turn"))),
        (more > 0).then(|| first(more, "v")),
    ];
    let parts: Vec<String> = parts.into_iter().flatten().collect();
    parts.join(", ")
}

/// What the letters from a place on are, from which on the lasso repeats.
fn cycle_in(lasso: &Lasso, from: usize, letters: usize) -> String {
    let Lasso { u, v } = lasso;
    let from = match from.checked_sub(u.len()) {
        Some(past) if past % v.len() == 0 => String::new(),
        Some(past) => format!(" from letter {} of v on", past % v.len()),
        None => format!(" from letter {from} of u on"),
    };
    let long = match letters % v.len() {
        0 => format!("{} of v", count(letters / v.len(), "turn")),
        _ => count(letters, "letter"),
    };
    format!("{long}{from}")
}

fn of_state(rule: &Source, state: Monitor) -> Result<Option<Report>, Explained> {
    let Some(found) = prospects(&rule.bytes, state)? else {
        return Ok(None);
    };
    let grades = found.grades.iter().map(|(grade, lasso)| {
        let lasso = Json::lasso(lasso, &rule.names);
        Json::Object(keys([("grade", (*grade).into()), ("lasso", lasso)]))
    });
    let keys = [
        ("value", Json::or_none(found.value)),
        ("settled", found.settled().is_some().into()),
        ("grades", Json::list(grades)),
    ];
    let answer = Answer::from(found.settled().is_some());
    let text = still(&found, &rule.names);
    Ok(Some(Report::new(answer, text, keys)))
}

fn still(found: &Prospects, names: &Names) -> String {
    let value = match found.value {
        Some(value) => format!("value {value}"),
        None => "value none".to_string(),
    };
    let settled = match found.settled() {
        Some(_) => "settled",
        None => "open",
    };
    let mut text = format!("{value} {settled}\n");
    for (grade, lasso) in &found.grades {
        let _ = writeln!(text, "grade {grade}  {}", print_lasso(lasso, names));
    }
    text
}
