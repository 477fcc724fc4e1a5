//! How the letters of a rule are called, and their order.

use crate::arguments::Arguments;
use crate::command::{Answer, Choice, Command, Failure};
use crate::destination;
use crate::form::{self, Beyond, TO};
use crate::formulated;
use crate::input;
use crate::meeting::{acting, names_in};
use duknavet::files::Rule;
use duknavet::letters::{all_called, in_order};
use duknavet::owned;
use duknavet::text::{listed, Names};

pub const COMMAND: Command = Command {
    name: "letters",
    arguments: "RULE",
    least: 1,
    most: 1,
    purpose: "write a rule with its letters named, renamed, in another order, or with one more",
    options: &[
        Choice {
            name: "name",
            value: Some("NAMES"),
            meaning: "a name for each letter, as in open,shut",
        },
        Choice {
            name: "order",
            value: Some("NAMES"),
            meaning: "the letters, or the propositions, in this order, as in shut,open",
        },
        Choice {
            name: "rename",
            value: Some("OLD=NEW"),
            meaning: "another name for a letter or a proposition; several have commas between them",
        },
        Choice {
            name: "add",
            value: Some("NEW=OLD"),
            meaning: "one more letter, which acts as an old one; several have commas between them",
        },
        TO,
    ],
    common: &[formulated::OPTIONS, destination::OPTIONS],
    details: "One of --name, --order, --rename and --add is given. Two rules whose letters have different names are \
not compared or combined: this mends it. A letter without a name has its number for one. Grades stay as \
they are: each lasso has the grade of the lasso that its letters act as. The rule is written as a text \
where its letters are called in any way, else as RULE is.",
    run,
};

/// How letters are called, and for each of them the old letter that it acts as.
type Letters = (Names, Vec<u8>);

fn run(arguments: &Arguments) -> Result<Answer, Failure> {
    let given: Vec<(&str, &str)> = ["name", "order", "rename", "add"]
        .into_iter()
        .filter_map(|option| Some((option, arguments.value(option)?)))
        .collect();
    let [(option, list)] = given.as_slice() else {
        return Err(arguments.usage("one of --name, --order, --rename and --add is given"));
    };
    let source = input::rule(arguments, arguments.plain(0))?;
    owned::check(&source.bytes).map_err(|explained| source.refused(&explained))?;
    let letters = Rule::take_apart(&source.bytes).map_or(0, |rule| rule.images.len());
    let (names, list) = (&source.names, names_in(list));
    let changed = match *option {
        "name" => named(letters, &list),
        "order" => in_order(names, letters, &list),
        "rename" => renamed(names, letters, &list),
        _ => added(names, letters, &list),
    };
    let (names, acts_as) =
        changed.map_err(|words| Failure::Refused(format!("{}: {words}", source.name)))?;
    let from_text = source.is_text() || names.any();
    let beyond = Beyond {
        names: &names,
        description: &source.description,
    };
    let rule = acting(&source.bytes, &acts_as);
    form::write_rule_with(arguments, from_text, &beyond, &rule)
}

/// Letters that act as themselves.
fn same(letters: usize) -> Vec<u8> {
    (0..=u8::MAX).take(letters).collect()
}

fn named(letters: usize, list: &[String]) -> Result<Letters, String> {
    match list.len() == letters {
        true => Ok((Names::letters(list)?, same(letters))),
        false => Err(format!(
            "a name is wanted for each of {letters} letters, and {} given",
            match list.len() {
                1 => "1 is".to_string(),
                names => format!("{names} are"),
            }
        )),
    }
}

/// The two sides of `a=b`; the last `=` parts them, since names of propositions may have one.
fn sides(words: &str) -> Result<(&str, &str), String> {
    let sides = words.rsplit_once('=');
    let sides = sides.map(|(left, right)| (left.trim(), right.trim()));
    sides.ok_or_else(|| format!("`{words}` is not of the form a=b"))
}

fn place(names: &[String], name: &str) -> Result<usize, String> {
    let place = names.iter().position(|own| own == name);
    place.ok_or_else(|| format!("there is no `{name}`, only {}", listed(names)))
}

fn renamed(names: &Names, letters: usize, list: &[String]) -> Result<Letters, String> {
    let old = all_called(names, letters);
    let mut new = old.clone();
    for words in list {
        let (from, to) = sides(words)?;
        new[place(&old, from)?] = to.to_string();
    }
    let names = match names.as_propositions() {
        Some(_) => Names::propositions(&new)?,
        None => Names::letters(&new)?,
    };
    Ok((names, same(letters)))
}

fn added(names: &Names, letters: usize, list: &[String]) -> Result<Letters, String> {
    if names.as_propositions().is_some() {
        return Err("a valuation of propositions is not added: they meet as they are".to_string());
    }
    let mut all = all_called(names, letters);
    let mut acts_as = same(letters);
    for words in list {
        let (new, old) = sides(words)?;
        let old = acts_as[place(&all, old)?];
        acts_as.push(old);
        all.push(new.to_string());
    }
    Ok((Names::letters(&all)?, acts_as))
}
