//! Formulas where a rule is wanted: `f:` and the formula, or a file that begins `duknavet formula 1`. The rule is the one
//! that `duknavet-tool formula` writes.

use crate::arguments::Arguments;
use crate::command::{Choice, Failure};
use crate::meeting::names_in;
use crate::output;
use duknavet::formulas::{
    make, Alphabet, Document, Formula, Made, NoProgram, NotMade, Program, Shown,
};
use duknavet::text::Names;
use duknavet::words::count;

/// The options of every subcommand that takes formulas.
pub const OPTIONS: &[Choice] = &[LETTERS, PROPOSITIONS];

const LETTERS: Choice = Choice {
    name: "letters",
    value: Some("NAMES"),
    meaning: "the letters of f:FORMULA or of a formula file, as in alarm,pump",
};

const PROPOSITIONS: Choice = Choice {
    name: "ap",
    value: Some("NAMES"),
    meaning: "the propositions of f:FORMULA or of a formula file, up to four",
};

/// The formula that an argument is, if it is one.
pub fn argument(words: &str) -> Option<&str> {
    words.strip_prefix("f:")
}

/// Letters by their names, as `--letters` has them.
fn letters(names: &str) -> Result<Alphabet, String> {
    let names = names_in(names);
    let count = names.len();
    match count > 16 {
        true => Err(format!("{count} letters, but rules have at most 16")),
        false => Ok(Alphabet::new(Names::letters(&names)?, count)),
    }
}

/// Valuations of propositions, as `--ap` has them.
fn propositions(names: &str) -> Result<Alphabet, String> {
    let names = names_in(names);
    let count = 1 << names.len().min(8);
    Ok(Alphabet::new(Names::propositions(&names)?, count))
}

/// The letters that `--letters` or `--ap` name; none where neither is given.
pub fn named(arguments: &Arguments) -> Result<Option<Alphabet>, Failure> {
    let given = [LETTERS, PROPOSITIONS].map(|choice| arguments.value(choice.name));
    let read = match given {
        [None, None] => return Ok(None),
        [Some(names), None] => letters(names),
        [None, Some(names)] => propositions(names),
        _ => Err("`--letters` and `--ap` do not go together".to_string()),
    };
    read.map(Some).map_err(|message| arguments.usage(&message))
}

/// The rule of a formula, and what describes it.
pub struct Formulated {
    pub rule: Vec<u8>,
    pub description: Vec<String>,
}

/// The smallest rule of a formula, or of a document, with what is to be said of it on standard error: how Spin reads it,
/// which parts always or never hold, and the sizes of all where they are asked for.
pub fn made(
    name: &str,
    text: &str,
    alphabet: &Alphabet,
    show_steps: bool,
) -> Result<Formulated, Failure> {
    let refused = |words: String| Failure::Refused(format!("{name}: {words}"));
    let document = Document::read(text, alphabet).map_err(|fault| refused(fault.to_string()))?;
    for line in document.lines.iter().filter(|line| line.otherwise_in_spin) {
        output::complain(&format!(
            "read as {}; Spin reads && and || otherwise",
            line.tree
        ));
    }
    let too_long = || refused("it is too long".to_string());
    let formula = document.formula(alphabet).ok_or_else(too_long)?;
    let program = Program::of(&formula).map_err(|fault| refused(no_program(&fault, alphabet)))?;
    let made = make(alphabet.letters(), &program).map_err(|fault| {
        let words = not_made(&fault, alphabet);
        Failure::ByCall(fault.explained.refused, format!("{name}: {words}"))
    })?;
    tell(&made, alphabet, show_steps);
    Ok(Formulated {
        description: description(&document),
        rule: made.rule,
    })
}

fn no_program(fault: &NoProgram, alphabet: &Alphabet) -> String {
    match fault {
        NoProgram::TooDeep(part) => format!(
            "it is too deeply nested at `{}`: more than eight rules would be kept at a time",
            shortened(part, alphabet)
        ),
        NoProgram::TooLong => "it is too long".to_string(),
    }
}

fn not_made(fault: &NotMade, alphabet: &Alphabet) -> String {
    let part = shortened(&fault.part, alphabet);
    let parts = match fault.operands[..] {
        [] => String::new(),
        [own] => format!(", whose part has {}", count(own, "element")),
        [first, second, ..] => {
            let second = count(second, "element");
            format!(", whose parts have {first} and {second}")
        }
    };
    let explained = &fault.explained;
    format!("of `{part}`{parts}, no rule is made: {explained}")
}

/// A part in a message.
fn shortened(part: &Formula, alphabet: &Alphabet) -> String {
    let text = Shown(part, alphabet).to_string();
    match text.chars().count() > 60 {
        true => text.chars().take(59).chain(['…']).collect(),
        false => text,
    }
}

/// Says which parts always or never hold, and the sizes of all where they are asked for.
fn tell(made: &Made, alphabet: &Alphabet, show_steps: bool) {
    for step in &made.steps {
        let part = shortened(&step.part, alphabet);
        if show_steps {
            let elements = match step.elements {
                1 => "1 element".to_string(),
                count => format!("{count} elements"),
            };
            output::complain(&format!("{elements}: {part}"));
        }
        match (step.constant, &step.part) {
            (_, Formula::Constant(_)) | (None, _) => {}
            (Some(0), _) => output::complain(&format!("`{part}` never holds")),
            (Some(3), _) => output::complain(&format!("`{part}` always holds")),
            (Some(_), _) => {}
        }
    }
}

/// The formulas as they were written, and with all brackets where Spin reads them otherwise.
fn description(document: &Document) -> Vec<String> {
    let mut lines = Vec::new();
    for line in &document.lines {
        lines.push(format!(" {}", line.text));
        if line.otherwise_in_spin {
            lines.push(format!(" read as {}", line.tree));
        }
    }
    lines
}
