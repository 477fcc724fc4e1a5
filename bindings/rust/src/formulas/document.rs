//! A document of formulas: parts with names, and formulas with grades.

use super::meaning::{Alphabet, Formula};
use super::parse::read_part;
use super::parts::Parts;
use super::tokens::{operator, FormulaError, Span};
use super::tree::Tree;
use super::MOST_DEPTH;
use crate::text::Place;

/// The first line of a document.
pub const FIRST_LINE: &str = "duknavet formula 1";

/// A formula of a document, and the highest grade that it gives.
#[derive(Clone, Debug, PartialEq, Eq)]
pub struct Line {
    /// 3 for proper, 2 for tolerable, 1 for poor.
    pub grade: u8,
    /// What it says.
    pub tree: Tree,
    /// The formula as it stands in the document, in one line.
    pub text: String,
    /// Whether Spin would read it otherwise.
    pub otherwise_in_spin: bool,
}

/// Formulas, each with the highest grade that it gives; an endless word has the highest of theirs.
#[derive(Clone, Debug, PartialEq, Eq)]
pub struct Document {
    /// The formulas, at least one.
    pub lines: Vec<Line>,
}

const GRADES: [(&str, u8); 3] = [("proper", 3), ("tolerable", 2), ("poor", 1)];

/// How many names and operators the parts of a document may have together, those that they name written out.
const MOST_OF_PARTS: usize = 1 << 20;

/// Whether a text is a document, by its first line.
pub fn is_document(text: &str) -> bool {
    let first = text.lines().map(str::trim).find(|line| !line.is_empty());
    first == Some(FIRST_LINE)
}

/// The lines of a document behind its first, without comments; one that begins with a blank goes on with the line before it.
fn stretches(text: &str) -> Vec<Span> {
    let mut found: Vec<Span> = Vec::new();
    let mut from = 0;
    let mut begun = false;
    for (number, line) in (1..).zip(text.split_inclusive('\n')) {
        let to = from + line.len();
        let bare = line.trim();
        let goes_on = line.starts_with([' ', '\t']);
        match (begun, bare) {
            (_, "") => {}
            (false, _) => begun = true,
            (true, bare) if bare.starts_with('#') => {}
            _ => match found.last_mut() {
                Some(last) if goes_on => last.to = to,
                _ => found.push(Span {
                    from,
                    to,
                    place: Place {
                        line: number,
                        column: 1,
                    },
                }),
            },
        }
        from = to;
    }
    found
}

fn place_of(text: &str, at: usize) -> Place {
    let before = &text[..at];
    let last = before.rsplit('\n').next().unwrap_or("");
    Place {
        line: 1 + before.matches('\n').count(),
        column: 1 + last.chars().count(),
    }
}

impl Document {
    /// A single formula, as a document.
    pub fn single(text: &str, alphabet: &Alphabet) -> Result<Document, FormulaError> {
        let read = read_part(text, Span::whole(text), alphabet, &Parts::default())?;
        Ok(Document {
            lines: vec![Line {
                grade: 3,
                tree: read.tree,
                text: in_one_line(text),
                otherwise_in_spin: read.otherwise_in_spin,
            }],
        })
    }

    /// Reads a document, or a single formula where the first line is not that of a document.
    pub fn read(text: &str, alphabet: &Alphabet) -> Result<Document, FormulaError> {
        if !is_document(text) {
            return Document::single(text, alphabet);
        }
        let mut parts = Parts::default();
        let mut size = 0;
        let mut lines = Vec::new();
        for span in stretches(text) {
            let own = &text[span.from..span.to];
            let fault = |message: String| Err(FormulaError::new(text, span.place, message));
            if let Some((name, behind)) = definition(own) {
                if let Some(message) = unusable(name, alphabet, &parts) {
                    return fault(message);
                }
                let read = read_part(text, span.without(text, behind), alphabet, &parts)?;
                size += read.tree.size();
                if size > MOST_OF_PARTS {
                    return fault(format!(
                        "the parts have more than {MOST_OF_PARTS} names and operators together"
                    ));
                }
                parts.add(name, read.tree);
                continue;
            }
            if lines.len() == MOST_DEPTH {
                return fault(format!("there are more than {MOST_DEPTH} formulas"));
            }
            let (grade, behind) = graded(own);
            let read = read_part(text, span.without(text, behind), alphabet, &parts)?;
            lines.push(Line {
                grade,
                tree: read.tree,
                text: in_one_line(own),
                otherwise_in_spin: read.otherwise_in_spin,
            });
        }
        match lines.is_empty() {
            true => Err(FormulaError::new(
                text,
                place_of(text, text.len()),
                "there is no formula, only parts",
            )),
            false => Ok(Document { lines }),
        }
    }

    /// What the document means; none where a formula is too long.
    pub fn formula(&self, alphabet: &Alphabet) -> Option<Formula> {
        let mut all: Option<Formula> = None;
        for line in &self.lines {
            let own = Formula::of(&line.tree, alphabet)?.graded(line.grade);
            all = Some(match all {
                None => own,
                Some(before) => Formula::Either(Box::new(before), Box::new(own)),
            });
        }
        all
    }
}

/// A text without its line ends and comments.
fn in_one_line(text: &str) -> String {
    let lines = text.lines().map(|line| line[..comment(line)].trim());
    let kept = lines.filter(|line| !line.is_empty());
    kept.collect::<Vec<_>>().join(" ")
}

/// Where the comment of a line begins, or the line ends.
fn comment(line: &str) -> usize {
    let mut quoted = false;
    for (at, own) in line.char_indices() {
        match own {
            '"' => quoted = !quoted,
            '#' if !quoted => return at,
            _ => {}
        }
    }
    line.len()
}

/// The name of a part and where its formula begins, if a line is `name = formula`.
fn definition(line: &str) -> Option<(&str, usize)> {
    let at = line.find('=')?;
    let name = line[..at].trim();
    let plain = |own: char| own.is_alphanumeric() || own == '_' || own == '-';
    let named = !name.is_empty() && name.chars().all(plain);
    named.then_some((name, at + 1))
}

/// What is wrong with the name of a part, if something is.
fn unusable(name: &str, alphabet: &Alphabet, parts: &Parts) -> Option<String> {
    let kind = alphabet.kind();
    if alphabet.has(name) {
        return Some(format!("`{name}` is the name of a {kind}"));
    }
    if operator(name).is_some() {
        return Some(format!("`{name}` is an operator"));
    }
    if name.chars().all(|own| own.is_ascii_digit()) {
        return Some(format!("a part needs a name, and `{name}` is a number"));
    }
    let twice = parts.get(name).is_some();
    twice.then(|| format!("`{name}` stands for a part already"))
}

/// The grade that a line begins with, 3 if none, and where its formula begins.
fn graded(line: &str) -> (u8, usize) {
    let bare = line.trim_start();
    let before = line.len() - bare.len();
    for (word, grade) in GRADES {
        if let Some(rest) = bare.strip_prefix(word) {
            let colon = rest.trim_start();
            if colon.starts_with(':') {
                return (grade, before + bare.len() - colon.len() + 1);
            }
        }
    }
    (3, 0)
}
