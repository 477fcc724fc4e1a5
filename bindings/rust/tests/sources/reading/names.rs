//! The names in a definition's text: those it uses, and those it binds.

use std::collections::HashSet;

use super::words::{part_written, parts, roles, Role, Word};

/// A word that may be a name in scope, with what dots add to it without a space: a way, or fields.
#[derive(Debug)]
pub struct Used {
    pub name: String,
    pub members: Vec<String>,
}

#[derive(Debug, Default)]
pub struct Names {
    pub used: Vec<Used>,
    bound: HashSet<String>,
}

/// Words of the language, none of which can be a name.
const OF_THE_LANGUAGE: [&str; 24] = [
    "data",
    "record",
    "deriving",
    "as",
    "where",
    "pub",
    "abbrev",
    "unfoldable",
    "unfolding",
    "module",
    "let",
    "in",
    "elim",
    "λ",
    "Type",
    ":",
    "=",
    "→",
    "×",
    "_",
    "[",
    "]",
    "|",
    "↦",
];

/// The names that promises use of the prelude, which is open in every file.
const OF_THE_PRELUDE: [&str; 4] = ["⊥", "¬", "Unit", "Discrete"];

impl Names {
    /// The names of items: the first is a signature or a heading, the others are clauses and what else stands under it.
    pub fn of(items: &[Vec<Word>]) -> Names {
        let mut names = Names::default();
        for item in items {
            names.bind(item);
            names.collect(item);
        }
        names
    }

    pub fn add_bound(&mut self, name: &str) {
        self.bound.insert(name.to_string());
        // In a clause a parameter's name with a `_` is written escaped.
        self.bound.insert(format!("«{name}»"));
    }

    /// Whether a word that nothing in scope has is accounted for: the text itself binds it, or an operator that it is a part of,
    /// or the prelude has it.
    pub fn accounts_for(&self, word: &str) -> bool {
        let part = part_written(word);
        let operator = |name: &String| parts(name).contains(&part);
        self.bound.contains(word)
            || self.bound.iter().any(operator)
            || OF_THE_PRELUDE.contains(&word)
    }

    fn collect(&mut self, item: &[Word]) {
        for (at, (word, role)) in item.iter().zip(roles(item)).enumerate() {
            let text = word.text.as_str();
            let numeral = text.starts_with(|c: char| c.is_ascii_digit());
            if role == Role::Name && !numeral && !OF_THE_LANGUAGE.contains(&text) {
                self.used.push(Used {
                    name: word.text.clone(),
                    members: members(&item[at + 1..]),
                });
            }
        }
    }

    /// What an item binds. A word that is bound is still looked for in scope, where it may be a constructor of a pattern; that it is
    /// bound only excuses it where nothing is found. So more may be asked than is right, and never less.
    fn bind(&mut self, item: &[Word]) {
        let clause = clause_end(item);
        for (at, word) in item.iter().enumerate() {
            match word.text.as_str() {
                // a clause's patterns
                _ if at < clause => self.bind_words(&item[at..at + 1]),
                // `(a b : T)`, `{a b : T}`, and a label of a record's type
                "(" | "{" | ";" => {
                    let inner = &item[at + 1..];
                    let end = inner.iter().position(|word| word.is_mark() || word.is(":"));
                    if let Some(end) = end.filter(|&end| inner[end].is(":")) {
                        self.bind_words(&inner[..end]);
                    }
                }
                "λ" => {
                    let inner = &item[at + 1..];
                    let end = inner.iter().position(|word| word.is("."));
                    self.bind_words(&inner[..end.unwrap_or(inner.len())]);
                }
                "let" => {
                    let inner = &item[at + 1..];
                    let end = inner.iter().position(|word| word.is("=") || word.is(":"));
                    self.bind_words(&inner[..end.unwrap_or(inner.len())]);
                }
                // a case's pattern
                "↦" => {
                    let from = item[..at]
                        .iter()
                        .rposition(|word| word.is("[") || word.is("|"));
                    self.bind_words(&item[from.map_or(at, |from| from + 1)..at]);
                }
                // the lines under a heading: fields or constructors, up to their colons
                "where" => {
                    let body = &item[at + 1..];
                    let mut line = 0;
                    for (start, first) in body.iter().enumerate() {
                        if first.line == line {
                            continue;
                        }
                        line = first.line;
                        let names = body[start..].iter().take_while(|w| w.line == line);
                        let end = names.clone().position(|word| word.is(":"));
                        if let Some(end) = end {
                            self.bind_words(&body[start..start + end]);
                        }
                    }
                }
                _ => {}
            }
        }
        // the levels of a signature, `name {ℓ κ} : ..`
        if let [_, open, rest @ ..] = item {
            if open.is("{") {
                let end = rest.iter().position(|word| word.is("}"));
                self.bind_words(&rest[..end.unwrap_or(0)]);
            }
        }
    }

    fn bind_words(&mut self, words: &[Word]) {
        let names = words.iter().filter(|word| !word.is_mark());
        self.bound.extend(names.map(|word| word.text.clone()));
    }
}

/// The `b` and `c` of a way `a.b.c`, from behind its `a` on.
fn members(rest: &[Word]) -> Vec<String> {
    let mut found = Vec::new();
    for pair in rest.chunks_exact(2) {
        let [dot, member] = pair else { break };
        if !dot.is(".") || !dot.tight || !member.tight || member.is_mark() {
            break;
        }
        found.push(member.text.clone());
    }
    found
}

/// The words of a clause's patterns, without the name that it defines: what it binds, and constructors. Of a constructor by its way,
/// `Type.constructor`, neither word is bound.
pub fn pattern_words(clause: &[Word]) -> impl Iterator<Item = &str> {
    let end = clause_end(clause);
    let words = clause.iter().zip(roles(clause)).enumerate();
    let patterns = words.take(end).skip(1);
    patterns
        .filter(move |(at, (_, role))| {
            *role == Role::Name && members(&clause[at + 1..end]).is_empty()
        })
        .map(|(_, (word, _))| word.text.as_str())
}

/// How many words of an item stand left of its `=`; none where it is no clause.
fn clause_end(item: &[Word]) -> usize {
    let mut depth = 0;
    for (at, word) in item.iter().enumerate() {
        match word.text.as_str() {
            "(" | "{" => depth += 1,
            ")" | "}" => depth -= 1,
            ":" if depth == 0 => return 0,
            "=" if depth == 0 => return at,
            _ => {}
        }
    }
    0
}
