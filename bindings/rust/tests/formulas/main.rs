//! Temporal formulas: how they are read, what they mean, and the bytes that they become.

mod automata;
mod bytes;
mod claims;
mod documents;
mod errors;
mod evaluation;
mod programs;
mod reading;
mod rules;

use duknavet::formulas::{read, Alphabet, Formula, Tree};
use duknavet::text::Names;

/// Letters by their names.
fn letters(names: &[&str]) -> Alphabet {
    Alphabet::new(
        Names::letters(names).expect("names of letters"),
        names.len(),
    )
}

/// Valuations of propositions.
fn propositions(names: &[&str]) -> Alphabet {
    let count = 1 << names.len();
    Alphabet::new(Names::propositions(names).expect("names"), count)
}

fn tree(text: &str, alphabet: &Alphabet) -> Tree {
    read(text, alphabet)
        .unwrap_or_else(|fault| panic!("{text}: {fault}"))
        .tree
}

fn bracketed(text: &str, alphabet: &Alphabet) -> String {
    tree(text, alphabet).to_string()
}

fn formula(text: &str, alphabet: &Alphabet) -> Formula {
    Formula::of(&tree(text, alphabet), alphabet).expect("a formula of moderate length")
}
