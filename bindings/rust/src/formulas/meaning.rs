//! What a formula means over an alphabet: sets of letters with temporal operators over them, its names gone.

use super::tree::{Binary, Tree, Unary};
use crate::text::Names;
use std::fmt;

/// The letters that formulas speak of, by their names or as valuations of propositions.
#[derive(Clone, Debug, PartialEq, Eq)]
pub struct Alphabet {
    names: Names,
    letters: usize,
}

impl Alphabet {
    /// As many letters, 1 to 16, with their names.
    pub fn new(names: Names, letters: usize) -> Alphabet {
        Alphabet { names, letters }
    }

    /// How many letters there are.
    pub fn letters(&self) -> usize {
        self.letters
    }

    /// How the letters are called.
    pub fn names(&self) -> &Names {
        &self.names
    }

    /// Whether letters are valuations of propositions.
    pub fn has_propositions(&self) -> bool {
        self.names.as_propositions().is_some()
    }

    /// What a name is the name of.
    pub(super) fn kind(&self) -> &'static str {
        match self.has_propositions() {
            true => "proposition",
            false => "letter",
        }
    }

    /// The names that formulas may have for letters or propositions.
    pub fn called(&self) -> Vec<String> {
        if let Some(propositions) = self.names.as_propositions() {
            return propositions.to_vec();
        }
        let numbers = || (0..self.letters).map(|letter| letter.to_string());
        self.names
            .as_letters()
            .unwrap_or_else(|| numbers().collect())
    }

    pub(super) fn has(&self, name: &str) -> bool {
        self.set(name).is_some()
    }

    /// The letters of a name, as the bits of a number: the letter itself, or every valuation in which the proposition holds.
    fn set(&self, name: &str) -> Option<u16> {
        if let Some(propositions) = self.names.as_propositions() {
            let place = propositions.iter().position(|own| own == name)?;
            let holds = (0..self.letters).filter(|letter| letter >> place & 1 == 1);
            return Some(holds.fold(0, |set, letter| set | 1 << letter));
        }
        let own = self.names.letter(name).map(usize::from);
        let numbered = || name.parse().ok().filter(|_| !name.starts_with('+'));
        let letter = own.or_else(numbered).filter(|own| *own < self.letters)?;
        Some(1 << letter)
    }

    /// Every letter.
    pub(super) fn all(&self) -> u16 {
        let all = (1u32 << self.letters) - 1;
        u16::try_from(all).unwrap_or(u16::MAX)
    }
}

/// A formula over letters that are numbers. Its grade at an endless word is 0 to 3.
#[derive(Clone, Debug, PartialEq, Eq, Hash)]
pub enum Formula {
    /// 3 if the first letter is one of these, bit a for letter a, else 0.
    Letters(u16),
    /// A grade, whatever the word is.
    Constant(u8),
    /// 3 less the part's grade.
    Not(Box<Formula>),
    /// The lower grade.
    Both(Box<Formula>, Box<Formula>),
    /// The higher grade.
    Either(Box<Formula>, Box<Formula>),
    /// The grade without the first letter.
    Next(Box<Formula>),
    /// The highest, over the places, of the lowest of the second's grade from there on and the first's from each place before.
    Until(Box<Formula>, Box<Formula>),
    /// The highest grade from any place on.
    Eventually(Box<Formula>),
    /// The lowest grade from any place on.
    Always(Box<Formula>),
    /// 3 less: 3 less the first until 3 less the second.
    Release(Box<Formula>, Box<Formula>),
    /// Until, or the first always.
    WeakUntil(Box<Formula>, Box<Formula>),
}

impl Formula {
    /// What a tree says; each of its names is in the alphabet. A part without temporal operators is one set of letters. None
    /// where its operators, written out, are more than a program has room for.
    pub fn of(tree: &Tree, alphabet: &Alphabet) -> Option<Formula> {
        let room = operators(tree, alphabet) <= MOST_OPERATIONS;
        room.then(|| Formula::within_room(tree, alphabet))
    }

    fn within_room(tree: &Tree, alphabet: &Alphabet) -> Formula {
        if let Some(set) = letters(tree, alphabet) {
            return Formula::set(set, alphabet);
        }
        match tree {
            Tree::Name(_) | Tree::Set(_) | Tree::Constant(_) => Formula::Constant(0),
            Tree::One(sign, part) => {
                let part = Box::new(Formula::within_room(part, alphabet));
                match sign {
                    Unary::Not => Formula::negated(*part, alphabet),
                    Unary::Next => Formula::Next(part),
                    Unary::Eventually => Formula::Eventually(part),
                    Unary::Always => Formula::Always(part),
                }
            }
            Tree::Two(sign, first, second) => {
                let read = |part: &Tree| Formula::within_room(part, alphabet);
                Formula::joined(*sign, read(first), read(second), alphabet)
            }
        }
    }

    /// The letters of a set; none of them, or all, are a constant.
    fn set(set: u16, alphabet: &Alphabet) -> Formula {
        match set {
            0 => Formula::Constant(0),
            set if set == alphabet.all() => Formula::Constant(3),
            set => Formula::Letters(set),
        }
    }

    fn negated(part: Formula, alphabet: &Alphabet) -> Formula {
        match part {
            Formula::Not(inner) => *inner,
            Formula::Constant(grade) => Formula::Constant(3 - grade),
            Formula::Letters(set) => Formula::set(!set & alphabet.all(), alphabet),
            part => Formula::Not(Box::new(part)),
        }
    }

    fn joined(sign: Binary, first: Formula, second: Formula, alphabet: &Alphabet) -> Formula {
        let not = |part: Formula| Formula::negated(part, alphabet);
        let both = |a: Formula, b: Formula| Formula::Both(Box::new(a), Box::new(b));
        let either = |a: Formula, b: Formula| Formula::Either(Box::new(a), Box::new(b));
        match sign {
            Binary::Until => Formula::Until(Box::new(first), Box::new(second)),
            Binary::WeakUntil => Formula::WeakUntil(Box::new(first), Box::new(second)),
            Binary::Release => Formula::Release(Box::new(first), Box::new(second)),
            Binary::StrongRelease => {
                let both = both(first, second.clone());
                Formula::Until(Box::new(second), Box::new(both))
            }
            Binary::And => both(first, second),
            Binary::Or => either(first, second),
            Binary::Implies => either(not(first), second),
            Binary::Xor => either(
                both(first.clone(), not(second.clone())),
                both(not(first), second),
            ),
            Binary::Equivalent => either(
                both(first.clone(), second.clone()),
                both(not(first), not(second)),
            ),
        }
    }

    /// A part with a grade as its highest.
    pub fn graded(self, grade: u8) -> Formula {
        match grade {
            3 => self,
            grade => Formula::Both(Box::new(self), Box::new(Formula::Constant(grade))),
        }
    }

    /// The parts that lie in it at once.
    pub fn parts(&self) -> Vec<&Formula> {
        match self {
            Formula::Letters(_) | Formula::Constant(_) => Vec::new(),
            Formula::Not(part)
            | Formula::Next(part)
            | Formula::Eventually(part)
            | Formula::Always(part) => vec![part],
            Formula::Both(first, second)
            | Formula::Either(first, second)
            | Formula::Until(first, second)
            | Formula::Release(first, second)
            | Formula::WeakUntil(first, second) => vec![first, second],
        }
    }
}

/// A formula in words again, over an alphabet: sets by the names of their letters.
pub struct Shown<'a>(pub &'a Formula, pub &'a Alphabet);

impl fmt::Display for Shown<'_> {
    fn fmt(&self, f: &mut fmt::Formatter<'_>) -> fmt::Result {
        let Shown(formula, alphabet) = *self;
        let own = |part: &'_ Formula| Shown(part, alphabet).to_string();
        match formula {
            Formula::Letters(set) => {
                let letters = (0..16u8).filter(|letter| set >> letter & 1 == 1);
                let names: Vec<String> =
                    letters.map(|letter| alphabet.names.show(letter)).collect();
                match names.len() {
                    1 => f.write_str(&names[0]),
                    _ => write!(f, "{{{}}}", names.join(", ")),
                }
            }
            Formula::Constant(3) => f.write_str("true"),
            Formula::Constant(0) => f.write_str("false"),
            Formula::Constant(grade) => write!(f, "grade {grade}"),
            Formula::Not(part) => write!(f, "!{}", own(part)),
            Formula::Next(part) => write!(f, "X {}", own(part)),
            Formula::Eventually(part) => write!(f, "F {}", own(part)),
            Formula::Always(part) => write!(f, "G {}", own(part)),
            Formula::Both(a, b) => write!(f, "({} && {})", own(a), own(b)),
            Formula::Either(a, b) => write!(f, "({} || {})", own(a), own(b)),
            Formula::Until(a, b) => write!(f, "({} U {})", own(a), own(b)),
            Formula::Release(a, b) => write!(f, "({} R {})", own(a), own(b)),
            Formula::WeakUntil(a, b) => write!(f, "({} W {})", own(a), own(b)),
        }
    }
}

/// The most operators that a formula may have once those are written out that repeat their parts.
const MOST_OPERATIONS: usize = 16_000;

/// How many operators, sets and constants a tree has so, or more than there is room for.
fn operators(tree: &Tree, alphabet: &Alphabet) -> usize {
    if letters(tree, alphabet).is_some() {
        return 1;
    }
    match tree {
        Tree::Name(_) | Tree::Set(_) | Tree::Constant(_) => 1,
        Tree::One(_, part) => operators(part, alphabet).saturating_add(1),
        Tree::Two(sign, first, second) => {
            let (first, second) = (operators(first, alphabet), operators(second, alphabet));
            let both = first.saturating_add(second);
            match sign {
                Binary::Xor | Binary::Equivalent => both.saturating_mul(2).saturating_add(5),
                Binary::StrongRelease => both.saturating_add(second).saturating_add(2),
                _ => both.saturating_add(2),
            }
        }
    }
}

/// The letters that a tree without temporal operators stands for.
fn letters(tree: &Tree, alphabet: &Alphabet) -> Option<u16> {
    let set = match tree {
        Tree::Name(name) => alphabet.set(name)?,
        Tree::Set(names) => names
            .iter()
            .filter_map(|name| alphabet.set(name))
            .fold(0, |all, own| all | own),
        Tree::Constant(true) => alphabet.all(),
        Tree::Constant(false) => 0,
        Tree::One(Unary::Not, part) => !letters(part, alphabet)?,
        Tree::One(..) => return None,
        Tree::Two(sign, first, second) => {
            let joined = matches!(
                sign,
                Binary::And | Binary::Or | Binary::Xor | Binary::Implies | Binary::Equivalent
            );
            if !joined {
                return None;
            }
            let (first, second) = (letters(first, alphabet)?, letters(second, alphabet)?);
            match sign {
                Binary::And => first & second,
                Binary::Or => first | second,
                Binary::Xor => first ^ second,
                Binary::Implies => !first | second,
                _ => !(first ^ second),
            }
        }
    };
    Some(set & alphabet.all())
}
