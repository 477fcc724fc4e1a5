//! A formula as it was read, and as it is printed with all brackets.

use super::tokens::operator;
use crate::text::listed;
use std::fmt;

/// An operator with one part.
#[derive(Clone, Copy, Debug, PartialEq, Eq, Hash)]
pub enum Unary {
    /// `!`
    Not,
    /// `X`
    Next,
    /// `F`
    Eventually,
    /// `G`
    Always,
}

/// An operator with two parts.
#[derive(Clone, Copy, Debug, PartialEq, Eq, Hash)]
pub enum Binary {
    /// `U`
    Until,
    /// `W`
    WeakUntil,
    /// `R`
    Release,
    /// `M`
    StrongRelease,
    /// `&&`
    And,
    /// `xor`
    Xor,
    /// `||`
    Or,
    /// `->`
    Implies,
    /// `<->`
    Equivalent,
}

/// A formula with its names.
#[derive(Clone, Debug, PartialEq, Eq, Hash)]
pub enum Tree {
    /// A letter, a proposition or a part by its name.
    Name(String),
    /// Some letters.
    Set(Vec<String>),
    /// Every endless word, or none.
    Constant(bool),
    /// An operator before its part.
    One(Unary, Box<Tree>),
    /// An operator between its parts.
    Two(Binary, Box<Tree>, Box<Tree>),
}

impl Unary {
    fn sign(self) -> &'static str {
        match self {
            Unary::Not => "!",
            Unary::Next => "X ",
            Unary::Eventually => "F ",
            Unary::Always => "G ",
        }
    }
}

impl Binary {
    pub(super) fn sign(self) -> &'static str {
        match self {
            Binary::Until => "U",
            Binary::WeakUntil => "W",
            Binary::Release => "R",
            Binary::StrongRelease => "M",
            Binary::And => "&&",
            Binary::Xor => "xor",
            Binary::Or => "||",
            Binary::Implies => "->",
            Binary::Equivalent => "<->",
        }
    }
}

impl Tree {
    pub(super) fn one(sign: Unary, part: Tree) -> Tree {
        Tree::One(sign, Box::new(part))
    }

    pub(super) fn two(sign: Binary, first: Tree, second: Tree) -> Tree {
        Tree::Two(sign, Box::new(first), Box::new(second))
    }

    /// How many names, sets, constants and operators it has.
    pub fn size(&self) -> usize {
        match self {
            Tree::Name(_) | Tree::Constant(_) => 1,
            Tree::Set(names) => names.len(),
            Tree::One(_, part) => 1 + part.size(),
            Tree::Two(_, first, second) => 1 + first.size() + second.size(),
        }
    }

    /// How deep its parts lie in one another; 1 for a name.
    pub fn depth(&self) -> usize {
        match self {
            Tree::Name(_) | Tree::Set(_) | Tree::Constant(_) => 1,
            Tree::One(_, part) => 1 + part.depth(),
            Tree::Two(_, first, second) => 1 + first.depth().max(second.depth()),
        }
    }
}

impl fmt::Display for Tree {
    /// With brackets round every part that has two.
    fn fmt(&self, f: &mut fmt::Formatter<'_>) -> fmt::Result {
        match self {
            Tree::Name(name) if operator(name).is_some() => write!(f, "\"{name}\""),
            Tree::Name(name) => f.write_str(&listed(std::slice::from_ref(name))),
            Tree::Set(names) => write!(f, "{{{}}}", listed(names)),
            Tree::Constant(true) => f.write_str("true"),
            Tree::Constant(false) => f.write_str("false"),
            Tree::One(sign, part) => write!(f, "{}{part}", sign.sign()),
            Tree::Two(sign, first, second) => {
                write!(f, "({first} {} {second})", sign.sign())
            }
        }
    }
}
