//! Temporal formulas as people write them: read, put in brackets, and made into the bytes that a rule is made of.
//!
//! A formula speaks of an endless word and of what is left of it after some letters. It stands for the grade 3 or 0; a
//! document may give a lower grade to some of its formulas. `docs/FORMULAS.md` of the repository has the language.

mod document;
mod meaning;
mod parse;
mod parts;
mod patterns;
mod program;
mod rule;
mod tokens;
mod tree;

pub use document::{is_document, Document, Line};
pub use meaning::{Alphabet, Formula, Shown};
pub use parse::{read, Read};
pub use program::{NoProgram, Operation, Program};
pub use rule::{make, make_by_steps, Made, NotMade, Step};
pub use tokens::FormulaError;
pub use tree::Tree;

/// How deep the parts of a formula may lie in one another, and how many formulas a document may have.
pub const MOST_DEPTH: usize = 200;

/// How many names and operators a formula may have, the parts that it names written out.
pub const MOST_SIZE: usize = 65_535;
