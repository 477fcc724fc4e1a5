//! Rules, marks, automata and lassos as Rust values that build and take apart the bytes of their files.
//!
//! A value of these types may be wrong in every way that a file may be: taking apart looks at the lengths of the sections alone, and
//! what else is wrong is said by the call that gets the bytes.

mod automaton;
mod bytes;
mod lasso;
mod marks;
mod rule;

pub use automaton::{Automaton, Transition};
pub use lasso::Lasso;
pub use marks::{marks_bytes, marks_of, Mark};
pub use rule::Rule;
