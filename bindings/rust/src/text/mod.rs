//! Text forms of rules, automata, marks sections, maps of reductions and lassos, both ways.
//!
//! A text begins with a line such as `duknavet rule 1`; `#` begins a comment; everything else is words with white space between
//! them, numbers in base ten. A text says the same as the bytes of a file, entry by entry, and reading it gives these bytes: a text
//! whose entries are out of range reads well, and the call that gets its bytes refuses them. What a text has beyond the bytes is how
//! letters are called, by names or as valuations of propositions, and a description: the comments right behind its first line.
//!
//! A byte order mark, blank lines and comments may stand before the first line of a text. No bytes of a rule, an automaton, a
//! marks section or a map to a rule that pass the checks are a text all the same: but for the low byte of a count of marks or
//! transitions all their bytes are at most 64, and the high byte is at most 16, while `du` is 100 and 117, and `u:` and `v:`
//! have 58 behind a byte above 64.

mod automaton;
mod counts;
mod description;
mod lasso;
mod map;
mod marks;
mod names;
mod quotes;
mod read;
mod rule;
mod start;
mod tokens;
mod valuations;

pub use automaton::print_automaton;
pub use description::{described, description_of_one, description_of_two};
pub use lasso::{print_lasso, print_word, read_lasso, read_letter};
pub use map::print_map;
pub use marks::{grade_word, print_marks};
pub use names::{Names, MOST_PROPOSITIONS};
pub(crate) use quotes::in_quotes;
pub use quotes::{listed, unquote};
pub use read::{kind, read, Kind, Parsed};
pub use rule::print_rule;
pub(crate) use start::from_first_line;
pub(crate) use tokens::decode;
pub use tokens::{words, Place, TextError};
