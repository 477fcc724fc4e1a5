//! Safe calls to Duknavet, an engine for rules over endless event sequences that is proved in Rattle.
//!
//! A rule is a finite associative product table (a morphism into a finite semigroup), an element for each letter, and marked
//! pairs, each with a grade from 1 to 3, 3 the best. A marked pair accepts a lasso, u then v for ever, if the same endless word can
//! be written as p then w for ever so that the pair is (value of p, value of w); the value of a word is the product of its letters'
//! elements. The grade of a lasso is the highest of the marked pairs that accept it, 0 if none does. A rule is strong if the values
//! of u and v decide the lasso's grade, and else weak. A pair (s, e) is linked if e·e = e and s·e = s; linked pairs (s, e) and (t, f)
//! are conjugate if some x and y have s·x = t, x·y = e and y·x = f.
//!
//! The bytes of a rule file are n, 1 to 64, and n·n products, a·b at a·n + b; k, 1 to 16, and an element for each letter; a two-byte
//! count of marks, low byte first, and three bytes for each: s, e and the grade. `docs/FORMATS.md` of the repository has the files and
//! every refusal.
//!
//! The calls of this page work in buffers that are lent to them. [`owned`] has the same calls with results of their own,
//! [`RuleMonitor`] a monitor with its rule, [`RuleBoard`] a board with its rules, and [`RuleAutomaton`] a rule's own automaton; [`files`]
//! has rules and automata as values, [`text`] their texts, [`letters`] how the letters of two rules meet, [`words`] refusals in words.
//!
//! Every call takes any bytes, of any length: what is wrong with them is answered as a [`Refused`]. Calls that get a rule are
//! lent a scratch of [`SCRATCH`] bytes or more, and leave it as zeros. After a refusal the result buffers keep every byte; where
//! a buffer is too short (refusal 13) the scratch does too. Longer buffers pass, and bytes past a result are not touched.
//!
//! ```
//! use duknavet::{member, SCRATCH};
//!
//! // Letters 0 and 1; grade 3 for the lassos in which letter 0 occurs without end, grade 0 for the others.
//! let rule = [2, 0, 0, 0, 1, 2, 0, 1, 1, 0, 0, 0, 3];
//! let mut scratch = vec![0; SCRATCH];
//! let answer = member(&rule, &[1], &[0], &mut scratch).expect("a rule and two words");
//! assert_eq!(answer.grade, 3);
//! assert_eq!(answer.turns, 1);
//! ```

#![deny(missing_docs)]
#![deny(unsafe_code)]

mod answer;
mod automata;
mod boards;
mod combinations;
pub mod exchange;
pub mod files;
pub mod formulas;
mod inspections;
mod lassos;
pub mod letters;
mod markings;
mod monitors;
pub mod owned;
pub mod picture;
#[allow(unsafe_code)]
mod raw;
mod reductions;
mod rule_automaton;
mod rule_board;
mod rule_monitor;
mod states;
mod temporal;
pub mod text;
pub mod witness;
pub mod words;

pub use answer::{Refusal, Refused};
pub use automata::{automaton_rule, Translated};
pub use boards::{board_enter, board_event, board_file, board_leave, board_mark};
pub use boards::{Board, NotPosted};
pub use combinations::{combine, Combined, Operation};
pub use inspections::{inspect, Inspection};
pub use lassos::{member, stretch, Membership, Stretch};
pub use markings::{classes, complement, included, strong};
pub use markings::{Classes, Complemented, Inclusion, Strength};
pub use monitors::{advance_event, advance_mark, advance_stay, advance_word};
pub use monitors::{event, feed, fresh, keep, mark, return_to, verdict};
pub use monitors::{Advanced, Monitor, NotMoved, Verdict};
pub use reductions::{confirm, reduce, reduce_rounds};
pub use reductions::{Confirmation, Partition, Reduced};
pub use rule_automaton::{ListedState, RuleAutomaton, RuleState};
pub use rule_board::RuleBoard;
pub use rule_monitor::RuleMonitor;
pub use states::{state_kind, successors, StateKind, Successors};
pub use temporal::{constant, first_letter, formula_rule, next, until};
pub use temporal::{Formed, FORMULA, FORMULA_STACK, UNTIL_CLASSES};

/// The bytes that a scratch must have; a longer one passes.
pub const SCRATCH: usize = 65_536;

/// The bytes that a buffer for a rule file must have: the longest rule file.
pub const RULE_OUT: usize = 16_404;

/// The bytes that a buffer for the classes must have: two for each pair of 64 elements.
pub const CLASSES_OUT: usize = 8_192;

/// The bytes that the buffer for the start u of a lasso must have.
pub const U_OUT: usize = 64;

/// The bytes that the buffer for the cycle v of a lasso must have.
pub const V_OUT: usize = 4_224;

/// The bytes that the named points of a monitor must have: three for each of the names 0 to 7.
pub const POINTS: usize = 24;

/// The bytes that a buffer for the map of a reduction must have: one for each of 64 elements.
pub const MAP_OUT: usize = 64;

/// The bytes that a buffer for the blocks of a reduction's rounds must have.
pub const BLOCKS: usize = 64;

/// The most rounds that a reduction by rounds may be asked for.
pub const MOST_ROUNDS: usize = 64;

/// The bytes that a buffer for the states that a letter leads to must have.
pub const SUCCESSORS_OUT: usize = 65;

/// The most letters that u or v of a lasso may have; only u may have none.
pub const WORD: usize = 4_224;

/// The most letters that a word of events may have.
pub const LOG: usize = 16_777_216;

/// How many names a board has: 0 to 7.
pub const BOARD_NAMES: usize = 8;

/// The bytes of a board's state: three for each name, then the lowest grade.
pub const BOARD_STATE: usize = 25;

/// The bytes that the files of a board must have: [`RULE_OUT`] for each name.
pub const BOARD_FILES: usize = 131_232;

/// The value of a monitor, and of a state's first half, that stands for no letters.
pub const NONE: usize = 64;
