//! An engine for the definitions of documents 01 and 02 that shares nothing with the library: it enumerates.

pub mod acceptance;
pub mod automata;
pub mod boards;
pub mod checks;
pub mod combined;
pub mod confirmed;
pub mod conjugacy;
pub mod contexts;
pub mod cycles;
pub mod equivalence;
pub mod order;
pub mod rounds;
pub mod rule;
pub mod rule_automaton;
pub mod runs;
pub mod settling;
pub mod splits;
pub mod temporal;
