//! The inputs that are compared, a part for each kind.

pub mod automata;
pub mod boards;
pub mod combinations;
pub mod confirmations;
pub mod damage;
pub mod large;
pub mod logs;
pub mod prints;
pub mod rounds;
pub mod rules;
pub mod states;
pub mod temporal;
pub mod words;
