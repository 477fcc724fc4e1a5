//! Inputs from random numbers: morphisms of many kinds, marks, automata, other presentations of a rule.

pub mod automata;
pub mod marks;
pub mod morphisms;
pub mod presentations;
