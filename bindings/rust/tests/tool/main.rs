//! The tool, end to end and in its parts. Inputs and an engine written apart are those of the comparison.

#[allow(dead_code)]
#[path = "../comparison/definitions/mod.rs"]
mod definitions;
#[allow(dead_code)]
#[path = "../comparison/inputs/mod.rs"]
mod inputs;
#[allow(dead_code)]
#[path = "../comparison/random.rs"]
mod random;

mod boards;
mod calls;
mod claims;
mod combinations;
mod confirmations;
mod damage;
mod descriptions;
mod exchanges;
mod explained;
mod following;
mod forms;
mod formulas;
mod graded;
mod habits;
mod hints;
mod inclusions;
mod json;
mod letters;
mod marked;
mod meeting;
mod names;
mod pictures;
mod program;
mod refusals;
mod rounds;
mod rule_automata;
mod rule_claims;
mod rule_graphs;
mod samples;
mod states;
mod stations;
mod strict_claims;
mod strict_hoa;
mod tables;
mod temporal;
mod texts;
mod transcripts;
mod usage;
mod values;
mod witnesses;
