//! Each call made on lent buffers, and held against the definitions: the answer and every byte.

mod advances;
mod automata;
mod boards;
mod combinations;
mod confirmations;
mod lassos;
mod markings;
mod monitors;
mod points;
mod prints;
mod reductions;
mod rounds;
mod states;
mod temporal;

use crate::definitions::checks::Refusal;
use crate::definitions::order;
use crate::definitions::rule::{Mark, Rule, GRADES};
use crate::lending::{Lent, Stale};
use crate::random::Random;
use crate::tally::{refusal, Tally};
use duknavet::Refused;
use std::fmt::Debug;

pub use advances::Step;
pub use automata::AUTOMATON_SIZES;
pub use boards::{Deed, Held, Subjects, BOARD_SIZES};
pub use combinations::COMBINE_SIZES;
pub use confirmations::CONFIRM_SIZES;
pub use lassos::MEMBER_SIZES;
pub use markings::{CLASSES_SIZES, COMPLEMENT_SIZES, INCLUDED_SIZES, STRONG_SIZES};
pub use monitors::MONITOR_SIZES;
pub use points::POINTS_SIZES;
pub use reductions::REDUCE_SIZES;
pub use rounds::ROUNDS_SIZES;
pub use states::{KIND_SIZES, SUCCESSORS_SIZES};
pub use temporal::{Numbers, NEXT_SIZES, UNTIL_SIZES};

pub struct Comparison {
    pub random: Random,
    pub tally: Tally,
    stale: Stale,
}

impl Comparison {
    pub fn new(seed: u64) -> Comparison {
        let mut random = Random::new(seed);
        let stale = Stale::new(&mut random);
        Comparison {
            random,
            tally: Tally::default(),
            stale,
        }
    }

    /// Sizes that pass: those asked for, or more.
    pub fn enough<const N: usize>(&mut self, sizes: [usize; N]) -> [usize; N] {
        sizes.map(|size| match self.random.once_in(3) {
            true => size + self.random.below(70),
            false => size,
        })
    }

    /// Sizes of which one is too short, by one byte or more.
    pub fn short<const N: usize>(&mut self, sizes: [usize; N]) -> [usize; N] {
        let mut short = self.enough(sizes);
        let at = self.random.below(N);
        short[at] = match self.random.below(4) {
            0 => 0,
            1 => self.random.below(sizes[at]),
            _ => sizes[at] - 1,
        };
        short
    }

    fn lend<const N: usize>(&mut self, sizes: [usize; N]) -> [Lent; N] {
        sizes.map(|size| self.stale.lend(&mut self.random, size))
    }

    /// Counts what was said of a lasso: its grade, and that with its turns.
    fn count_graded(&mut self, call: &str, (grade, turns): (u8, usize)) {
        let outcome = format!("grade {grade}");
        let with_turns = match turns {
            1 => format!("{outcome}, 1 turn"),
            _ => format!("{outcome}, 2 turns or more"),
        };
        self.tally.count(call, outcome);
        self.tally.count(call, with_turns);
        if turns == 64 {
            self.tally.count(call, "64 turns");
        }
    }

    /// Counts the grades that a written rule has.
    fn count_marks(&mut self, call: &str, marks: &[Mark]) {
        for grade in GRADES {
            if marks.iter().any(|mark| mark.grade == grade) {
                self.tally.count(call, format!("a mark of grade {grade}"));
            }
        }
    }

    /// Holds an answer against what is expected: the refusal and the buffers after it, or that there is a result.
    fn agreed<T: Debug, E: Debug>(
        &mut self,
        call: &str,
        inputs: &[&[u8]],
        answer: Result<T, Refused>,
        expected: Result<E, Refusal>,
        (outs, scratch): (&[&Lent], &Lent),
    ) -> Option<(T, E)> {
        match (answer, expected) {
            (Ok(answer), Ok(expected)) => {
                scratch.zeroed();
                Some((answer, expected))
            }
            (Err(refused), Err(expected)) => {
                let found = (refused.refusal.number(), refused.input, refused.place);
                if found != expected {
                    panic!("{call} on {inputs:?}: refused by {found:?}, expected {expected:?}");
                }
                outs.iter().for_each(|out| out.kept());
                match found.0 {
                    13 => scratch.kept(),
                    _ => scratch.zeroed(),
                }
                self.tally.count(call, refusal(found.0, found.1));
                None
            }
            (answer, expected) => {
                panic!("{call} on {inputs:?}: {answer:?}, expected {expected:?}")
            }
        }
    }

    /// Holds a written rule to the order of its marks and, where the call numbers the elements, to that of first words; and the
    /// check itself to rules in another order: with two marks or two elements exchanged it must find the fault.
    fn ordered(&mut self, call: &str, rule: &Rule, numbered: bool) -> Result<(), String> {
        order::marks_rise(&rule.marks)?;
        let middle = rule.marks.len() / 2;
        if middle > 0 {
            let mut marks = rule.marks.clone();
            marks.swap(middle - 1, middle);
            if order::marks_rise(&marks).is_ok() {
                return Err("two marks can be exchanged".to_string());
            }
            self.tally.count(call, "marks exchanged, and found");
        }
        if !numbered {
            return Ok(());
        }
        order::by_first_words(&rule.morphism)?;
        let middle = rule.morphism.n / 2;
        if middle > 0 {
            let mut number: Vec<u8> = rule.morphism.elements().collect();
            number.swap(middle - 1, middle);
            if order::by_first_words(&order::renumbered(rule, &number).morphism).is_ok() {
                return Err("two elements can be exchanged".to_string());
            }
            self.tally.count(call, "elements exchanged, and found");
        }
        Ok(())
    }
}

/// Check 13: first of all, over every buffer that is lent.
fn lengths<const N: usize>(sizes: [usize; N], least: [usize; N]) -> Result<(), Refusal> {
    match sizes.iter().zip(&least).any(|(size, least)| size < least) {
        true => Err((13, 1, 0)),
        false => Ok(()),
    }
}
