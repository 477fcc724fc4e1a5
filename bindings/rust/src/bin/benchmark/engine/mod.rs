//! The same calls in safe Rust, with two strategies for what can be done in more than one way. All else is one code for both. It
//! shares no code with the library or with the tests.

mod associativity;
pub mod automata;
pub mod confirmations;
mod file;
pub mod inclusion;
pub mod lassos;
pub mod markings;
mod matrices;
pub mod monitors;
mod reached;
pub mod reductions;
mod search;
mod sections;
pub mod temporal;

#[derive(Clone, Copy, Debug, PartialEq, Eq)]
pub enum Strategy {
    /// As one would write it from the definitions: every triple is multiplied out, every entry of a section is compared in turn,
    /// the idempotent power of each element is worked out by the check and kept, products of matrices are looked up one by one.
    /// Memory is the call's own.
    Plain,
    /// The library's algorithms: associativity by tests along the words, entries bounded by the greatest, idempotent powers where
    /// they are asked for, the table of an automaton along its words. Memory is the lent scratch.
    Same,
}

/// A refusal: number, input, place.
pub type Refusal = (u8, u8, u64);

/// How many bytes were written.
type Length = Result<usize, Refusal>;

pub const SCRATCH: usize = 65_536;
pub const RULE_OUT: usize = 16_404;

/// Where things stand in a call's memory. A table of pairs has 64 bytes a row, each the grade of a pair, 0 for none.
const PAIRS: usize = 4_096;
const MARKS: usize = 0;
const SECOND: usize = PAIRS;
/// Behind the two tables of pairs: what each call needs.
const WORK: usize = 2 * PAIRS;

/// A checked rule, read where it is lent.
pub struct Rule<'a> {
    n: usize,
    table: &'a [u8],
    images: &'a [u8],
    /// The idempotent power of each element and its exponent, where the check worked them out.
    powers: Option<[(usize, usize); 64]>,
}

impl Rule<'_> {
    #[inline]
    fn product(&self, a: usize, b: usize) -> usize {
        self.table[a * self.n + b] as usize
    }

    /// The products that begin with an element.
    #[inline]
    fn row(&self, a: usize) -> &[u8] {
        &self.table[a * self.n..][..self.n]
    }

    #[inline]
    fn image(&self, a: usize) -> usize {
        self.images[a] as usize
    }

    #[inline]
    fn linked(&self, s: usize, e: usize) -> bool {
        self.product(e, e) == e && self.product(s, e) == s
    }

    /// The first idempotent power of an element with an exponent of 1 to n, and that exponent.
    #[inline]
    fn find_power(&self, s: usize) -> (usize, usize) {
        let mut power = s;
        let mut exponent = 1;
        while self.product(power, power) != power {
            power = self.product(power, s);
            exponent += 1;
        }
        (power, exponent)
    }

    #[inline]
    fn power(&self, s: usize) -> (usize, usize) {
        match &self.powers {
            Some(powers) => powers[s],
            None => self.find_power(s),
        }
    }
}

/// 13, before anything else.
fn lengths(lent: &[(usize, usize)]) -> Result<(), Refusal> {
    match lent.iter().any(|(length, least)| length < least) {
        true => Err((13, 1, 0)),
        false => Ok(()),
    }
}

/// Which zeros a call's work begins with.
#[derive(Clone, Copy, PartialEq, Eq)]
enum Needs {
    /// One table of pairs.
    Marks,
    /// Two tables of pairs.
    TwoMarkings,
}

/// Runs a call's work on memory that begins with zeros. The lent scratch ends as zeros over its whole length, as every call promises.
fn on_memory<T>(
    strategy: Strategy,
    needs: Needs,
    scratch: &mut [u8],
    work: impl FnOnce(&mut [u8]) -> Result<T, Refusal>,
) -> Result<T, Refusal> {
    let answer = match (strategy, needs) {
        (Strategy::Plain, Needs::Marks) => work(&mut [0; PAIRS]),
        (Strategy::Plain, Needs::TwoMarkings) => work(&mut [0; WORK]),
        (Strategy::Same, needs) => {
            let begin = match needs {
                Needs::Marks => PAIRS,
                Needs::TwoMarkings => WORK,
            };
            scratch[..begin].fill(0);
            work(scratch)
        }
    };
    scratch.fill(0);
    answer
}

/// What is lent, or new memory where too little of it is.
fn lent_or_new<'a>(lent: &'a mut [u8], new: &'a mut Vec<u8>, bytes: usize) -> &'a mut [u8] {
    if lent.len() >= bytes {
        return lent;
    }
    *new = vec![0; bytes];
    new
}
