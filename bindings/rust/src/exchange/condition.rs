//! Conditions on at most four propositions, as the set of the valuations where they hold: bit j for valuation j.

use super::scanner::Scanner;
use crate::text::TextError;

/// A set of valuations of four propositions.
pub type Valuations = u16;

pub const ALL: Valuations = u16::MAX;
pub const NONE: Valuations = 0;

/// How deep conditions may stand in one another.
const DEEPEST: usize = 200;

/// The valuations where a proposition holds.
pub fn holds(proposition: usize) -> Valuations {
    (0..16)
        .filter(|valuation| valuation >> proposition & 1 == 1)
        .fold(NONE, |set, valuation| set | 1 << valuation)
}

/// How a format writes a condition.
pub struct Signs {
    pub and: &'static str,
    pub or: &'static str,
}

/// Reads what is not made of other conditions.
pub type Atom<'a> = dyn FnMut(&mut Scanner) -> Result<Valuations, TextError> + 'a;

/// Reads a condition.
pub fn read(
    scanner: &mut Scanner,
    signs: &Signs,
    atom: &mut Atom<'_>,
) -> Result<Valuations, TextError> {
    let mut reader = Reader {
        scanner,
        signs,
        atom,
    };
    reader.either(0)
}

struct Reader<'a, 'b> {
    scanner: &'a mut Scanner,
    signs: &'a Signs,
    atom: &'a mut Atom<'b>,
}

impl Reader<'_, '_> {
    fn either(&mut self, depth: usize) -> Result<Valuations, TextError> {
        let mut set = self.both(depth)?;
        while self.scanner.take(self.signs.or) {
            set |= self.both(depth)?;
        }
        Ok(set)
    }

    fn both(&mut self, depth: usize) -> Result<Valuations, TextError> {
        let mut set = self.one(depth)?;
        while self.scanner.take(self.signs.and) {
            set &= self.one(depth)?;
        }
        Ok(set)
    }

    fn one(&mut self, depth: usize) -> Result<Valuations, TextError> {
        if depth > DEEPEST {
            let message = "conditions stand too deep in one another";
            return Err(self.scanner.fault(message));
        }
        if self.scanner.take("!") {
            return Ok(!self.one(depth + 1)?);
        }
        if self.scanner.take("(") {
            let set = self.either(depth + 1)?;
            self.scanner.expect(")")?;
            return Ok(set);
        }
        (self.atom)(self.scanner)
    }
}
