//! A formula as bytes: operations in the order in which a stack of rules runs them.

use super::meaning::Formula;

/// How many rules the stack has room for.
const MOST_RULES: usize = 8;

/// The most bytes of a program.
const MOST_BYTES: usize = 65_535;

/// The codes of the operations.
pub(super) mod code {
    pub const SET: u8 = 0;
    pub const CONSTANT: u8 = 1;
    pub const NOT: u8 = 2;
    pub const BOTH: u8 = 3;
    pub const EITHER: u8 = 4;
    pub const WITHOUT: u8 = 5;
    pub const NEXT: u8 = 6;
    pub const UNTIL: u8 = 7;
    pub const EVENTUALLY: u8 = 8;
    pub const ALWAYS: u8 = 9;
    pub const RELEASE: u8 = 10;
    pub const WEAK_UNTIL: u8 = 11;
    pub const COPY: u8 = 12;
}

/// An operation of a program, and the part of the formula that it makes the rule of.
#[derive(Clone, Debug, PartialEq, Eq)]
pub struct Operation {
    /// The place of its code among the bytes.
    pub at: usize,
    /// The part.
    pub part: Formula,
}

/// The bytes of a formula, with what each operation is for.
#[derive(Clone, Debug, Default, PartialEq, Eq)]
pub struct Program {
    /// The bytes.
    pub bytes: Vec<u8>,
    /// The operations in their order.
    pub operations: Vec<Operation>,
}

/// Why a formula has no program.
#[derive(Clone, Debug, PartialEq, Eq)]
pub enum NoProgram {
    /// A part needs more rules at a time than the stack has room for.
    TooDeep(Formula),
    /// It would have more than 65,535 bytes.
    TooLong,
}

/// How many rules the stack must have room for while a part is worked out, without copies.
fn height(formula: &Formula) -> usize {
    match formula {
        Formula::Both(first, second) | Formula::Either(first, second) => {
            let (first, second) = (height(first), height(second));
            let deeper = first.max(second);
            deeper.max(first.min(second) + 1)
        }
        _ => match formula.parts()[..] {
            [part] => height(part),
            [first, second] => height(first).max(height(second) + 1),
            _ => 1,
        },
    }
}

impl Program {
    /// The program of a formula. Of two parts whose order means nothing the one that needs more of the stack comes first; a part
    /// that stands in the stack already is copied.
    pub fn of(formula: &Formula) -> Result<Program, NoProgram> {
        let mut program = Program::default();
        program.add(formula, &mut Vec::new())?;
        Ok(program)
    }

    fn add<'a>(
        &mut self,
        formula: &'a Formula,
        stack: &mut Vec<&'a Formula>,
    ) -> Result<(), NoProgram> {
        if stack.len() >= MOST_RULES {
            return Err(NoProgram::TooDeep(formula.clone()));
        }
        let above = stack.iter().rev().position(|own| *own == formula);
        let leaf = formula.parts().is_empty();
        if let Some(above) = above.filter(|_| !leaf) {
            self.operation(formula, &[code::COPY, above as u8])?;
            stack.push(formula);
            return Ok(());
        }
        let depth = stack.len();
        for part in ordered(formula) {
            self.add(part, stack)?;
        }
        stack.truncate(depth);
        stack.push(formula);
        match formula {
            Formula::Letters(set) => {
                let [low, high] = set.to_le_bytes();
                self.operation(formula, &[code::SET, 3, low, high])
            }
            Formula::Constant(grade) => self.operation(formula, &[code::CONSTANT, *grade]),
            Formula::Not(_) => self.operation(formula, &[code::NOT]),
            Formula::Both(..) => self.operation(formula, &[code::BOTH]),
            Formula::Either(..) => self.operation(formula, &[code::EITHER]),
            Formula::Next(_) => self.operation(formula, &[code::NEXT]),
            Formula::Until(..) => self.operation(formula, &[code::UNTIL]),
            Formula::Eventually(_) => self.operation(formula, &[code::EVENTUALLY]),
            Formula::Always(_) => self.operation(formula, &[code::ALWAYS]),
            Formula::Release(..) => self.operation(formula, &[code::RELEASE]),
            Formula::WeakUntil(..) => self.operation(formula, &[code::WEAK_UNTIL]),
        }
    }

    fn operation(&mut self, part: &Formula, bytes: &[u8]) -> Result<(), NoProgram> {
        if self.bytes.len() + bytes.len() > MOST_BYTES {
            return Err(NoProgram::TooLong);
        }
        self.operations.push(Operation {
            at: self.bytes.len(),
            part: part.clone(),
        });
        self.bytes.extend_from_slice(bytes);
        Ok(())
    }

    /// The part that the operation at a byte makes the rule of.
    pub fn part_at(&self, at: usize) -> Option<&Formula> {
        let own = self.operations.iter().find(|operation| operation.at == at);
        own.map(|operation| &operation.part)
    }
}

/// The parts of a formula in the order in which they are worked out.
fn ordered(formula: &Formula) -> Vec<&Formula> {
    let mut parts = formula.parts();
    let exchangeable = matches!(formula, Formula::Both(..) | Formula::Either(..));
    if exchangeable && height(parts[1]) > height(parts[0]) {
        parts.swap(0, 1);
    }
    parts
}
