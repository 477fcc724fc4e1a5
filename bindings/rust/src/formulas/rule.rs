//! The rule of a formula, by the proved call for its program; and what its operations come to one by one, for those who ask for the sizes on the way.

use super::meaning::Formula;
use super::program::{code, Program};
use crate::words::Explained;
use crate::{owned, Operation};

/// What an operation of a program made.
#[derive(Clone, Debug, PartialEq, Eq)]
pub struct Step {
    /// The part of the formula.
    pub part: Formula,
    /// How many elements its smallest rule has.
    pub elements: usize,
    /// The grade of every lasso, where all have one.
    pub constant: Option<u8>,
}

/// The smallest rule of a formula, and what was made on the way.
#[derive(Clone, Debug, PartialEq, Eq)]
pub struct Made {
    /// The rule file.
    pub rule: Vec<u8>,
    /// A step for each operation.
    pub steps: Vec<Step>,
}

/// A part of which no rule could be made: the tables on the way are too large.
#[derive(Clone, Debug, PartialEq, Eq)]
pub struct NotMade {
    /// The part.
    pub part: Formula,
    /// How many elements the rules have that it would be made of, in the order in which they were made.
    pub operands: Vec<usize>,
    /// The refusal.
    pub explained: Explained,
}

/// The grade of every lasso by a smallest rule, where all have one: such a rule has one element.
fn constant(rule: &[u8]) -> Option<u8> {
    match rule {
        [1, 0, _, rest @ ..] => match rest.last() {
            Some(grade) if rest.len() > 4 && rest[rest.len() - 5] == 1 => Some(*grade),
            _ => Some(0),
        },
        _ => None,
    }
}

fn elements(rule: &[u8]) -> usize {
    rule.first().copied().map_or(0, usize::from)
}

/// Makes the smallest rule of a program's formula over so many letters.
pub fn make(letters: usize, program: &Program) -> Result<Made, NotMade> {
    // The sizes on the way are asked one by one; the rule that is handed out is the proved call's.
    let steps = make_by_steps(letters, program)?.steps;
    match owned::formula_rule(letters, &program.bytes) {
        Ok(rule) => Ok(Made { rule, steps }),
        Err(explained) => {
            let whole = program.operations.last().map(|last| last.part.clone());
            Err(NotMade {
                part: whole.unwrap_or(Formula::Constant(0)),
                operands: Vec::new(),
                explained,
            })
        }
    }
}

/// The same by the library's other calls, operation by operation. That they are put together as the formula says is tested, and so is that the rule is
/// the proved call's.
pub fn make_by_steps(letters: usize, program: &Program) -> Result<Made, NotMade> {
    let mut stack: Vec<Vec<u8>> = Vec::new();
    let mut steps = Vec::new();
    for operation in &program.operations {
        let bytes = &program.bytes[operation.at..];
        let below = stack.len().saturating_sub(operation.part.parts().len());
        let operands: Vec<usize> = stack
            .iter()
            .skip(below)
            .map(|rule| elements(rule))
            .collect();
        let rule = operate(letters, bytes, &mut stack).map_err(|explained| NotMade {
            part: operation.part.clone(),
            operands,
            explained,
        })?;
        steps.push(Step {
            part: operation.part.clone(),
            elements: elements(&rule),
            constant: constant(&rule),
        });
        stack.push(rule);
    }
    let rule = stack.pop().unwrap_or_default();
    Ok(Made { rule, steps })
}

/// The rule that the operation at the front of some bytes makes of those on the stack, which it takes away.
fn operate(letters: usize, bytes: &[u8], stack: &mut Vec<Vec<u8>>) -> Result<Vec<u8>, Explained> {
    let always = |letters: usize| owned::constant(letters, 3);
    let mut taken = || stack.pop().unwrap_or_default();
    match bytes[0] {
        code::SET => {
            let set = u16::from_le_bytes([bytes[2], bytes[3]]);
            owned::first_letter(letters, usize::from(set), usize::from(bytes[1]))
        }
        code::CONSTANT => owned::constant(letters, usize::from(bytes[1])),
        code::COPY => {
            let below = stack.len().saturating_sub(1 + usize::from(bytes[1]));
            Ok(stack.get(below).cloned().unwrap_or_default())
        }
        code::NOT => not(&taken()),
        code::NEXT => reduced(owned::next(&taken())?),
        code::EVENTUALLY => until(&always(letters)?, &taken()),
        code::ALWAYS => {
            let part = not(&taken())?;
            not(&until(&always(letters)?, &part)?)
        }
        other => {
            let (second, first) = (taken(), taken());
            match other {
                code::BOTH => combined(&first, &second, Operation::Both),
                code::EITHER => combined(&first, &second, Operation::Either),
                code::WITHOUT => combined(&first, &second, Operation::Without),
                code::UNTIL => until(&first, &second),
                code::RELEASE => not(&until(&not(&first)?, &not(&second)?)?),
                _ => {
                    let until_second = until(&first, &second)?;
                    let never_broken = not(&until(&always(letters)?, &not(&first)?)?)?;
                    combined(&until_second, &never_broken, Operation::Either)
                }
            }
        }
    }
}

fn reduced(rule: Vec<u8>) -> Result<Vec<u8>, Explained> {
    owned::reduce(&rule)
}

fn not(rule: &[u8]) -> Result<Vec<u8>, Explained> {
    reduced(owned::complement(rule)?)
}

fn until(first: &[u8], second: &[u8]) -> Result<Vec<u8>, Explained> {
    reduced(owned::until(first, second)?)
}

fn combined(first: &[u8], second: &[u8], operation: Operation) -> Result<Vec<u8>, Explained> {
    reduced(owned::combine(first, second, operation)?)
}
