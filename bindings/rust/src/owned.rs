//! The calls for programs that would rather not lend buffers: results are owned, no scratch is asked for, and a refusal comes with its
//! words. Each function hands its inputs to the call of the same name and adds no judgement of its own.
//!
//! ```
//! use duknavet::owned;
//!
//! let refused = owned::strong(&[2, 1, 0, 0, 0, 2, 0, 1, 0, 0]).expect_err("no associative product");
//! let words = "(0·0)·1 = 0 but 0·(0·1) = 1 (refusal 5, input 1, place 1)";
//! assert_eq!(refused.to_string(), words);
//! ```

use crate::files::Lasso;
use crate::words::{explain, Asked, Explained};
use crate::{Confirmation, Inclusion, Membership, Operation, Partition};
use crate::{RuleState, StateKind, Strength};
use crate::{BLOCKS, CLASSES_OUT, MAP_OUT, RULE_OUT, SCRATCH, SUCCESSORS_OUT, U_OUT};
use crate::{FORMULA_STACK, UNTIL_CLASSES, V_OUT};

/// The conjugacy classes of a rule's linked pairs.
#[derive(Clone, Debug, PartialEq, Eq, Hash)]
pub struct ClassList {
    /// For each pair (s, e), at s·n + e, the number t·n + f of its least conjugate; none where it is not linked.
    pub least: Vec<Option<u16>>,
    /// How many linked pairs, classes and joins there are.
    pub counts: crate::Classes,
}

impl ClassList {
    /// The classes by their least pairs, each with its pairs (s, e) in the order of their numbers.
    pub fn by_least(&self) -> Vec<Vec<(usize, usize)>> {
        let elements = self.least.len().isqrt().max(1);
        let pairs = || self.least.iter().enumerate();
        let numbered = |number: usize, least: &Option<u16>| *least == u16::try_from(number).ok();
        let class = |(first, _): (usize, &Option<u16>)| {
            let same = pairs().filter(move |(_, least)| numbered(first, least));
            same.map(|(pair, _)| (pair / elements, pair % elements))
                .collect()
        };
        let first = pairs().filter(|(pair, least)| numbered(*pair, least));
        first.map(class).collect()
    }
}

/// The reduction of a strong rule, and where the rule's elements went.
#[derive(Clone, Debug, PartialEq, Eq, Hash)]
pub struct Reduction {
    /// The file of the smallest strong rule that gives every lasso the same grade.
    pub rule: Vec<u8>,
    /// For each element of the given rule the element of the reduction that it went to.
    pub map: Vec<u8>,
}

/// Where the rounds of a reduction stand, with its blocks.
#[derive(Clone, Debug, PartialEq, Eq, Hash)]
pub struct Rounds {
    /// How many rounds were done, and whether they are finished.
    pub partition: Partition,
    /// For each element the least of its block.
    pub least: Vec<u8>,
}

impl Rounds {
    /// The blocks by their least elements, each with its elements in rising order.
    pub fn by_least(&self) -> Vec<Vec<u8>> {
        let elements = || (0..=u8::MAX).zip(&self.least);
        let block = |first: u8| {
            let own = elements().filter(move |(_, least)| **least == first);
            own.map(|(element, _)| element).collect()
        };
        let first = elements().filter(|(element, least)| element == *least);
        first.map(|(element, _)| block(element)).collect()
    }
}

/// What the program `duknavet` says of a rule.
#[derive(Clone, Copy, Debug, PartialEq, Eq, Hash)]
pub struct Summary {
    /// How many elements.
    pub elements: usize,
    /// How many letters.
    pub letters: usize,
    /// How many marks, of whatever grade.
    pub marks: usize,
    /// How many linked pairs, classes and joins.
    pub classes: crate::Classes,
    /// Whether the rule is strong.
    pub strength: Strength,
    /// How many elements its reduction has; 0 where the rule is weak.
    pub reduced: usize,
}

fn scratch() -> Vec<u8> {
    vec![0; SCRATCH]
}

/// Whether the bytes are a rule: every check that each call makes of it, and nothing behind them.
pub fn check(rule: &[u8]) -> Result<(), Explained> {
    checked(rule).map_err(|refused| explain(refused, Asked::Rule(rule)))
}

/// Whether both are rules, and those that are to be strong are: refused in the words of a call that gets both.
pub fn check_two(first: &[u8], second: &[u8], to_be_strong: [bool; 2]) -> Result<(), Explained> {
    let fault = |input: u8, refused: crate::Refused| {
        explain(
            crate::Refused { input, ..refused },
            Asked::TwoRules { first, second },
        )
    };
    let rules = [(1, first), (2, second)];
    for (input, rule) in rules {
        checked(rule).map_err(|refused| fault(input, refused))?;
    }
    for ((input, rule), _) in rules
        .into_iter()
        .zip(to_be_strong)
        .filter(|(_, strong)| *strong)
    {
        let mut out = vec![0; RULE_OUT];
        // Complements are of strong rules only, and a weak one is refused as every other call does.
        let complement = crate::complement(rule, &mut out, &mut scratch());
        complement.map_err(|refused| fault(input, refused))?;
    }
    Ok(())
}

/// A mark of a monitor that saw nothing changes nothing, so that the checks of the rule are all that the call does.
pub(crate) fn checked(rule: &[u8]) -> Result<(), crate::Refused> {
    match crate::mark(rule, crate::fresh(), &mut scratch()) {
        Ok(_) => Ok(()),
        Err(not_moved) => Err(not_moved.refused),
    }
}

/// Whether the rule is strong.
pub fn strong(rule: &[u8]) -> Result<Strength, Explained> {
    crate::strong(rule, &mut scratch()).map_err(|refused| explain(refused, Asked::Rule(rule)))
}

/// The grade of the lasso u, then v for ever, and the turns of v.
pub fn member(rule: &[u8], u: &[u8], v: &[u8]) -> Result<Membership, Explained> {
    crate::member(rule, u, v, &mut scratch())
        .map_err(|refused| explain(refused, Asked::Lasso { rule, u, v }))
}

/// The conjugacy classes of the rule's linked pairs.
pub fn classes(rule: &[u8]) -> Result<ClassList, Explained> {
    let mut out = vec![0; CLASSES_OUT];
    let counts = crate::classes(rule, &mut out, &mut scratch())
        .map_err(|refused| explain(refused, Asked::Rule(rule)))?;
    let elements = rule.first().map_or(0, |count| usize::from(*count));
    let number = |bytes: &[u8]| match u16::from_le_bytes([bytes[0], bytes[1]]) {
        u16::MAX => None,
        least => Some(least),
    };
    let numbers = out.chunks_exact(2).map(number);
    Ok(ClassList {
        least: numbers.take(elements * elements).collect(),
        counts,
    })
}

/// The bytes that a call wrote to a buffer for a rule.
fn written(
    call: impl FnOnce(&mut [u8], &mut [u8]) -> Result<usize, crate::Refused>,
    asked: Asked<'_>,
) -> Result<Vec<u8>, Explained> {
    let mut out = vec![0; RULE_OUT];
    let length = call(&mut out, &mut scratch()).map_err(|refused| explain(refused, asked))?;
    out.truncate(length);
    Ok(out)
}

/// The complement of a strong rule: grade 3 − g for each lasso of grade g.
pub fn complement(rule: &[u8]) -> Result<Vec<u8>, Explained> {
    let call = |out: &mut [u8], scratch: &mut [u8]| {
        crate::complement(rule, out, scratch).map(|written| written.length)
    };
    written(call, Asked::Rule(rule))
}

/// The smallest strong rule that gives every lasso the grade that a strong rule gives it.
pub fn reduce(rule: &[u8]) -> Result<Vec<u8>, Explained> {
    reduce_with_map(rule).map(|reduction| reduction.rule)
}

/// The same with the map: where each element of the rule went.
pub fn reduce_with_map(rule: &[u8]) -> Result<Reduction, Explained> {
    let mut map = vec![0; MAP_OUT];
    let call = |out: &mut [u8], scratch: &mut [u8]| {
        crate::reduce(rule, out, &mut map, scratch).map(|written| written.length)
    };
    let reduced = written(call, Asked::Rule(rule))?;
    map.truncate(rule.first().map_or(0, |count| usize::from(*count)));
    Ok(Reduction { rule: reduced, map })
}

/// Whether the second rule is the first, a strong one, reduced by a map, which has a byte for each element of the first.
pub fn confirm(first: &[u8], second: &[u8], map: &[u8]) -> Result<Confirmation, Explained> {
    crate::confirm(first, second, map, &mut scratch())
        .map_err(|refused| explain(refused, Asked::TwoRules { first, second }))
}

/// The rule made of two strong ones over as many letters: each lasso has its two grades combined. It need not be the smallest.
pub fn combine(first: &[u8], second: &[u8], operation: Operation) -> Result<Vec<u8>, Explained> {
    let call = |out: &mut [u8], scratch: &mut [u8]| {
        crate::combine(first, second, operation, out, scratch).map(|written| written.length)
    };
    written(call, Asked::TwoRules { first, second })
}

/// The smallest rule over so many letters that gives a lasso the grade where its first letter is in the set, else 0. Letter a is in the set if
/// `set` / 2^a is odd.
pub fn first_letter(letters: usize, set: usize, grade: usize) -> Result<Vec<u8>, Explained> {
    let call = |out: &mut [u8], _: &mut [u8]| {
        crate::first_letter(letters, set, grade, out).map(|written| written.length)
    };
    written(call, Asked::Numbers { letters, grade })
}

/// The smallest rule over so many letters that gives every lasso the grade.
pub fn constant(letters: usize, grade: usize) -> Result<Vec<u8>, Explained> {
    let call = |out: &mut [u8], _: &mut [u8]| {
        crate::constant(letters, grade, out).map(|written| written.length)
    };
    written(call, Asked::Numbers { letters, grade })
}

/// The rule that gives each lasso the grade that a strong rule gives to its endless word without the first letter. It need not be the smallest.
pub fn next(rule: &[u8]) -> Result<Vec<u8>, Explained> {
    let call = |out: &mut [u8], scratch: &mut [u8]| {
        crate::next(rule, out, scratch).map(|written| written.length)
    };
    written(call, Asked::Rule(rule))
}

/// The rule of the first until the second, two strong ones over as many letters: the highest, over the places of a lasso's endless word, of the
/// lowest of the second's grade from there on and the first's from each place before. It need not be the smallest.
pub fn until(first: &[u8], second: &[u8]) -> Result<Vec<u8>, Explained> {
    let mut classes = vec![0; UNTIL_CLASSES];
    let call = |out: &mut [u8], scratch: &mut [u8]| {
        crate::until(first, second, out, &mut classes, scratch).map(|written| written.length)
    };
    written(call, Asked::TwoRules { first, second })
}

/// The smallest rule of a formula in postfix form, over so many letters; see [`formula_rule`](crate::formula_rule).
pub fn formula_rule(letters: usize, formula: &[u8]) -> Result<Vec<u8>, Explained> {
    let mut stack = vec![0; FORMULA_STACK];
    let mut spare = vec![0; RULE_OUT];
    let mut classes = vec![0; UNTIL_CLASSES];
    let call = |out: &mut [u8], scratch: &mut [u8]| {
        let made = crate::formula_rule(
            letters,
            formula,
            out,
            &mut stack,
            &mut spare,
            &mut classes,
            scratch,
        );
        made.map(|written| written.length)
    };
    written(call, Asked::Formula { letters, formula })
}

/// The reduction of a strong rule by rounds, at most `limit` of them after round 0.
pub fn reduce_rounds(rule: &[u8], limit: usize) -> Result<Rounds, Explained> {
    let mut blocks = vec![0; BLOCKS];
    let partition = crate::reduce_rounds(rule, limit, &mut blocks, &mut scratch())
        .map_err(|refused| explain(refused, Asked::Rounds { rule, limit }))?;
    blocks.truncate(rule.first().map_or(0, |count| usize::from(*count)));
    Ok(Rounds {
        partition,
        least: blocks,
    })
}

/// The kind of a state of the rule's automaton, for a least grade. The rule may be weak.
pub fn state_kind(rule: &[u8], s: usize, e: usize, least: u8) -> Result<StateKind, Explained> {
    let state = RuleState { e, s };
    crate::state_kind(rule, s, e, least, &mut scratch())
        .map_err(|refused| explain(refused, Asked::Kind { rule, state, least }))
}

/// The t of the states (t, e) that a letter leads to from (s, e), in rising order, [`NONE`](crate::NONE) last. The rule may be weak.
pub fn successors(rule: &[u8], s: usize, e: usize, letter: u8) -> Result<Vec<u8>, Explained> {
    let state = RuleState { e, s };
    let asked = Asked::Successors {
        rule,
        state,
        letter,
    };
    let mut out = vec![0; SUCCESSORS_OUT];
    let found = crate::successors(rule, s, e, letter, &mut out, &mut scratch())
        .map_err(|refused| explain(refused, asked))?;
    out.truncate(found.count);
    Ok(out)
}

/// The rule with grade 3 for the lassos that an automaton accepts, and 0 for the others.
pub fn automaton_rule(automaton: &[u8]) -> Result<Vec<u8>, Explained> {
    let call = |out: &mut [u8], scratch: &mut [u8]| {
        crate::automaton_rule(automaton, out, scratch).map(|written| written.length)
    };
    written(call, Asked::Automaton(automaton))
}

/// A lasso that the rule's own marks grade higher than the second marks section; none where there is no such lasso.
pub fn included(rule: &[u8], second: &[u8]) -> Result<Option<Lasso>, Explained> {
    let (mut u, mut v) = (vec![0; U_OUT], vec![0; V_OUT]);
    let answer = crate::included(rule, second, &mut u, &mut v, &mut scratch())
        .map_err(|refused| explain(refused, Asked::Second { rule, second }))?;
    Ok(match answer {
        Inclusion::Included => None,
        Inclusion::NotIncluded {
            u: letters_of_u,
            v: letters_of_v,
        } => {
            u.truncate(letters_of_u);
            v.truncate(letters_of_v);
            Some(Lasso { u, v })
        }
    })
}

/// The counts of a rule, of its linked pairs and classes, its strength and the size of its reduction, each by its own call.
pub fn summary(rule: &[u8]) -> Result<Summary, Explained> {
    let classes = classes(rule)?.counts;
    let strength = strong(rule)?;
    let reduced = match strength {
        Strength::Strong => reduce(rule)?.first().map_or(0, |count| usize::from(*count)),
        Strength::Weak => 0,
    };
    let parts =
        crate::files::Rule::read(rule).map_err(|refused| explain(refused, Asked::Rule(rule)))?;
    Ok(Summary {
        elements: usize::from(parts.elements),
        letters: parts.images.len(),
        marks: parts.marks.len(),
        classes,
        strength,
        reduced,
    })
}
