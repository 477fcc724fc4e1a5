//! A rule file as the definitions read it, with what they say of the rule, each found when first asked for.

use crate::definitions::acceptance::Marking;
use crate::definitions::checks::{self, Refusal};
use crate::definitions::conjugacy;
use crate::definitions::cycles::{self, Cycles, Decided};
use crate::definitions::rule::{Mark, Morphism, Rule, GRADES};
use std::cell::OnceCell;
use std::rc::Rc;

/// How many sets of splits are searched for a morphism of n elements. Large ones have too many to list in any case.
fn limit(n: usize) -> usize {
    if n <= 14 {
        1_500
    } else {
        100
    }
}

pub struct Subject {
    pub bytes: Vec<u8>,
    pub read: Result<Known, Refusal>,
}

pub struct Known {
    pub rule: Rule,
    pub marking: Marking,
    /// A word for each element.
    pub words: Vec<Vec<u8>>,
    cycles: Rc<OnceCell<Cycles>>,
    decided: OnceCell<Decided>,
    /// The strength that the comparison settled on.
    pub strong: OnceCell<bool>,
    /// The grades of lassos, by their values; of strong rules.
    pub outcomes: OnceCell<Vec<u8>>,
}

impl Subject {
    pub fn new(bytes: Vec<u8>) -> Subject {
        Subject::sharing(bytes, Rc::default())
    }

    /// A subject over a morphism whose cycles other subjects use too.
    pub fn sharing(bytes: Vec<u8>, cycles: Rc<OnceCell<Cycles>>) -> Subject {
        let read = checks::rule(&bytes).map(|rule| Known::new(rule, cycles));
        Subject { bytes, read }
    }

    pub fn known(&self) -> &Known {
        self.read.as_ref().expect("a rule that passes every check")
    }
}

impl Known {
    fn new(rule: Rule, cycles: Rc<OnceCell<Cycles>>) -> Known {
        let words = rule.morphism.words().into_iter();
        Known {
            marking: Marking::new(rule.morphism.n, &rule.marks),
            words: words.map(|word| word.expect("reached")).collect(),
            rule,
            cycles,
            decided: OnceCell::new(),
            strong: OnceCell::new(),
            outcomes: OnceCell::new(),
        }
    }

    pub fn morphism(&self) -> &Morphism {
        &self.rule.morphism
    }

    pub fn cycles(&self) -> &Cycles {
        self.cycles
            .get_or_init(|| cycles::cycles(self.morphism(), limit(self.morphism().n)))
    }

    /// Strength by the definition, where the search for cycles ends.
    pub fn decided(&self) -> &Decided {
        self.decided.get_or_init(|| {
            cycles::strong(self.morphism(), &self.marking, &self.words, self.cycles())
        })
    }

    pub fn closure(&self) -> Vec<Mark> {
        conjugacy::closure(self.morphism(), &self.rule.marks)
    }

    /// Whether conjugate pairs have equal grades.
    pub fn closed(&self) -> bool {
        let own = |mark: &Mark| self.marking.grade(mark.pair) == mark.grade;
        self.closure().iter().all(own)
    }

    /// How many grades its marks have.
    pub fn grades(&self) -> usize {
        let has = |grade: &u8| self.rule.marks.iter().any(|mark| mark.grade == *grade);
        GRADES.iter().filter(|grade| has(grade)).count()
    }
}
