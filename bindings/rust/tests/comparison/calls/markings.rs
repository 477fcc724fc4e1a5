//! Classes, strength, complement, inclusion.

use super::{lengths, Comparison};
use crate::definitions::acceptance::{accepts, grade, Marking};
use crate::definitions::checks::{self, Refusal};
use crate::definitions::conjugacy;
use crate::definitions::contexts;
use crate::definitions::cycles::{self, Decided};
use crate::definitions::rule::{Mark, Rule, GRADES};
use crate::definitions::splits;
use crate::subject::{Known, Subject};
use duknavet::{Inclusion, Strength, CLASSES_OUT, RULE_OUT, SCRATCH, U_OUT, V_OUT};

pub const CLASSES_SIZES: [usize; 2] = [CLASSES_OUT, SCRATCH];
pub const STRONG_SIZES: [usize; 1] = [SCRATCH];
pub const COMPLEMENT_SIZES: [usize; 2] = [RULE_OUT, SCRATCH];
pub const INCLUDED_SIZES: [usize; 3] = [U_OUT, V_OUT, SCRATCH];

impl Comparison {
    pub fn classes(&mut self, subject: &Subject, sizes: [usize; 2]) {
        let [mut out, mut scratch] = self.lend(sizes);
        let answer = duknavet::classes(&subject.bytes, out.slice(), scratch.slice());
        let expected = lengths(sizes, CLASSES_SIZES).and(subject.read.as_ref().map_err(|r| *r));
        let expected = expected.map(|known| known.morphism());
        let inputs: [&[u8]; 1] = [&subject.bytes];
        let found = self.agreed("classes", &inputs, answer, expected, (&[&out], &scratch));
        let Some((counts, m)) = found else { return };
        let classes = conjugacy::classes(m);
        if m.n <= 5 {
            assert_eq!(
                classes,
                conjugacy::classes_literally(m),
                "the definitions disagree"
            );
        }
        let bytes: Vec<u8> = classes.iter().flat_map(|c| c.to_le_bytes()).collect();
        assert_eq!(out.written(bytes.len()), bytes, "classes of {inputs:?}");
        let linked = classes.iter().filter(|c| **c != 65_535).count();
        let own = |(at, c): &(usize, &u16)| *at == **c as usize;
        let least = classes.iter().enumerate().filter(own).count();
        let counted = (counts.linked, counts.classes, counts.joins);
        assert_eq!(
            counted,
            (linked, least, linked - least),
            "counts of {inputs:?}"
        );
        self.tally.count("classes", "counts");
    }

    /// The counts of a rule file.
    pub fn inspect(&mut self, subject: &Subject, sizes: [usize; 1]) {
        let [mut scratch] = self.lend(sizes);
        let answer = duknavet::inspect(&subject.bytes, scratch.slice());
        let expected = lengths(sizes, STRONG_SIZES).and(subject.read.as_ref().map_err(|r| *r));
        let expected = expected.map(|known| {
            let m = known.morphism();
            (m.n, m.letters(), known.rule.marks.len())
        });
        let inputs: [&[u8]; 1] = [&subject.bytes];
        let found = self.agreed("inspect", &inputs, answer, expected, (&[], &scratch));
        let Some((counts, expected)) = found else {
            return;
        };
        let counted = (counts.elements, counts.letters, counts.marks);
        assert_eq!(counted, expected, "counts of {inputs:?}");
        self.tally.count("inspect", "counted");
    }

    pub fn strong(&mut self, subject: &Subject, sizes: [usize; 1]) {
        self.inspect(subject, sizes);
        let [mut scratch] = self.lend(sizes);
        let answer = duknavet::strong(&subject.bytes, scratch.slice());
        let expected = lengths(sizes, STRONG_SIZES).and(subject.read.as_ref().map_err(|r| *r));
        let expected = expected.map(|known| (known, self.settled(subject)));
        let expected = expected.map(|(known, strong)| (strong, known.closed()));
        let inputs: [&[u8]; 1] = [&subject.bytes];
        let found = self.agreed("strong", &inputs, answer, expected, (&[], &scratch));
        let Some((answer, (strong, closed))) = found else {
            return;
        };
        assert_eq!(answer == Strength::Strong, strong, "strength of {inputs:?}");
        let outcome = match (strong, closed) {
            (false, _) => "weak",
            (true, true) => "strong, marks closed",
            (true, false) => "strong, marks not closed",
        };
        self.tally.count("strong", outcome);
        let known = subject.known();
        if known.morphism().n == 64 {
            self.tally.count("strong of 64", outcome);
        }
        let grades = known.grades();
        if strong && grades > 0 {
            self.tally
                .count("strong", format!("{outcome}, grades: {grades}"));
        }
        if !strong && splits::strong_at(known.morphism(), known.marking.level(1)) {
            self.tally.count("strong", "weak above grade 1 only");
        }
    }

    /// The strength of a rule that passes the checks: on a list of cycles that stand for all, where there are not too many;
    /// split by split else, and for some rules both ways.
    pub fn settled(&mut self, subject: &Subject) -> bool {
        let known = subject.known();
        if let Some(strong) = known.strong.get() {
            return *strong;
        }
        let (m, marking) = (known.morphism(), &known.marking);
        let strong = match known.decided() {
            Decided::Unknown => {
                self.tally.count("definitions", "strength by splits alone");
                splits::strong(m, marking)
            }
            decided => {
                let strong = *decided == Decided::Yes;
                if self.random.once_in(4) {
                    assert_eq!(
                        splits::strong(m, marking),
                        strong,
                        "the definitions disagree"
                    );
                    self.tally
                        .count("definitions", "strength by cycles and by splits");
                }
                strong
            }
        };
        *known.strong.get_or_init(|| strong)
    }

    /// A strong rule, or refusal 12.
    pub fn asked_strong<'a>(&mut self, subject: &'a Subject) -> Result<&'a Known, Refusal> {
        let known = subject.read.as_ref().map_err(|refusal| *refusal)?;
        match self.settled(subject) {
            true => Ok(known),
            false => Err((12, 1, 0)),
        }
    }

    pub fn complement(&mut self, subject: &Subject, sizes: [usize; 2]) {
        let [mut out, mut scratch] = self.lend(sizes);
        let answer = duknavet::complement(&subject.bytes, out.slice(), scratch.slice());
        let expected = lengths(sizes, COMPLEMENT_SIZES).and_then(|()| self.asked_strong(subject));
        let expected = expected.map(Wrapped);
        let inputs: [&[u8]; 1] = [&subject.bytes];
        let found = self.agreed("complement", &inputs, answer, expected, (&[&out], &scratch));
        let Some((answer, Wrapped(known))) = found else {
            return;
        };
        let written = checks::rule(out.written(answer.length)).expect("a rule file");
        let m = known.morphism();
        assert_eq!(written.morphism, *m, "complement of {inputs:?}");
        let outcomes = outcomes(known);
        let graded = m.linked_pairs().into_iter().map(|(s, e)| Mark {
            pair: (s, e),
            grade: 3 - outcomes[s as usize * m.n + e as usize],
        });
        let expected: Vec<Mark> = graded.filter(|mark| mark.grade > 0).collect();
        // both by s, then by e
        assert_eq!(
            written.marks, expected,
            "marks of the complement of {inputs:?}"
        );
        if let Err(fault) = self.ordered("complement", &written, false) {
            panic!("complement of {inputs:?}: {fault}");
        }
        self.rest(known, &written);
        self.count_marks("complement", &written.marks);
        self.tally.count("complement", "written");
    }

    /// Of some lassos: for each grade g, the complement accepts those at 4 − g that the rule does not accept at g.
    fn rest(&mut self, known: &Known, written: &Rule) {
        let m = known.morphism();
        let marking = Marking::new(m.n, &written.marks);
        for _ in 0..4 {
            let lengths = (self.random.within(0, 5), self.random.within(1, 7));
            let u = self.random.word(lengths.0, m.letters());
            let v = self.random.word(lengths.1, m.letters());
            for least in GRADES {
                let here = accepts(m, known.marking.level(least), &u, &v);
                let there = accepts(m, marking.level(4 - least), &u, &v);
                assert_eq!(there, !here, "{u:?} {v:?} at {least} of {:?}", known.rule);
            }
            self.tally.count("complement", "the rest at each grade");
        }
    }

    pub fn included(&mut self, subject: &Subject, second: &[u8], sizes: [usize; 3]) {
        let [mut u, mut v, mut scratch] = self.lend(sizes);
        let answer = duknavet::included(
            &subject.bytes,
            second,
            u.slice(),
            v.slice(),
            scratch.slice(),
        );
        let read = || -> Result<_, Refusal> {
            lengths(sizes, INCLUDED_SIZES)?;
            let known = subject.read.as_ref().map_err(|refusal| *refusal)?;
            let marks = checks::second(known.morphism(), second)?;
            Ok((Wrapped(known), marks))
        };
        let inputs: [&[u8]; 2] = [&subject.bytes, second];
        let found = self.agreed("included", &inputs, answer, read(), (&[&u, &v], &scratch));
        let Some((answer, (Wrapped(known), marks))) = found else {
            return;
        };
        let m = known.morphism();
        let other = Marking::new(m.n, &marks);
        let markings = (&known.marking, &other);
        let expected = self.settled_inclusion(known, markings);
        match answer {
            Inclusion::Included => {
                u.kept();
                v.kept();
                assert!(expected, "inclusion of {inputs:?}");
                self.tally.count("included", "included");
            }
            Inclusion::NotIncluded { u: i, v: j } => {
                let (u, v) = (u.written(i), v.written(j));
                assert!(!expected, "inclusion of {inputs:?}");
                assert!((1..=m.n).contains(&i), "u of {inputs:?} has {i} letters");
                let most = (m.n + 1) * (m.n + 1) - 1;
                assert!((1..=most).contains(&j), "v of {inputs:?} has {j} letters");
                let foreign = |a: &u8| *a as usize >= m.letters();
                assert!(!u.iter().chain(v).any(foreign), "{u:?} {v:?} of {inputs:?}");
                let (own, other) = (grade(m, markings.0, u, v), grade(m, markings.1, u, v));
                assert!(
                    own > other,
                    "{u:?} {v:?} of {inputs:?}: {own} is not above {other}"
                );
                self.tally.count("included", "not included");
                let ones = (markings.0.level(1), markings.1.level(1));
                if splits::included_at(m, ones.0, ones.1) {
                    self.tally
                        .count("included", "not included above grade 1 only");
                }
                if j >= 3 {
                    self.tally.count("included", "not included, v of 3 or more");
                }
            }
        }
    }

    /// Inclusion, as `settled` has strength.
    fn settled_inclusion(&mut self, known: &Known, markings: (&Marking, &Marking)) -> bool {
        let m = known.morphism();
        match cycles::included(m, markings, &known.words, known.cycles()) {
            Decided::Unknown => {
                self.tally.count("definitions", "inclusion by splits alone");
                splits::included(m, markings.0, markings.1)
            }
            decided => {
                let included = decided == Decided::Yes;
                if self.random.once_in(4) {
                    let again = splits::included(m, markings.0, markings.1);
                    assert_eq!(again, included, "the definitions disagree");
                    self.tally
                        .count("definitions", "inclusion by cycles and by splits");
                }
                included
            }
        }
    }
}

/// A rule that messages need not show: they show its bytes.
struct Wrapped<'a>(&'a Known);

impl std::fmt::Debug for Wrapped<'_> {
    fn fmt(&self, f: &mut std::fmt::Formatter<'_>) -> std::fmt::Result {
        write!(f, "a result")
    }
}

/// The grades of a strong rule's lassos, by their values.
pub fn outcomes(known: &Known) -> &[u8] {
    let find = || contexts::outcomes(known.morphism(), &known.marking, &known.words);
    known.outcomes.get_or_init(find)
}
