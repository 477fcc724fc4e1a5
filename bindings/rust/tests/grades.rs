//! The comparison's engine apart, held against itself on small rules of every kind: what it decides quickly, and what the definitions
//! say word by word.

// The engine apart and its inputs, of which only a part is used here.
#[allow(dead_code)]
#[path = "comparison/definitions/mod.rs"]
mod definitions;
#[allow(dead_code)]
#[path = "comparison/inputs/mod.rs"]
mod inputs;
#[allow(dead_code)]
#[path = "comparison/random.rs"]
mod random;

use definitions::acceptance::{accepts, accepts_literally, grade, grade_literally, Marking};
use definitions::checks;
use definitions::conjugacy::closure;
use definitions::contexts;
use definitions::cycles::{all_words, cycles, included, strong, Cycles, Decided};
use definitions::rule::{Mark, Morphism, Rule, GRADES};
use definitions::splits;
use inputs::{marks, morphisms};
use random::Random;

/// A rule with what is asked of it again and again.
struct Subject {
    rule: Rule,
    marking: Marking,
    words: Vec<Vec<u8>>,
    cycles: Cycles,
}

impl Subject {
    fn new(rule: Rule) -> Subject {
        let m = &rule.morphism;
        Subject {
            marking: Marking::new(m.n, &rule.marks),
            words: m.words().into_iter().flatten().collect(),
            cycles: cycles(m, 400),
            rule,
        }
    }

    fn strong(&self) -> bool {
        splits::strong(&self.rule.morphism, &self.marking)
    }
}

/// Rules of at most `most` elements.
fn subjects(seed: u64, most: usize, count: usize) -> Vec<Subject> {
    let mut random = Random::new(seed);
    let one = |_| {
        let m = morphisms::any(&mut random, most);
        let marks = marks::mixed(&mut random, &m);
        Subject::new(m.with(marks))
    };
    (0..count).map(one).collect()
}

/// Short lassos, with and without a start.
fn lassos(m: &Morphism) -> Vec<(Vec<u8>, Vec<u8>)> {
    let mut starts = all_words(m.letters(), 2);
    starts.push(Vec::new());
    let turns = all_words(m.letters(), 3);
    let each = starts
        .iter()
        .flat_map(|u| turns.iter().map(move |v| (u.clone(), v.clone())));
    each.collect()
}

#[test]
fn grades_are_the_highest_of_all_writings() {
    let mut found = [0; 4];
    for Subject { rule, marking, .. } in subjects(1, 4, 120) {
        let m = &rule.morphism;
        for (u, v) in lassos(m) {
            let own = grade(m, &marking, &u, &v);
            assert_eq!(grade_literally(m, &marking, &u, &v), own, "{rule:?}");
            for least in GRADES {
                let level = marking.level(least);
                assert_eq!(accepts(m, level, &u, &v), least <= own, "{rule:?}");
                assert_eq!(accepts_literally(m, level, &u, &v), least <= own);
            }
            found[own as usize] += 1;
        }
    }
    assert!(found.iter().all(|count| *count > 100), "{found:?}");
}

#[test]
fn strong_is_strong_at_each_grade() {
    let (mut weak, mut above) = (0, 0);
    for subject in subjects(2, 8, 600) {
        let m = &subject.rule.morphism;
        let decided = strong(m, &subject.marking, &subject.words, &subject.cycles);
        let at = |least: u8| splits::strong_at(m, subject.marking.level(least));
        let each = GRADES.map(at);
        assert_eq!(subject.strong(), each == [true; 3], "{:?}", subject.rule);
        if decided != Decided::Unknown {
            let strong = decided == Decided::Yes;
            assert_eq!(subject.strong(), strong, "{:?}", subject.rule);
        }
        // Each level by itself, as a marking of one grade: document 01's own strength.
        for (least, strong_here) in GRADES.into_iter().zip(each) {
            let kept = subject.rule.marks.iter().filter(|mark| mark.grade >= least);
            let marks: Vec<Mark> = kept.map(|mark| Mark { grade: 1, ..*mark }).collect();
            let one = Marking::new(m.n, &marks);
            let decided = strong(m, &one, &subject.words, &subject.cycles);
            if decided != Decided::Unknown {
                assert_eq!(decided == Decided::Yes, strong_here, "{:?}", subject.rule);
            }
        }
        weak += usize::from(!subject.strong());
        above += usize::from(!subject.strong() && each[0]);
    }
    assert!(weak > 40 && above > 10, "{weak} {above}");
}

#[test]
fn closed_markings_are_strong() {
    for subject in subjects(3, 8, 300) {
        let m = &subject.rule.morphism;
        let closed = closure(m, &subject.rule.marks);
        let marking = Marking::new(m.n, &closed);
        assert!(splits::strong(m, &marking), "{:?}", subject.rule);
        assert_eq!(closure(m, &closed), closed);
        // The closure of a strong rule gives the same grades, and that of any rule none that is lower.
        for (u, v) in lassos(m) {
            let (own, other) = (
                grade(m, &subject.marking, &u, &v),
                grade(m, &marking, &u, &v),
            );
            assert!(own <= other && (own == other || !subject.strong()));
        }
    }
}

#[test]
fn inclusion_compares_every_grade() {
    let mut random = Random::new(4);
    let (mut no, mut above) = (0, 0);
    for subject in subjects(5, 8, 600) {
        let m = &subject.rule.morphism;
        let second = marks::second(&mut random, m, &subject.rule.marks);
        let markings = (&subject.marking, &Marking::new(m.n, &second));
        let by_splits = splits::included(m, markings.0, markings.1);
        let decided = included(m, markings, &subject.words, &subject.cycles);
        if decided != Decided::Unknown {
            assert_eq!(by_splits, decided == Decided::Yes, "{:?}", subject.rule);
        }
        for (u, v) in lassos(m) {
            let grades = (grade(m, markings.0, &u, &v), grade(m, markings.1, &u, &v));
            assert!(!by_splits || grades.0 <= grades.1, "{:?}", subject.rule);
        }
        let at_one = splits::included_at(m, markings.0.level(1), markings.1.level(1));
        no += usize::from(!by_splits);
        above += usize::from(!by_splits && at_one);
    }
    assert!(no > 100 && above > 20, "{no} {above}");
}

/// The strong ones of many rules, with the grades of their lassos by values.
fn strong_subjects(seed: u64) -> impl Iterator<Item = (Subject, Vec<u8>)> {
    let strong = subjects(seed, 6, 400).into_iter().filter(Subject::strong);
    strong.map(|subject| {
        let outcomes = contexts::outcomes(&subject.rule.morphism, &subject.marking, &subject.words);
        (subject, outcomes)
    })
}

/// Marks of the linked pairs that have a grade of 1 or more.
fn marks_of(m: &Morphism, grade: impl Fn(u8, u8) -> u8) -> Vec<Mark> {
    let each = m.linked_pairs().into_iter().map(|pair| Mark {
        pair,
        grade: grade(pair.0, pair.1),
    });
    each.filter(|mark| mark.grade > 0).collect()
}

#[test]
fn the_complement_has_the_rest_at_each_grade() {
    let mut written = [0; 4];
    for (subject, outcomes) in strong_subjects(6) {
        let m = &subject.rule.morphism;
        let marks = marks_of(m, |s, e| 3 - outcomes[s as usize * m.n + e as usize]);
        let complement = Subject::new(m.with(marks));
        assert!(complement.strong(), "{:?}", subject.rule);
        for (u, v) in lassos(m) {
            let here = grade(m, &subject.marking, &u, &v);
            let there = grade(m, &complement.marking, &u, &v);
            assert_eq!(there, 3 - here, "{u:?} {v:?} of {:?}", subject.rule);
            for least in GRADES {
                assert_eq!(4 - least <= there, least > here);
            }
        }
        for mark in &complement.rule.marks {
            written[mark.grade as usize] += 1;
        }
    }
    assert!(written[1..].iter().all(|count| *count > 50), "{written:?}");
}

#[test]
fn the_table_of_the_classes_gives_the_same_grades() {
    let mut smaller = 0;
    for (subject, outcomes) in strong_subjects(7) {
        let m = &subject.rule.morphism;
        let (class, count) = contexts::classes(m, &outcomes);
        let leader = |c: usize| class.iter().position(|own| *own == c).expect("a class");
        let leaders: Vec<usize> = (0..count).map(leader).collect();
        let product = |c: usize, d: usize| {
            let product = m.product(leaders[c] as u8, leaders[d] as u8);
            class[product as usize] as u8
        };
        // Products of classes are those of any of their elements.
        for (s, t) in (0..m.n).flat_map(|s| (0..m.n).map(move |t| (s, t))) {
            let own = class[m.product(s as u8, t as u8) as usize] as u8;
            assert_eq!(own, product(class[s], class[t]), "{:?}", subject.rule);
        }
        let quotient = Morphism {
            n: count,
            table: (0..count * count)
                .map(|at| product(at / count, at % count))
                .collect(),
            images: m.images.iter().map(|s| class[*s as usize] as u8).collect(),
        };
        let marks = marks_of(&quotient, |s, e| {
            outcomes[leaders[s as usize] * m.n + leaders[e as usize]]
        });
        let reduced = Subject::new(quotient.with(marks));
        assert_eq!(
            checks::rule(&reduced.rule.bytes()),
            Ok(reduced.rule.clone())
        );
        assert!(reduced.strong(), "{:?}", subject.rule);
        for (u, v) in lassos(m) {
            let own = grade(m, &subject.marking, &u, &v);
            assert_eq!(grade(&quotient, &reduced.marking, &u, &v), own);
        }
        smaller += usize::from(count < m.n);
    }
    assert!(smaller > 50, "{smaller}");
}

#[test]
fn every_file_is_read_as_it_was_written() {
    for Subject { rule, .. } in subjects(8, 8, 200) {
        let bytes = rule.bytes();
        assert_eq!(checks::rule(&bytes), Ok(rule.clone()));
        // A grade byte is checked where it stands, and a pair is one pair whatever its grades.
        let begin = bytes.len() - 3 * rule.marks.len();
        for i in 0..rule.marks.len() {
            for byte in (0..=255).filter(|byte| !GRADES.contains(byte)) {
                let mut changed = bytes.clone();
                changed[begin + 3 * i + 2] = byte;
                let place = (begin + 3 * i + 2) as u64;
                assert_eq!(checks::rule(&changed), Err((3, 1, place)));
            }
            for grade in GRADES {
                let mut twice = rule.clone();
                let pair = rule.marks[i].pair;
                twice.marks.push(Mark { pair, grade });
                let place = bytes.len() as u64;
                assert_eq!(checks::rule(&twice.bytes()), Err((8, 1, place)));
            }
        }
    }
}
