//! Small rules of every kind, every call on each.

use crate::calls::*;
use crate::definitions::acceptance::grade;
use crate::definitions::cycles::{differing_lassos, Decided};
use crate::definitions::rule::{marks_section, Morphism};
use crate::definitions::settling::turns;
use crate::inputs::{marks, morphisms};
use crate::parts::logs;
use crate::subject::Subject;
use duknavet::{Monitor, Verdict, NONE, SCRATCH};
use std::cell::OnceCell;
use std::rc::Rc;

pub fn run(c: &mut Comparison, count: usize) {
    for i in 0..count {
        let limit = if i % 5 == 0 { 14 } else { 8 };
        let m = morphisms::any(&mut c.random, limit);
        over(c, &m);
    }
    // One letter only: there is one endless word, so every marking is strong, closed or not.
    for _ in 0..count / 5 {
        let (index, period) = (c.random.within(1, 5), c.random.within(2, 6));
        let m = morphisms::monogenic(&mut c.random, index, period, 1).expect("small");
        over(c, &m);
    }
}

/// Some markings of one morphism.
fn over(c: &mut Comparison, m: &Morphism) {
    let cycles = Rc::new(OnceCell::new());
    for round in 0..4 {
        let marks = marks::mixed(&mut c.random, m);
        let subject = Subject::sharing(m.with(marks).bytes(), cycles.clone());
        assert!(
            subject.read.is_ok(),
            "the definitions refuse {:?}",
            subject.bytes
        );
        every_call(c, &subject);
        if round == 0 {
            let sizes = c.enough(CLASSES_SIZES);
            c.classes(&subject, sizes);
        }
    }
}

/// Every call that gets a rule, on inputs that pass.
pub fn every_call(c: &mut Comparison, subject: &Subject) {
    let known = subject.known();
    let (m, letters) = (known.morphism(), known.morphism().letters());
    c.strong(subject, STRONG_SIZES);
    // The search for cycles and all short words agree on strength, for rules small enough for both.
    if m.n <= 4 && letters <= 2 && c.random.once_in(4) {
        let differ = differing_lassos(m, &known.marking, 3, 6);
        assert!(
            !differ || *known.decided() == Decided::No,
            "{:?}",
            subject.bytes
        );
        let outcome = if differ { "differ" } else { "do not differ" };
        c.tally.count("all short lassos", outcome);
    }
    let sizes = c.enough(COMPLEMENT_SIZES);
    c.complement(subject, sizes);
    let sizes = c.enough(REDUCE_SIZES);
    c.reduce(subject, sizes);
    let (limit, sizes) = (c.random.below(4), c.enough(ROUNDS_SIZES));
    c.reduce_rounds(subject, limit, sizes);
    for _ in 0..4 {
        let most = if c.random.once_in(4) { 40 } else { 6 };
        let lengths = (c.random.within(0, most), c.random.within(1, most));
        let (u, v) = (
            c.random.word(lengths.0, letters),
            c.random.word(lengths.1, letters),
        );
        let sizes = c.enough(MEMBER_SIZES);
        c.member(subject, &u, &v, sizes);
    }
    let second = marks::second(&mut c.random, m, &known.rule.marks);
    let sizes = c.enough(INCLUDED_SIZES);
    c.included(subject, &marks_section(&second), sizes);
    let mut value = |n: usize| {
        if c.random.once_in(5) {
            NONE
        } else {
            c.random.below(n)
        }
    };
    let monitor = Monitor {
        before: value(m.n),
        since: value(m.n),
    };
    let letter = c.random.below(letters) as u8;
    let sizes = c.enough(MONITOR_SIZES);
    c.event(subject, monitor, letter, sizes);
    c.mark(subject, monitor, sizes);
    c.verdict(subject, monitor, sizes);
    for step in [Step::Event(letter), Step::Mark, Step::Stay] {
        c.advance(subject, monitor, step, sizes);
    }
    let length = c.random.below(6);
    let foreign = usize::from(c.random.once_in(8));
    let word = c.random.word(length, letters + foreign);
    c.advance_both_ways(subject, monitor, &word);
    if c.random.once_in(4) {
        history(c, subject);
        logs::run(c, subject);
    }
}

/// A history of events and marks from a fresh monitor on: its values are those of the words that the history leaves, and the verdict is
/// that of the lasso of these words.
fn history(c: &mut Comparison, subject: &Subject) {
    let known = subject.known();
    let (m, letters) = (known.morphism(), known.morphism().letters());
    let (mut before, mut since) = (Vec::new(), Vec::new());
    let mut monitor = duknavet::fresh();
    for _ in 0..c.random.below(14) {
        let moved = match c.random.once_in(4) {
            true => {
                before.append(&mut since);
                c.mark(subject, monitor, MONITOR_SIZES)
            }
            false => {
                since.push(c.random.below(letters) as u8);
                c.event(subject, monitor, since[since.len() - 1], MONITOR_SIZES)
            }
        };
        monitor = moved.expect("nothing to refuse");
    }
    let value = |word: &[u8]| match word.is_empty() {
        true => NONE,
        false => m.value(word) as usize,
    };
    let expected = (value(&before), value(&since));
    assert_eq!(
        (monitor.before, monitor.since),
        expected,
        "history of {before:?} {since:?}"
    );
    c.tally.count("monitor", "histories");
    if !since.is_empty() && c.settled(subject) {
        let answer = duknavet::verdict(&subject.bytes, monitor, &mut vec![0; SCRATCH]);
        let expected = Verdict {
            grade: grade(m, &known.marking, &before, &since),
            turns: turns(m, &since),
        };
        assert_eq!(answer, Ok(expected), "verdict of {before:?} {since:?}");
        c.tally.count("monitor", "verdicts on histories");
        if before.is_empty() {
            c.tally.count("monitor", "verdicts without a mark");
        }
    }
}
