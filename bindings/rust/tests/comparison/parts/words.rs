//! Long words, words of lengths that are refused, foreign letters, and bad monitors.

use crate::calls::*;
use crate::inputs::{marks, morphisms};
use crate::subject::Subject;
use duknavet::{Monitor, LOG, NONE, POINTS, WORD};

pub fn run(c: &mut Comparison, count: usize) {
    logs(c);
    for i in 0..count {
        let m = match i % 4 {
            0 => morphisms::largest(&mut c.random, i / 4),
            _ => morphisms::any(&mut c.random, 20),
        };
        let marks = marks::mixed(&mut c.random, &m);
        let subject = Subject::new(m.with(marks).bytes());
        long_words(c, &subject);
        lengths(c, &subject);
        for _ in 0..4 {
            foreign_letters(c, &subject);
            monitors(c, &subject);
        }
    }
}

/// The longest word of events, whole and with a foreign letter at its end, and one letter more, which is looked at before the letters.
fn logs(c: &mut Comparison) {
    let (letter, foreign) = (0, 2);
    let subject = Subject::new(vec![2, 0, 0, 0, 1, 2, 0, 1, 1, 0, 0, 0, 3]);
    let mut word = vec![letter; LOG];
    for since in [1, NONE] {
        let monitor = Monitor { before: 1, since };
        c.advance(&subject, monitor, Step::Word(&word), MONITOR_SIZES);
    }
    word[LOG - 1] = foreign;
    let monitor = Monitor {
        before: 0,
        since: 1,
    };
    c.advance(&subject, monitor, Step::Word(&word), MONITOR_SIZES);
    word.push(foreign);
    c.advance(&subject, monitor, Step::Word(&word), MONITOR_SIZES);
}

fn long_words(c: &mut Comparison, subject: &Subject) {
    let letters = subject.known().morphism().letters();
    let long = c.random.word(WORD, letters);
    let short = c.random.word(3, letters);
    let turn = c.random.within(1, 9);
    let repeated: Vec<u8> = c
        .random
        .word(turn, letters)
        .into_iter()
        .cycle()
        .take(WORD)
        .collect();
    let other = c.random.within(4_000, WORD - 1);
    let fresh = duknavet::fresh();
    c.advance(subject, fresh, Step::Word(&long), MONITOR_SIZES);
    c.advance(subject, fresh, Step::Word(&repeated), MONITOR_SIZES);
    c.member(subject, &long, &short, MEMBER_SIZES);
    c.member(subject, &short, &long, MEMBER_SIZES);
    c.member(subject, &[], &long, MEMBER_SIZES);
    c.member(subject, &long, &repeated, MEMBER_SIZES);
    c.member(subject, &repeated, &long[..other], MEMBER_SIZES);
}

fn lengths(c: &mut Comparison, subject: &Subject) {
    let letters = subject.known().morphism().letters();
    let long = c.random.word(WORD + 1, letters);
    let bad = long.iter().map(|_| letters as u8).collect::<Vec<u8>>();
    for (i, j) in [
        (0, 1),
        (1, 0),
        (0, 0),
        (WORD + 1, 1),
        (1, WORD + 1),
        (WORD + 1, 0),
        (0, WORD + 1),
    ] {
        // Lengths come before letters, and u before v.
        c.member(subject, &long[..i], &long[..j], MEMBER_SIZES);
        c.member(subject, &bad[..i], &bad[..j], MEMBER_SIZES);
    }
}

fn foreign_letters(c: &mut Comparison, subject: &Subject) {
    let letters = subject.known().morphism().letters();
    let lengths = (c.random.within(1, 30), c.random.within(1, 30));
    let mut words = [
        c.random.word(lengths.0, letters),
        c.random.word(lengths.1, letters),
    ];
    for _ in 0..c.random.within(1, 3) {
        let word = &mut words[c.random.below(2)];
        let at = c.random.below(word.len());
        word[at] = c.random.within(letters, 255) as u8;
    }
    let [u, v] = words;
    c.member(subject, &u, &v, MEMBER_SIZES);
    // The first letter that a rule does not have, at the end of the longest word.
    let mut long = c.random.word(WORD, letters);
    long[WORD - 1] = letters as u8;
    c.member(subject, &u, &long, MEMBER_SIZES);
    c.member(subject, &long, &v, MEMBER_SIZES);
}

fn monitors(c: &mut Comparison, subject: &Subject) {
    let (n, letters) = (
        subject.known().morphism().n,
        subject.known().morphism().letters(),
    );
    let values = [
        0,
        n - 1,
        n,
        63,
        NONE,
        NONE + 1,
        255,
        256,
        320,
        65_536,
        65_600,
        usize::MAX - 63,
        usize::MAX,
        usize::MAX / 2 + 1,
    ];
    for _ in 0..6 {
        let monitor = Monitor {
            before: *c.random.pick(&values),
            since: *c.random.pick(&values),
        };
        let letter = *c.random.pick(&[0, letters - 1, letters, 16, 128, 255]) as u8;
        c.event(subject, monitor, letter, MONITOR_SIZES);
        c.mark(subject, monitor, MONITOR_SIZES);
        c.verdict(subject, monitor, MONITOR_SIZES);
        for step in [Step::Event(letter), Step::Mark, Step::Stay] {
            c.advance(subject, monitor, step, MONITOR_SIZES);
        }
        let name = *c.random.pick(&[0, 7, 8, 255, 256, usize::MAX]);
        let mut points = [0; POINTS];
        let at = 3 * c.random.below(8);
        points[at] = c.random.below(2) as u8;
        points[at + 1] = *c.random.pick(&values) as u8;
        points[at + 2] = *c.random.pick(&values) as u8;
        c.return_to(subject, monitor, name, &points, POINTS_SIZES);
        c.keep(subject, monitor, name, &mut points, POINTS_SIZES);
    }
}
