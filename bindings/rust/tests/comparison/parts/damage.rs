//! Damaged files: every cut, every byte changed to every other, grades that are none, several faults at once, and short buffers.

use crate::calls::*;
use crate::definitions::rule::{marks_section, Mark, Rule, GRADES};
use crate::inputs::{automata, marks, morphisms};
use crate::subject::Subject;
use duknavet::{Monitor, Operation, NONE, POINTS};

pub fn run(c: &mut Comparison, part: usize) {
    let rules = small_rules(c);
    // The byte changes of these files are shared out between the parts.
    for rule in rules.iter().skip(part).step_by(2) {
        every_damage(c, rule);
    }
    for rule in &rules {
        grade_bytes(c, rule);
    }
    for _ in 0..60 {
        let rule = random_rule(c);
        grade_bytes(c, &rule);
    }
    for _ in 0..6_000 {
        let rule = random_rule(c);
        let mut bytes = rule.bytes();
        damage(c, &mut bytes);
        let second = second_marks(c, &rule);
        any_call(c, &Subject::new(bytes), &second);
    }
    // Large files, damaged as the small ones are.
    for i in 0..400 {
        let m = match i % 8 {
            0 => morphisms::largest(&mut c.random, i / 8 % 5),
            _ => morphisms::any(&mut c.random, 64),
        };
        let marks = marks::mixed(&mut c.random, &m);
        let rule = m.with(marks);
        let mut bytes = rule.bytes();
        damage(c, &mut bytes);
        let second = second_marks(c, &rule);
        any_call(c, &Subject::new(bytes), &second);
    }
    for i in 0..4_000 {
        let states = match i % 4 {
            0 => 2,
            _ => c.random.within(1, 6),
        };
        let letters = c.random.within(1, 16);
        let automaton = automata::automaton(&mut c.random, states, letters, 3);
        let mut bytes = automaton.bytes();
        damage(c, &mut bytes);
        let sizes = match c.random.once_in(20) {
            true => c.short(AUTOMATON_SIZES),
            false => c.enough(AUTOMATON_SIZES),
        };
        c.automaton_rule(&bytes, sizes);
    }
}

fn random_rule(c: &mut Comparison) -> Rule {
    let m = morphisms::any(&mut c.random, 8);
    let marks = marks::mixed(&mut c.random, &m);
    m.with(marks)
}

/// Rules W and Z of document 01, with grade 3 and with every grade, and a few more.
fn small_rules(c: &mut Comparison) -> Vec<Rule> {
    let w = [2, 0, 0, 0, 1, 2, 0, 1, 1, 0, 0, 0, 3];
    let z = [2, 0, 1, 1, 0, 2, 1, 0, 1, 0, 0, 0, 3];
    let w_graded = [2, 0, 0, 0, 1, 2, 0, 1, 3, 0, 0, 0, 3, 0, 1, 2, 1, 1, 1];
    let read = |bytes: &[u8]| Subject::new(bytes.to_vec()).known().rule.clone();
    let mut rules = vec![read(&w), read(&z), read(&w_graded)];
    while rules.len() < 6 {
        let rule = random_rule(c);
        if rule.morphism.n >= 3 && rule.marks.len() >= 2 && rule.bytes().len() < 50 {
            rules.push(rule);
        }
    }
    rules
}

/// Every cut and every single-byte change of the rule, and of its marks as a second input.
fn every_damage(c: &mut Comparison, rule: &Rule) {
    let bytes = rule.bytes();
    let second = marks_section(&rule.marks);
    for cut in 0..=bytes.len() {
        let subject = Subject::new(bytes[..cut].to_vec());
        every_call(c, &subject, &second);
    }
    let whole = Subject::new(bytes.clone());
    for (at, value) in (0..bytes.len()).flat_map(|at| (0..=255).map(move |value| (at, value))) {
        let mut changed = bytes.clone();
        changed[at] = value;
        every_call(c, &Subject::new(changed), &second);
    }
    for cut in 0..=second.len() {
        c.included(&whole, &second[..cut], INCLUDED_SIZES);
    }
    for (at, value) in (0..second.len()).flat_map(|at| (0..=255).map(move |value| (at, value))) {
        let mut changed = second.clone();
        changed[at] = value;
        c.included(&whole, &changed, INCLUDED_SIZES);
    }
}

/// What can be wrong with the third byte of a mark: no grade, a file that ends before it, a pair that stands twice with two grades. Each in
/// the rule and in its marks as a second input.
fn grade_bytes(c: &mut Comparison, rule: &Rule) {
    if rule.marks.is_empty() {
        return;
    }
    let second = marks_section(&rule.marks);
    let whole = Subject::new(rule.bytes());
    let mark = *c.random.pick(&rule.marks);
    let mut each = |what: &str, number: u8, section: Vec<u8>| {
        let subject = Subject::new([rule.morphism.bytes(), section.clone()].concat());
        let found = subject.read.as_ref().err().map(|refusal| refusal.0);
        assert_eq!(found, Some(number), "{what} in {:?}", subject.bytes);
        every_call(c, &subject, &second);
        c.included(&whole, &section, INCLUDED_SIZES);
        c.tally.count("grade byte", what);
    };
    for at in (4..second.len()).step_by(3) {
        for (what, grade) in [("0", 0), ("4", 4), ("255", 255)] {
            let mut section = second.clone();
            section[at] = grade;
            each(what, 3, section);
        }
    }
    each("missing", 1, second[..second.len() - 1].to_vec());
    for grade in GRADES {
        let twice = [&rule.marks[..], &[Mark { grade, ..mark }]].concat();
        let what = match grade == mark.grade {
            true => "of a pair that stands twice",
            false => "of a pair that stands twice with another",
        };
        each(what, 8, marks_section(&twice));
    }
}

/// A marks section, often damaged.
fn second_marks(c: &mut Comparison, rule: &Rule) -> Vec<u8> {
    let marks = marks::mixed(&mut c.random, &rule.morphism);
    let mut second = marks_section(&marks);
    if c.random.once_in(2) {
        damage(c, &mut second);
    }
    second
}

/// One to three faults: bytes changed to numbers near what is allowed or to any, bytes cut off or added, entries repeated.
fn damage(c: &mut Comparison, bytes: &mut Vec<u8>) {
    for _ in 0..c.random.within(1, 3) {
        if bytes.is_empty() {
            return;
        }
        let at = c.random.below(bytes.len());
        match c.random.below(8) {
            0 => bytes.truncate(at),
            1 => bytes.push(c.random.below(256) as u8),
            2 => bytes[at] = c.random.below(256) as u8,
            3 => bytes[at] = bytes[at].wrapping_add(1),
            4 => {
                let from = c.random.below(bytes.len());
                bytes[at] = bytes[from];
            }
            5 => bytes[at] = *c.random.pick(&[0, 1, 2, 3, 4, 6, 7, 16, 17, 64, 65]),
            6 => {
                let last = bytes.len() - 1;
                bytes.swap(at, last)
            }
            _ => bytes[at] = c.random.below(4) as u8,
        }
    }
}

/// Every call that gets a rule, on one that may have any fault.
fn every_call(c: &mut Comparison, subject: &Subject, second: &[u8]) {
    for which in 0..CALLS {
        call(c, which, subject, second);
    }
}

/// One of them.
fn any_call(c: &mut Comparison, subject: &Subject, second: &[u8]) {
    let which = c.random.below(CALLS);
    call(c, which, subject, second);
}

/// How many calls get a rule.
const CALLS: usize = 19;

/// A call by number, with further inputs that may be faulty too, and buffers that may be short.
fn call(c: &mut Comparison, which: usize, subject: &Subject, second: &[u8]) {
    let (n, letters) = match &subject.read {
        Ok(known) => (known.morphism().n, known.morphism().letters()),
        Err(_) => (2, 2),
    };
    let lengths = (c.random.below(5), c.random.below(5));
    let (u, v) = (
        c.random.word(lengths.0, letters + 1),
        c.random.word(lengths.1, letters + 1),
    );
    let mut value = || *c.random.pick(&[0, n - 1, n - 1, n - 1, n, NONE]);
    let monitor = Monitor {
        before: value(),
        since: value(),
    };
    let letter = c.random.below(letters + 1) as u8;
    let name = c.random.below(9);
    let state = (*c.random.pick(&[0, n - 1, n, NONE]), c.random.below(n + 1));
    let least = c.random.below(5) as u8;
    let limit = *c.random.pick(&[0, 1, 2, 63, 64, 64, 65]);
    let mut points = [0; POINTS];
    for bytes in points.chunks_mut(3) {
        bytes[0] = *c.random.pick(&[0, 0, 0, 1, 2, 255]);
        bytes[1..].fill_with(|| *c.random.pick(&[0, n - 1, n - 1, n - 1, n - 1, n, NONE]) as u8);
    }
    let short = c.random.once_in(20);
    fn sizes<const N: usize>(c: &mut Comparison, short: bool, least: [usize; N]) -> [usize; N] {
        match short {
            true => c.short(least),
            false => c.enough(least),
        }
    }
    match which {
        0 => {
            let sizes = sizes(c, short, CLASSES_SIZES);
            c.classes(subject, sizes)
        }
        1 => {
            let sizes = sizes(c, short, STRONG_SIZES);
            c.strong(subject, sizes)
        }
        2 => {
            let sizes = sizes(c, short, MEMBER_SIZES);
            c.member(subject, &u, &v, sizes)
        }
        3 => {
            let sizes = sizes(c, short, COMPLEMENT_SIZES);
            c.complement(subject, sizes)
        }
        4 => {
            let sizes = sizes(c, short, INCLUDED_SIZES);
            c.included(subject, second, sizes)
        }
        5 => {
            let sizes = sizes(c, short, MONITOR_SIZES);
            c.event(subject, monitor, letter, sizes);
        }
        6 => {
            let sizes = sizes(c, short, MONITOR_SIZES);
            c.mark(subject, monitor, sizes);
        }
        7 => {
            let sizes = sizes(c, short, MONITOR_SIZES);
            c.verdict(subject, monitor, sizes)
        }
        15 => {
            for step in [Step::Event(letter), Step::Mark, Step::Stay, Step::Word(&u)] {
                let sizes = sizes(c, short, MONITOR_SIZES);
                c.advance(subject, monitor, step, sizes);
            }
        }
        8 => {
            let sizes = sizes(c, short, POINTS_SIZES);
            c.keep(subject, monitor, name, &mut points, sizes);
        }
        9 => {
            let sizes = sizes(c, short, POINTS_SIZES);
            c.return_to(subject, monitor, name, &points, sizes);
        }
        10 => {
            let sizes = sizes(c, short, REDUCE_SIZES);
            c.reduce(subject, sizes)
        }
        11 => {
            let sizes = sizes(c, short, KIND_SIZES);
            c.state_kind(subject, state, least, sizes);
        }
        13 => {
            let sizes = sizes(c, short, COMBINE_SIZES);
            let whole = Subject::new(vec![1, 0, 1, 0, 0, 0]);
            let pair = match c.random.once_in(2) {
                true => (subject, &whole),
                false => (&whole, subject),
            };
            c.combine(pair, Operation::Either, sizes);
        }
        16 => {
            let sizes = sizes(c, short, NEXT_SIZES);
            c.next(subject, sizes);
        }
        17 => {
            let sizes = sizes(c, short, UNTIL_SIZES);
            let whole = Subject::new(vec![1, 0, 1, 0, 0, 0]);
            let pair = match c.random.once_in(2) {
                true => (subject, &whole),
                false => (&whole, subject),
            };
            c.until(pair, sizes);
        }
        14 => {
            let sizes = sizes(c, short, CONFIRM_SIZES);
            // A weak rule beside it too: whatever is wrong with either file comes before 12, and that before the map.
            let weak = vec![2, 0, 1, 1, 0, 2, 1, 0, 1, 0, 0, 0, 3];
            let whole = match c.random.once_in(2) {
                true => Subject::new(vec![1, 0, 1, 0, 0, 0]),
                false => Subject::new(weak),
            };
            let pair = match c.random.once_in(2) {
                true => (subject, &whole),
                false => (&whole, subject),
            };
            let length = *c.random.pick(&[0, 1, n, n, n + 1, 64, 65]);
            let map = c.random.word(length, 2);
            c.confirm(pair, &map, sizes);
        }
        12 => {
            let sizes = sizes(c, short, SUCCESSORS_SIZES);
            c.successors(subject, state, letter, sizes);
        }
        _ => {
            let sizes = sizes(c, short, ROUNDS_SIZES);
            c.reduce_rounds(subject, limit, sizes);
        }
    }
}
