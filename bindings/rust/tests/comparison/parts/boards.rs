//! Boards: rules that enter and leave while events go on, refused deeds among them. The lowest grade is worked out anew after every
//! deed, from the files and the words that came since each entered; then boards that nobody was led to, with spoilt files.

use crate::calls::*;
use crate::definitions::acceptance::grade;
use crate::definitions::boards::{self, NAMES, NO_GRADE, SLOT, STATE};
use crate::inputs::{marks, morphisms};
use crate::subject::Subject;
use duknavet::{BOARD_FILES, NONE};
use std::rc::Rc;

/// A rule that is present, and what it has heard since it entered: the letters before its last mark, and those since.
struct Present {
    rule: Rc<Subject>,
    before: Vec<u8>,
    since: Vec<u8>,
}

type Standing = [Option<Present>; NAMES];

pub fn run(c: &mut Comparison, count: usize, half: usize) {
    assert_eq!(NAMES * SLOT, BOARD_FILES, "the sizes of a board");
    let mut subjects = Subjects::default();
    for i in 0..count {
        let stock = stock(c, i);
        log(c, &stock, &mut subjects);
    }
    for _ in 0..count {
        let stock = stock(c, 1);
        for _ in 0..8 {
            made_up(c, &stock, &mut subjects);
        }
    }
    for round in 0..4 {
        every_refusal(c, round, &mut subjects);
    }
    let kinds = (half..morphisms::KINDS).step_by(2);
    let largest: Vec<Rc<Subject>> = kinds.map(|kind| largest(c, kind)).collect();
    for _ in 0..4 {
        log(c, &largest, &mut subjects);
    }
}

/// Files to enter with: strong ones, for the most part with the same letters; weak and damaged ones.
fn stock(c: &mut Comparison, i: usize) -> Vec<Rc<Subject>> {
    let mut stock = Vec::new();
    while stock.len() < 9 {
        let m = morphisms::any(&mut c.random, if i % 5 == 0 { 16 } else { 7 });
        let drawn = match stock.len() % 3 {
            0 => marks::mixed(&mut c.random, &m),
            _ => marks::closed(&mut c.random, &m),
        };
        let mut bytes = m.with(drawn).bytes();
        if stock.len() == 8 {
            let at = c.random.below(bytes.len());
            match c.random.below(3) {
                0 => bytes.truncate(at),
                1 => bytes[at] = c.random.below(256) as u8,
                _ => bytes.push(0),
            }
        }
        stock.push(Rc::new(Subject::new(bytes)));
    }
    stock
}

fn largest(c: &mut Comparison, kind: usize) -> Rc<Subject> {
    let m = morphisms::largest(&mut c.random, kind);
    let drawn = marks::closed(&mut c.random, &m);
    Rc::new(Subject::new(m.with(drawn).bytes()))
}

fn sizes(c: &mut Comparison, seldom: usize) -> [usize; 2] {
    match c.random.once_in(seldom) {
        true => c.short(BOARD_SIZES),
        false => c.enough(BOARD_SIZES),
    }
}

fn deed(c: &mut Comparison, stock: &[Rc<Subject>], letters: usize) -> Deed {
    // Names above 7 too, and far above.
    let name = match c.random.once_in(40) {
        true => usize::MAX - c.random.below(9),
        false => c.random.below(10),
    };
    match c.random.below(16) {
        0..=3 => Deed::Enter(name, c.random.pick(stock).clone()),
        4..=5 => Deed::Leave(name),
        6..=7 => Deed::Mark,
        8 => Deed::Event(c.random.below(256) as u8),
        _ => Deed::Event(c.random.below(letters) as u8),
    }
}

/// Deeds from an empty board. Between them bytes that belong to no rule present are changed, behind a file's end and where nobody is.
fn log(c: &mut Comparison, stock: &[Rc<Subject>], subjects: &mut Subjects) {
    let mut held = Held {
        state: duknavet::Board::empty().state(),
        files: (0..BOARD_FILES).map(|i| (i * 7 % 251) as u8).collect(),
    };
    assert_eq!(
        held.state,
        boards::state(&boards::slots(&held.state), NO_GRADE)
    );
    assert!(held.state[..STATE - 1]
        .chunks(3)
        .all(|name| name == [0, 64, 64]));
    let mut standing = Standing::default();
    let letters = stock.iter().map(|rule| boards::letters(&rule.bytes));
    let letters = letters.min().unwrap_or(1).max(1);
    // Now and then everybody enters first.
    let mut opening = match c.random.once_in(3) {
        true => everybody(c, stock),
        false => Vec::new(),
    };
    for _ in 0..c.random.within(10, 60) {
        elsewhere(c, &mut held, &standing);
        let deed = opening.pop().unwrap_or_else(|| deed(c, stock, letters));
        let sizes = sizes(c, 30);
        let (call, given) = (deed.call(), held.state);
        let done = c.board(&mut held, &deed, subjects, sizes);
        if done.is_some() {
            hear(c, &mut standing, &deed);
        } else {
            assert_eq!(held.state, given, "a refused {call}");
        }
        let anew = grade_anew(c, &standing);
        assert_eq!(held.state[STATE - 1], anew, "the lowest grade after {call}");
        for (name, present) in standing.iter().enumerate() {
            let stands = present.as_ref().map(|present| &present.rule.bytes[..]);
            let there = held.state[3 * name] != 0;
            assert_eq!(stands.is_some(), there, "who is present after {call}");
            if let Some(bytes) = stands {
                assert!(
                    boards::file(&held.files, name) == bytes,
                    "a file on a board"
                );
            }
        }
    }
    let present = standing.iter().flatten().count();
    c.tally
        .count("board", format!("logs that end with {present} present"));
}

/// A strong rule for each name.
fn everybody(c: &mut Comparison, stock: &[Rc<Subject>]) -> Vec<Deed> {
    let strong = strong(c, stock);
    if strong.is_empty() {
        return Vec::new();
    }
    let enter = |name: usize| Deed::Enter(name, c.random.pick(&strong).clone());
    (0..NAMES).map(enter).collect()
}

fn strong(c: &mut Comparison, stock: &[Rc<Subject>]) -> Vec<Rc<Subject>> {
    let good = stock.iter().filter(|rule| rule.read.is_ok());
    good.filter(|rule| c.settled(rule)).cloned().collect()
}

fn hear(c: &mut Comparison, standing: &mut Standing, deed: &Deed) {
    match deed {
        Deed::Enter(name, rule) => {
            standing[*name] = Some(Present {
                rule: rule.clone(),
                before: Vec::new(),
                since: Vec::new(),
            })
        }
        Deed::Leave(name) => standing[*name] = None,
        Deed::Event(letter) => {
            let present = standing.iter_mut().flatten();
            present.for_each(|present| present.since.push(*letter));
        }
        Deed::Mark => {
            for present in standing.iter_mut().flatten() {
                present.before.append(&mut present.since);
            }
        }
    }
    if standing.iter().flatten().count() == NAMES {
        c.tally.count("board", "all names present");
    }
}

/// The lowest grade of the lassos that the rules present have heard, by their files and letters alone.
fn grade_anew(c: &mut Comparison, standing: &Standing) -> u8 {
    let present = standing.iter().flatten();
    let heard = present.filter(|present| !present.since.is_empty());
    let grades = heard.map(|present| {
        let known = present.rule.known();
        let m = known.morphism();
        grade(m, &known.marking, &present.before, &present.since)
    });
    let lowest = grades.min().unwrap_or(NO_GRADE);
    c.tally.count("board", format!("worked out anew: {lowest}"));
    lowest
}

/// Changes bytes that no rule present reads.
fn elsewhere(c: &mut Comparison, held: &mut Held, standing: &Standing) {
    for _ in 0..c.random.below(4) {
        let name = c.random.below(NAMES);
        let used = standing[name]
            .as_ref()
            .map_or(0, |own| own.rule.bytes.len());
        if used < SLOT {
            let at = match c.random.once_in(2) {
                true => used,
                false => c.random.within(used, SLOT - 1),
            };
            held.files[name * SLOT + at] = c.random.below(256) as u8;
            let what = match standing[name] {
                Some(_) => "a byte behind a file changed",
                None => "a byte of nobody's changed",
            };
            c.tally.count("board", what);
        }
    }
}

/// A state and files that no calls led to: any flags, any values of monitors, files whole and spoilt.
fn made_up(c: &mut Comparison, stock: &[Rc<Subject>], subjects: &mut Subjects) {
    let fill = c.random.below(256) as u8;
    let mut held = Held {
        state: [0; STATE],
        files: vec![fill; BOARD_FILES],
    };
    let strong = strong(c, stock);
    let spoil = c.random.within(3, 40);
    for name in 0..NAMES {
        let wild = c.random.once_in(spoil);
        let rule = if wild || strong.is_empty() {
            c.random.pick(stock).clone()
        } else {
            c.random.pick(&strong).clone()
        };
        let n = rule.bytes.first().map_or(1, |n| *n as usize).clamp(1, 64);
        let mut value = || match c.random.below(if wild { 4 } else { 3 }) {
            0 => NONE as u8,
            3 => c.random.below(256) as u8,
            _ => c.random.below(n) as u8,
        };
        let (before, since) = (value(), value());
        let flag = *c.random.pick(&[0, 0, 1, 1, 2, 255]);
        held.state[3 * name..3 * name + 3].copy_from_slice(&[flag, before, since]);
        let from = name * SLOT;
        held.files[from..from + rule.bytes.len()].copy_from_slice(&rule.bytes);
        if wild && c.random.once_in(2) {
            let at = c.random.below(rule.bytes.len().max(1) + 2);
            held.files[from + at] = c.random.below(256) as u8;
            c.tally.count("board", "a byte of a file spoilt");
        }
    }
    // The lowest grade that is handed in is not looked at.
    held.state[STATE - 1] = c.random.below(256) as u8;
    for _ in 0..c.random.within(1, 4) {
        let letters = c.random.within(1, 4);
        let deed = deed(c, stock, letters);
        let sizes = sizes(c, 20);
        let done = c.board(&mut held, &deed, subjects, sizes);
        let what = if done.is_some() { "done" } else { "refused" };
        c.tally.count("board", format!("made up, {what}"));
    }
}

/// A file for each number of a refusal that a rule on a board can have, from W and Z.
const FAULTS: [(u8, &[u8]); 9] = [
    (1, &[2, 0, 0, 0, 1, 2, 0, 1, 1, 0, 0, 0]),
    (2, &[2, 0, 0, 0, 1, 17, 0, 1, 1, 0, 0, 0, 3]),
    (3, &[2, 0, 0, 0, 1, 2, 0, 1, 1, 0, 0, 0, 4]),
    (4, &[2, 0, 0, 0, 1, 2, 0, 1, 1, 0, 0, 0, 3, 0]),
    (5, &[2, 1, 0, 0, 0, 2, 0, 1, 0, 0]),
    (6, &[2, 0, 0, 0, 1, 2, 1, 1, 0, 0]),
    (7, &[2, 0, 1, 1, 0, 2, 1, 0, 1, 0, 0, 1, 3]),
    (8, &[2, 0, 0, 0, 1, 2, 0, 1, 2, 0, 0, 0, 3, 0, 0, 2]),
    (12, &[2, 0, 1, 1, 0, 2, 1, 0, 1, 0, 0, 0, 3]),
];

/// Each refusal at each name, behind good rules and before faulty ones; in a file that enters, behind all that are present. A file on a board
/// ends where its counts say, so that 1 and 4 are those of a file that enters.
fn every_refusal(c: &mut Comparison, round: usize, subjects: &mut Subjects) {
    let good = subjects.of(&[2, 0, 0, 0, 1, 2, 0, 1, 1, 0, 0, 0, 3]);
    for (name, (number, file)) in (0..NAMES).flat_map(|name| FAULTS.map(|fault| (name, fault))) {
        let fault = subjects.of(file);
        let mut held = Held {
            state: [NONE as u8; STATE],
            files: vec![0; BOARD_FILES],
        };
        for other in 0..NAMES {
            let rule = if other < name { &good } else { &fault };
            let present = other != name && (round == 0 || c.random.once_in(2));
            held.state[3 * other] = u8::from(present);
            held.files[other * SLOT..][..rule.bytes.len()].copy_from_slice(&rule.bytes);
        }
        // Nobody is behind the name, where the fault lies in the file that enters.
        let mut before = held.clone();
        (name..NAMES).for_each(|other| before.state[3 * other] = 0);
        refused(
            c,
            &mut before,
            &Deed::Enter(name, fault.clone()),
            (number, name),
            subjects,
        );
        if matches!(number, 1 | 4) {
            continue;
        }
        held.state[3 * name] = 1;
        let free = (0..NAMES).find(|other| held.state[3 * other] == 0);
        // Letter 9 is foreign to the good rules below too, and comes after every rule's own checks.
        let mut deeds = vec![Deed::Leave(name), Deed::Event(9), Deed::Mark];
        deeds.extend(free.map(|free| Deed::Enter(free, fault.clone())));
        for deed in deeds {
            refused(c, &mut held, &deed, (number, name), subjects);
        }
        // A monitor's value is looked at before the strength.
        held.state[3 * name + 1] = 2;
        refused(
            c,
            &mut held,
            &Deed::Mark,
            (if number == 12 { 3 } else { number }, name),
            subjects,
        );
    }
}

fn refused(
    c: &mut Comparison,
    held: &mut Held,
    deed: &Deed,
    (number, name): (u8, usize),
    subjects: &mut Subjects,
) {
    let sizes = c.enough(BOARD_SIZES);
    let expected = c.board_refusal(held, deed, subjects);
    let found = expected.map(|(number, input, _)| (number, usize::from(input)));
    assert_eq!(found, Some((number, name)), "the engine's own refusal");
    assert_eq!(c.board(held, deed, subjects, sizes), None);
    c.tally.count("board", "a refusal at its name");
}
