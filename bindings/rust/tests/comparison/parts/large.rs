//! Rules of 64 elements and of 16 letters.

use super::rules::every_call;
use crate::calls::*;
use crate::definitions::rule::{marks_section, Mark, Morphism};
use crate::inputs::{marks, morphisms};
use crate::subject::Subject;
use std::cell::OnceCell;
use std::rc::Rc;

pub fn run(c: &mut Comparison) {
    for kind in 0..morphisms::KINDS {
        let m = morphisms::largest(&mut c.random, kind);
        let cycles = Rc::new(OnceCell::new());
        for round in 0..4 {
            let marks = match round {
                0 => marks::closed(&mut c.random, &m),
                1 => marks::nearly_closed(&mut c.random, &m),
                _ => marks::mixed(&mut c.random, &m),
            };
            let subject = Subject::sharing(m.with(marks).bytes(), cycles.clone());
            every_call(c, &subject);
            c.classes(&subject, CLASSES_SIZES);
            let none = marks_section(&[]);
            c.included(&subject, &none, INCLUDED_SIZES);
        }
        deep(c, &m);
    }
    for _ in 0..40 {
        let (rows, columns) = (c.random.within(1, 4), c.random.within(1, 4));
        let band = morphisms::rectangular_band(&mut c.random, rows, columns, true).expect("small");
        let m = morphisms::product(&mut c.random, &band, &band, 16, 64);
        let Some(m) = m else { continue };
        let marks = marks::mixed(&mut c.random, &m);
        let subject = Subject::new(m.with(marks).bytes());
        every_call(c, &subject);
        c.classes(&subject, CLASSES_SIZES);
    }
    longest(c);
}

/// A mark whose second element only long words have: the search for a lasso goes far, through hundreds of states.
fn deep(c: &mut Comparison, m: &Morphism) {
    let words = m.words();
    let length = |e: u8| words[e as usize].as_ref().map_or(0, Vec::len);
    let mut linked = m.linked_pairs();
    linked.sort_by_key(|(s, e)| (length(*e), length(*s)));
    let last = linked[linked.len() - 1];
    let (pair, grade) = (last, c.random.within(1, 3) as u8);
    let subject = Subject::new(m.with(vec![Mark { pair, grade }]).bytes());
    c.included(&subject, &marks_section(&[]), INCLUDED_SIZES);
    let mut others = marks::any(&mut c.random, m);
    others.retain(|mark| mark.pair != last);
    c.included(&subject, &marks_section(&others), INCLUDED_SIZES);
    c.strong(&subject, STRONG_SIZES);
}

/// The longest file that there is: 64 elements with s·t = s, so that every pair is linked, all of them marked. With 16
/// letters 16 elements are reached.
fn longest(c: &mut Comparison) {
    let mut bytes = vec![64];
    bytes.extend((0..64).flat_map(|s| [s; 64]));
    bytes.push(16);
    bytes.extend(0..16);
    bytes.extend(4_096u16.to_le_bytes());
    bytes.extend((0..64).flat_map(|s| (0..64).flat_map(move |e| [s, e, 1 + e % 3])));
    assert_eq!(bytes.len(), 16_404);
    let subject = Subject::new(bytes.clone());
    assert_eq!(subject.read.as_ref().err(), Some(&(6, 1, 16)));
    c.strong(&subject, STRONG_SIZES);
    c.classes(&subject, CLASSES_SIZES);
    // One byte more, and one mark more than a file may have.
    bytes.push(0);
    c.strong(&Subject::new(bytes.clone()), STRONG_SIZES);
    bytes.extend([0, 1]);
    bytes[1 + 64 * 64 + 17..][..2].copy_from_slice(&4_097u16.to_le_bytes());
    c.strong(&Subject::new(bytes), STRONG_SIZES);
    // The same with 16 elements, all reached: every pair is marked, with the grade that its first element decides.
    let mut bytes = vec![16];
    bytes.extend((0..16).flat_map(|s| [s; 16]));
    bytes.push(16);
    bytes.extend(0..16);
    bytes.extend(256u16.to_le_bytes());
    bytes.extend((0..16).flat_map(|s| (0..16).flat_map(move |e| [s, e, 1 + s % 3])));
    let subject = Subject::new(bytes);
    every_call(c, &subject);
    c.classes(&subject, CLASSES_SIZES);
}
