//! Reduction: strong, the same grades, the marks that it must have, no larger than the syntactic classes, in its order, and the same when
//! reduced again; its map byte for byte, and a yes to both.

use super::markings::outcomes;
use super::{lengths, Comparison, CONFIRM_SIZES};
use crate::definitions::acceptance::{grade, Marking};
use crate::definitions::confirmed::own_map;
use crate::definitions::contexts;
use crate::definitions::cycles::Decided;
use crate::definitions::order;
use crate::definitions::rule::Morphism;
use crate::definitions::splits;
use crate::subject::{Known, Subject};
use duknavet::{MAP_OUT, RULE_OUT, SCRATCH};

pub const REDUCE_SIZES: [usize; 3] = [RULE_OUT, MAP_OUT, SCRATCH];

impl Comparison {
    pub fn reduce(&mut self, subject: &Subject, sizes: [usize; 3]) {
        let [mut out, mut map, mut scratch] = self.lend(sizes);
        let (file, lent) = (out.slice(), map.slice());
        let answer = duknavet::reduce(&subject.bytes, file, lent, scratch.slice());
        let expected = lengths(sizes, REDUCE_SIZES).and_then(|()| self.asked_strong(subject));
        let expected = expected.map(|_| ());
        let inputs: [&[u8]; 1] = [&subject.bytes];
        let outs = [&out, &map];
        let found = self.agreed("reduce", &inputs, answer, expected, (&outs, &scratch));
        let Some((answer, ())) = found else { return };
        let written = Subject::new(out.written(answer.length).to_vec());
        let (known, reduced) = (subject.known(), written.known());
        let ordered = self.ordered("reduce", &reduced.rule, true);
        if let Err(fault) = compare(known, reduced).and(ordered) {
            panic!("reduction of {inputs:?}: {fault}");
        }
        let m = known.morphism();
        let map = map.written(m.n);
        assert_eq!(map, own_map(m, outcomes(known)), "map of {inputs:?}");
        let values = known
            .words
            .iter()
            .map(|word| reduced.morphism().value(word));
        assert!(
            values.eq(map.iter().copied()),
            "words' values of {inputs:?}"
        );
        let yes = self.confirm((subject, &written), map, CONFIRM_SIZES);
        assert_eq!(yes, Some(true), "confirmation of the reduced {inputs:?}");
        self.tally.count("confirm", "yes to what was written");
        self.reduce_again(&written.bytes);
        self.reduce_backwards(known, &written.bytes);
        let size = reduced.morphism().n;
        let outcome = match size < known.morphism().n {
            true => "smaller",
            false => "as large",
        };
        self.tally.count("reduce", outcome);
        self.count_marks("reduce", &reduced.rule.marks);
        if size == 64 {
            self.tally.count("reduce", "64 elements");
        }
    }

    /// Reducing a reduced file returns it.
    fn reduce_again(&mut self, written: &[u8]) {
        let again = self.print(written);
        assert_eq!(again, written, "reduction of the reduced {written:?}");
        self.tally.count("reduce", "the same when reduced again");
    }

    /// The same rule, with its elements numbered backwards and so its marks in another order, has the same bytes for its reduction.
    fn reduce_backwards(&mut self, known: &Known, written: &[u8]) {
        let bytes = order::backwards(&known.rule).bytes();
        assert_eq!(self.print(&bytes), written, "reduction of {bytes:?}");
        self.tally
            .count("reduce", "the same from another numbering");
    }
}

fn compare(known: &Known, reduced: &Known) -> Result<(), String> {
    let (m, r) = (known.morphism(), reduced.morphism());
    if r.letters() != m.letters() {
        return Err(format!("{} letters", r.letters()));
    }
    let image = images(m, r, &known.words).ok_or("the letters' elements give no map")?;
    let outcomes = outcomes(known);
    // Two elements have one image exactly if no context tells them apart; every element of r is reached, so the map is onto
    // and r is the table of the classes, renumbered.
    let (class, count) = contexts::classes(m, outcomes);
    let pairs = || (0..m.n).flat_map(|s| (0..s).map(move |t| (s, t)));
    if r.n != count || pairs().any(|(s, t)| (image[s] == image[t]) != (class[s] == class[t])) {
        return Err(format!("{} elements for {count} classes", r.n));
    }
    // It marks the linked pairs with the grade that the given rule gives to their lassos, and no other.
    for (t, f) in r.elements().flat_map(|t| r.elements().map(move |f| (t, f))) {
        let (u, v) = (&reduced.words[t as usize], &reduced.words[f as usize]);
        let expected = match r.linked((t, f)) {
            true => grade(m, &known.marking, u, v),
            false => 0,
        };
        if reduced.marking.grade((t, f)) != expected {
            return Err(format!("the grade of ({t}, {f}) should be {expected}"));
        }
    }
    // The same grades of lassos, one for each two values of the given rule (both are strong).
    let marking: &Marking = &reduced.marking;
    for (s, u) in known.words.iter().enumerate() {
        for (z, v) in known.words.iter().enumerate() {
            if grade(r, marking, u, v) != outcomes[s * m.n + z] {
                return Err(format!("the lassos of values {s} and {z} differ"));
            }
        }
    }
    for v in &known.words {
        if grade(r, marking, &[], v) != grade(m, &known.marking, &[], v) {
            return Err(format!("{v:?} for ever differs"));
        }
    }
    let strong = match reduced.decided() {
        Decided::Unknown => splits::strong(r, marking),
        decided => *decided == Decided::Yes,
    };
    match strong {
        true => Ok(()),
        false => Err("it is weak".to_string()),
    }
}

/// The map from m's elements to r's that takes the value of a word in m to its value in r, if that is a map: it then takes
/// products with letters, hence all products, to products.
fn images(m: &Morphism, r: &Morphism, words: &[Vec<u8>]) -> Option<Vec<u8>> {
    let image: Vec<u8> = words.iter().map(|word| r.value(word)).collect();
    for (a, element) in m.images.iter().enumerate() {
        if image[*element as usize] != r.images[a] {
            return None;
        }
        for s in m.elements() {
            let (here, there) = (
                m.product(s, *element),
                r.product(image[s as usize], r.images[a]),
            );
            if image[here as usize] != there {
                return None;
            }
        }
    }
    Some(image)
}
